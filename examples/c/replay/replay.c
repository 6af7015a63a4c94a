/*
 * Two lists: an EEPROM block is written by 81 bits and read back, and the ID word of a Macronix flash chip is read. Each is
 * played without a cut and with a cut after each call. The output is the same. The changed flag is part of it.
 */
#include <gbasave.h>
#include <gbasave_replay.h>

#include <stdio.h>
#include <stdlib.h>
#include <string.h>

enum { LIST = 1024, OUT = GBASAVE_MEMORY_FLASH64 + 1024, NOWHERE = -1 };

typedef struct list {
    uint8_t bytes[LIST];
    size_t length;
    int items;
    int cut_after; /* the number of the item after which the cut is made */
} list;

static void end_item(list *l)
{
    if (l->items++ == l->cut_after)
        l->bytes[l->length++] = 0x0A;
}

/* The item's number and its bytes. */
static void item(list *l, uint8_t number, const uint8_t *bytes, size_t count)
{
    l->bytes[l->length++] = number;
    for (size_t i = 0; i < count; i++)
        l->bytes[l->length++] = bytes[i];
    end_item(l);
}

static void halfword(list *l, uint8_t number, unsigned value)
{
    const uint8_t bytes[] = {(uint8_t)(value >> 8), (uint8_t)value};
    item(l, number, bytes, sizeof bytes);
}

static void bits(list *l, uint64_t value, int count)
{
    while (count-- > 0)
        halfword(l, 0x04, (unsigned)(value >> count & 1));
}

/* DMA 81 and the 81 bits; DMA 17 and the 17 bits; 68 reads; the flag; the state. */
static list write_and_read(int cut_after)
{
    list l = {.length = 0, .items = 0, .cut_after = cut_after};
    halfword(&l, 0x05, 81);
    bits(&l, 2, 2);
    bits(&l, 100, 14);
    bits(&l, 0x0123456789ABCDEF, 64);
    bits(&l, 0, 1);
    halfword(&l, 0x05, 17);
    bits(&l, 3, 2);
    bits(&l, 100, 14);
    bits(&l, 0, 1);
    for (int i = 0; i < 68; i++)
        item(&l, 0x03, NULL, 0);
    item(&l, 0x06, NULL, 0);
    item(&l, 0x07, NULL, 0);
    return l;
}

/* ID mode on, by three writes; the maker, at an even address; the device, at an odd one. */
static list read_id(int cut_after)
{
    static const uint8_t writes[3][5] = {
        {0x0E, 0, 0x55, 0x55, 0xAA}, {0x0E, 0, 0x2A, 0xAA, 0x55}, {0x0E, 0, 0x55, 0x55, 0x90}};
    static const uint8_t reads[2][4] = {{0x0E, 0, 0, 0}, {0x0E, 0, 0, 1}};
    list l = {.length = 0, .items = 0, .cut_after = cut_after};
    for (int i = 0; i < 3; i++)
        item(&l, 0x02, writes[i], sizeof writes[i]);
    for (int i = 0; i < 2; i++)
        item(&l, 0x01, reads[i], sizeof reads[i]);
    return l;
}

/* A game: its marker, the part with which it is opened, the length of its memory, and what it does. */
typedef struct game {
    const char *marker;
    uint32_t part;
    size_t memory;
    list (*calls)(int cut_after);
} game;

static const game EEPROM = {"EEPROM_V", GBASAVE_PART_USUAL, GBASAVE_MEMORY_EEPROM512, write_and_read};
static const game FLASH = {"FLASH_V", GBASAVE_PART_MACRONIX_64K, GBASAVE_MEMORY_FLASH64, read_id};

static uint32_t play(const game *g, const list *l, uint8_t *out)
{
    static uint8_t image[GBASAVE_IMAGE_MIN], memory[GBASAVE_MEMORY_FLASH64], scratch[GBASAVE_MEMORY_FLASH64];
    memset(image, 0, sizeof image);
    memcpy(image, g->marker, strlen(g->marker));
    memset(out, 0, OUT);
    return gbasave_replay(image, sizeof image, g->part, l->bytes, l->length, memory, g->memory, scratch, g->memory, out, OUT);
}

static void played(const game *g, const list *l, uint8_t *out)
{
    const uint32_t answer = play(g, l, out);
    if (answer != 0) {
        printf("refused: %u\n", (unsigned)answer);
        exit(1);
    }
}

static void cut_after_each(const game *g, const uint8_t *uncut)
{
    static uint8_t cut[OUT];
    const int items = g->calls(NOWHERE).items;
    int same = 0;
    for (int number = 0; number < items; number++) {
        const list with_cut = g->calls(number);
        played(g, &with_cut, cut);
        if (memcmp(cut, uncut, OUT) != 0) {
            printf("a cut after item %d changes the output\n", number);
            exit(1);
        }
        same++;
    }
    printf("a cut after each of %d calls: the same output %d times\n", items, same);
}

int main(void)
{
    static uint8_t uncut[OUT];
    list l = write_and_read(NOWHERE);
    played(&EEPROM, &l, uncut);
    const uint8_t *reads = uncut + 1 + 81 + 1 + 17, *flag = reads + 2 * 68, *state = flag + 2;
    uint64_t data = 0;
    for (int i = 4; i < 68; i++)
        data = data << 1 | reads[2 * i + 1];
    printf("read back: %08lX%08lX\n", (unsigned long)(data >> 32), (unsigned long)(data & 0xFFFFFFFF));
    printf("the flag: %u; taken, in the state: %u\n", flag[1], state[1 + GBASAVE_STATE_FLAG]);
    cut_after_each(&EEPROM, uncut);

    l = read_id(NOWHERE);
    played(&FLASH, &l, uncut);
    printf("%s: the device is %02X, the maker %02X\n", gbasave_part_text(FLASH.part), uncut[6], uncut[4]);
    cut_after_each(&FLASH, uncut);

    const game misfit = {FLASH.marker, GBASAVE_PART_MACRONIX_128K, FLASH.memory, read_id};
    const uint32_t answer = play(&misfit, &l, uncut);
    printf("%s: refused, %u: %s\n", gbasave_part_text(misfit.part), (unsigned)answer, gbasave_refusal_text(answer));
    const list none = {.bytes = {0x04, 0x00}, .length = 2};
    printf("not a list: %02X\n", (unsigned)play(&FLASH, &none, uncut));
    return 0;
}
