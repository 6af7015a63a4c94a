/*
 * Tallies: what they have to be after a store, and what the two answers from them; every number of them; and lists of stores, with right tallies and
 * with foreign ones. Held against document 02's ticket 4 as written here.
 */
#include "questions.h"

#include <stdio.h>
#include <string.h>

/* ---- What they have to be ---------------------------------------------------------------------------------------------------------------------- */

/* "A tally of bytes other than FFh is kept for each 4,096 bytes of memory": so many of them. */
size_t tallies_of(unsigned kind)
{
    return SIZE[kind] / STRETCH;
}

/* Bytes other than FFh in a stretch. */
static int used(const uint8_t *stretch)
{
    int n = 0;
    for (size_t i = 0; i < STRETCH; i++)
        n += stretch[i] != 0xFF;
    return n;
}

/* "a store adds its change, modulo 65,536", of one stretch of which this many bytes are others than before. */
static void add_change(size_t stretch, int used_before, int used_after, int changed)
{
    const long sum = (long)expected[stretch] + (fault == TALLIES ? changed : used_after - used_before);
    if (fault == MODULO)
        expected[stretch] = (uint16_t)(sum < 0 ? 0 : sum > 65535 ? 65535 : sum);
    else
        expected[stretch] = (uint16_t)((sum + 65536) % 65536);
}

/* "the number of memory places whose value differs from before", of the whole memory. Stretches that are the same are passed over; the tallies of the
   others change. */
uint32_t changed_bytes(size_t memory)
{
    uint32_t changed = 0;
    for (size_t at = 0; at < memory; at += STRETCH) {
        if (memcmp(before + at, scratch + at, STRETCH) == 0)
            continue;
        int others = 0;
        for (size_t i = at; i < at + STRETCH; i++)
            others += before[i] != scratch[i];
        add_change(at / STRETCH, used(before + at), used(scratch + at), others);
        memcpy(before + at, scratch + at, STRETCH);
        changed += (uint32_t)others;
    }
    return changed;
}

/* "the first stretch in use (numbered from 0), or that there is none", from the tallies. */
uint32_t first_by_tallies(size_t count)
{
    for (size_t i = 0; i < count; i++)
        if (expected[i] != 0)
            return (uint32_t)i + (fault == STRETCHES);
    return GBASAVE_NONE_IN_USE;
}

/* "Is it blank": no tally is other than 0. */
uint32_t blank_by_tallies(size_t count)
{
    uint32_t sum = 0;
    for (size_t i = 0; i < count; i++)
        sum += expected[i];
    return fault == SUM ? (uint16_t)sum == 0 : sum == 0;
}

void set_tallies(uint16_t value)
{
    for (size_t i = 0; i <= MOST_TALLIES; i++)
        tallies[i] = expected[i] = value;
}

/* ---- Numbers of tallies, and what they hold --------------------------------------------------------------------------------------- */

/* Every number of tallies from 0 to 40, of every kind: all calls on a record, which is valid or not, and openings with a part that fits or not; both
   with the right memory and with a wrong one. */
int ask_counts(void)
{
    memcpy(before, scratch, LONGEST);
    set_tallies(0);
    for (unsigned kind = 0; kind < KINDS; kind++)
        for (size_t count = 0; count <= MOST_TALLIES; count++)
            for (size_t base = 0; base < BASES; base++) {
                uint8_t r[RECORD];
                make_record(r, kind, 0, base);
                if (ask(r, SIZE[kind], count) || ask(r, SIZE[kind] + 1, count))
                    return 1;
                r[GBASAVE_RECORD_FLAG] = 2;
                if (ask(r, SIZE[kind], count) || ask(r, SIZE[kind] + 1, count))
                    return 1;
            }
    for (unsigned kind = 0; kind < KINDS; kind++) {
        const size_t length = make_image(kind);
        const uint32_t misfit = kind == GBASAVE_KIND_FLASH64 ? GBASAVE_PART_SANYO_128K : GBASAVE_PART_SST_64K;
        for (size_t count = 0; count <= MOST_TALLIES; count++)
            if (ask_opening(kind, length, GBASAVE_PART_USUAL, SIZE[kind], count) || ask_opening(kind, length, misfit, SIZE[kind], count) ||
                ask_opening(kind, length, misfit, SIZE[kind] + 1, count) || ask_opening(kind, 191, misfit, SIZE[kind] + 1, count))
                return 1;
    }
    return 0;
}

static int wrong_tallies(const char *what, unsigned kind, unsigned step)
{
    printf("questions: %s, kind %u, step %u, tallies", what, kind, step);
    for (size_t i = 0; i < tallies_of(kind); i++)
        printf(" %u", tallies[i]);
    printf("\n");
    return 1;
}

/* The two answers, by the tallies alone: a record of the kind, whatever memory there is. */
static int ask_answers(unsigned kind, const gbasave_record *r, unsigned step)
{
    const size_t count = tallies_of(kind);
    gbasave_record given = *r;
    uint32_t blank = PLACE, first = PLACE;
    calls += 2;
    by_number[0] += 2;
    if (gbasave_is_blank(&given, tallies, count, &blank) != 0 || gbasave_first_in_use(&given, tallies, count, &first) != 0)
        return wrong_tallies("the answers from the tallies, another number", kind, step);
    if (blank != blank_by_tallies(count) || first != first_by_tallies(count))
        return wrong_tallies("another answer from the tallies", kind, step);
    if (memcmp(given.bytes, r->bytes, RECORD) != 0 || memcmp(tallies, expected, sizeof tallies) != 0)
        return wrong_tallies("an answer from the tallies changes something", kind, step);
    return 0;
}

/* Tallies of which one or two are not 0, whose sum may be 0 modulo 65,536, and all of which are not. Those past the kind's own do not count. */
int ask_tallies(void)
{
    static const uint16_t VALUES[] = {1, 2, 255, 256, 4095, 4096, 4097, 32767, 32768, 65280, 65535};
    enum { NUMBER = sizeof VALUES / sizeof *VALUES };
    for (unsigned kind = 0; kind < KINDS; kind++)
        for (size_t base = 0; base < BASES; base++)
            for (unsigned v = 0; v < NUMBER; v++) {
                gbasave_record r;
                make_record(r.bytes, kind, 0, base);
                set_tallies(VALUES[v]);
                if (ask_answers(kind, &r, v))
                    return 1;
                for (size_t a = 0; a <= MOST_TALLIES; a++)
                    for (size_t b = a; b <= MOST_TALLIES; b++) {
                        set_tallies(0);
                        tallies[b] = expected[b] = (uint16_t)(65536 - VALUES[v]);
                        tallies[a] = expected[a] = VALUES[v];
                        if (ask_answers(kind, &r, v))
                            return 1;
                    }
            }
    return 0;
}

/* ---- Lists of stores -------------------------------------------------------------------------------------------------------------- */

enum { STEPS = 300, ROUNDS = 12, LONGEST_FILE = GBASAVE_MEMORY_MAX + GBASAVE_STRETCH_SIZE };

/* The cartridge of a list, beside scratch and the tallies, and the steps so far. */
static struct {
    unsigned kind, step;
    gbasave_record record;
    int right; /* its tallies are those of its memory */
} cart;

/* Files: some FFh in them, none in use, all in use, in use from the middle on. */
static uint8_t files[4][LONGEST_FILE];

static void make_files(void)
{
    for (size_t i = 0; i < LONGEST_FILE; i++) {
        files[0][i] = (uint8_t)(i * 31 + i / 256);
        files[1][i] = 0xFF;
        files[2][i] = (uint8_t)(i % 255);
        files[3][i] = i < LONGEST_FILE / 2 ? 0xFF : 0x5A;
    }
}

/* What a call left that has to answer this number: the number of changed bytes, the memory if it is refused, the tallies and the answers from them.
   Right tallies are also counted: then both answers are those of a full reading. */
static int held(uint32_t answer, uint32_t no, uint32_t changed)
{
    calls++;
    by_number[no]++;
    if (answer != no)
        return wrong_tallies("a list, another number", cart.kind, cart.step);
    if (no && memcmp(before, scratch, SIZE[cart.kind]) != 0)
        return wrong_tallies("a list, a refused call changes the memory", cart.kind, cart.step);
    if (changed != (no ? (uint32_t)PLACE : changed_bytes(SIZE[cart.kind])))
        return wrong_tallies("a list, another number of changed bytes", cart.kind, cart.step);
    if (memcmp(tallies, expected, sizeof tallies) != 0)
        return wrong_tallies("a list, other tallies", cart.kind, cart.step);
    for (size_t i = 0; cart.right && i < tallies_of(cart.kind); i++)
        if (tallies[i] != used(scratch + i * STRETCH))
            return wrong_tallies("a list, not the bytes in use", cart.kind, cart.step);
    return ask_answers(cart.kind, &cart.record, cart.step);
}

/* A restore of any bytes, which is not passed the tallies; a serial or flash position if it is to be accepted. */
static int restored(const uint8_t *state, size_t length, uint32_t no)
{
    const uint32_t answer = gbasave_restore_chip_state(&cart.record, state, length);
    return held(answer, no, no ? (uint32_t)PLACE : 0);
}

/* A place: the first or the last byte of a stretch, or any. */
static uint32_t place_of_byte(void)
{
    const uint32_t size = SIZE[cart.kind] ? SIZE[cart.kind] : 1, at = random_below(size);
    switch (random_below(3)) {
    case 0: return at / STRETCH * STRETCH;
    case 1: return size == 1 ? 0 : at / STRETCH * STRETCH + STRETCH - 1;
    default: return at;
    }
}

/* A byte write; on flash, after a restore of its state, a program, a sector erase, a chip erase, or a step of a command. */
static int store_byte(void)
{
    static const uint8_t VALUES[] = {0xFF, 0xFF, 0x00, 0x5A, 0xFE};
    const uint32_t at = place_of_byte(), what = random_below(16);
    uint8_t chip[GBASAVE_CHIP_SIZE] = {what < 10 ? 4 : what < 15 ? 8 : 0, (uint8_t)(at >> 16)}, value = VALUES[random_below(sizeof VALUES)];
    uint32_t changed = PLACE;
    if (cart.kind == GBASAVE_KIND_FLASH64 || cart.kind == GBASAVE_KIND_FLASH128) {
        value = what < 10 ? value : what < 14 ? 0x30 : 0x10;
        if (restored(chip, sizeof chip, 0))
            return 1;
    }
    const uint32_t answer = gbasave_save_write(&cart.record, scratch, SIZE[cart.kind], tallies, tallies_of(cart.kind), at, value, &changed);
    return held(answer, 0, changed);
}

/* The bit that stores a block, after a restore: any block, and those at the ends of the stretches. */
static int store_block(void)
{
    static const uint16_t BLOCKS[] = {0, 511, 512, 1023};
    const uint32_t block = random_below(2) ? BLOCKS[random_below(4)] : random_below(1024);
    uint8_t chip[GBASAVE_CHIP_SIZE] = {0, 0, 0, 14, 1, 3, 63, (uint8_t)block, (uint8_t)(block >> 8)};
    for (unsigned i = 10; i < GBASAVE_CHIP_SIZE; i++)
        chip[i] = (uint8_t)(random_below(2) ? 0xFF : random_below(256));
    uint32_t changed = PLACE;
    if (restored(chip, sizeof chip, 0))
        return 1;
    const uint32_t answer =
        gbasave_eeprom_write(&cart.record, scratch, SIZE[cart.kind], tallies, tallies_of(cart.kind), random_below(2), &changed);
    return held(answer, cart.kind < GBASAVE_KIND_EEPROM512 ? 4 : 0, changed);
}

/* Shorter than a stretch, ending in one and at its ends, as long as the memory and longer. */
static size_t length_of_load(void)
{
    const size_t size = SIZE[cart.kind], end = (size_t)(random_below(32) + 1) * STRETCH;
    const size_t lengths[] = {0, 1, 100, end - 1, end, end + 1, size ? size - 1 : 0, size, size + 1, LONGEST_FILE, random_below(LONGEST_FILE)};
    return lengths[random_below(sizeof lengths / sizeof *lengths)];
}

static int load(void)
{
    const uint8_t *from = files[random_below(4)];
    uint32_t changed = PLACE;
    const uint32_t answer =
        gbasave_load_save(&cart.record, scratch, SIZE[cart.kind], tallies, tallies_of(cart.kind), from, length_of_load(), &changed);
    return held(answer, 0, changed);
}

/* 14: the chip's size, or 16 bytes more; Sram twice its own; both EEPROM kinds 512 and 8,192. */
static int takes(unsigned kind, size_t length)
{
    const size_t size = SIZE[kind];
    return size && (length == size || length == size + 16 || (kind == GBASAVE_KIND_SRAM && (length == 2 * size || length == 2 * size + 16)) ||
                    (kind >= GBASAVE_KIND_EEPROM512 && (length == 512 || length == 528)));
}

static int import(void)
{
    static const size_t LENGTHS[] = {0, 100, 512, 528, 8192, 8208, 32768, 32784, 65536, 65552, 131072, 131088};
    const size_t length = LENGTHS[random_below(sizeof LENGTHS / sizeof *LENGTHS)];
    uint32_t kept_bytes = PLACE, changed = PLACE;
    const uint32_t answer = gbasave_import_save(&cart.record, scratch, SIZE[cart.kind], tallies, tallies_of(cart.kind), files[random_below(4)],
                                                length, &kept_bytes, &changed);
    return held(answer, takes(cart.kind, length) ? 0 : 14, changed);
}

/* A restore of bytes with some chance to be allowed, of either layout. Which question refuses them is asked elsewhere. */
static int restore_any(void)
{
    static const uint8_t BELOW[] = {10, 2, 2, 15, 2, 7};
    const size_t length = random_below(2) ? GBASAVE_STATE_SIZE : GBASAVE_CHIP_SIZE;
    uint8_t state[GBASAVE_STATE_SIZE] = {0};
    gbasave_record other = cart.record;
    for (size_t i = 0; i < sizeof BELOW; i++)
        state[i] = (uint8_t)random_below(BELOW[i]);
    state[3] = state[3] < 7 ? 0 : state[3] < 14 ? 14 : 6;
    state[GBASAVE_STATE_FLAG] = (uint8_t)random_below(3);
    state[GBASAVE_STATE_LAYOUT] = random_below(8) ? 2 : 1;
    return restored(state, length, gbasave_restore_chip_state(&other, state, length));
}

/* A call that stores, with a wrong number of tallies; or with a wrong memory too; or with an invalid record too. */
static int refuse(void)
{
    static const unsigned STORING[] = {1, 2, 4, 6, 7, 8};
    static uint8_t bytes[GBASAVE_STATE_SIZE + 511];
    const unsigned call = STORING[random_below(6)], faults = random_below(3);
    const size_t count = (tallies_of(cart.kind) + 1 + random_below(MOST_TALLIES)) % (MOST_TALLIES + 1);
    gbasave_record r = cart.record;
    uint32_t place = PLACE, changed = PLACE;
    if (faults == 2)
        r.bytes[GBASAVE_RECORD_FLAG] = 2;
    const uint32_t answer = made(call, &r, scratch, SIZE[cart.kind] + (faults > 0), count, bytes, &place, &changed);
    return held(answer, faults == 2 ? 2 : faults == 1 ? 3 : 16, changed);
}

static int one_step(void)
{
    switch (random_below(16)) {
    case 0: return load();
    case 1: return import();
    case 2: return restore_any();
    case 3: return refuse();
    case 4: case 5: case 6: case 7: case 8: return store_block();
    default: return store_byte();
    }
}

/* Opens the cartridge, whose image is made. */
static int open_cart(void)
{
    const size_t image_length = make_image(cart.kind);
    if (fault != OPENED)
        memset(expected, 0, tallies_of(cart.kind) * sizeof *expected);
    calls++;
    by_number[0]++;
    if (gbasave_from_bytes(&cart.record, image, image_length, 0, scratch, SIZE[cart.kind], tallies, tallies_of(cart.kind)) != 0)
        return wrong_tallies("a list, an opening is refused", cart.kind, 0);
    memcpy(before, scratch, LONGEST);
    cart.right = 1;
    return memcmp(tallies, expected, sizeof tallies) != 0 ? wrong_tallies("a list, other tallies of an opening", cart.kind, 0) : 0;
}

/* Lists with right tallies, after an opening, and with foreign ones: 0, 1, 65,535 and others for whatever the memory holds. */
int ask_lists(void)
{
    static const uint16_t FOREIGN[] = {0, 1, 65535, 4096, 32768};
    make_files();
    for (unsigned kind = 0; kind < KINDS; kind++)
        for (unsigned round = 0; round < ROUNDS; round++) {
            cart.kind = kind;
            cart.step = 0;
            set_tallies(FOREIGN[round % 5]);
            if (open_cart())
                return 1;
            if (round % 2) {
                set_tallies(FOREIGN[round / 2 % 5]);
                cart.right = 0;
            }
            while (cart.step++ < STEPS)
                if (one_step())
                    return 1;
        }
    return 0;
}

