#include "refusals.h"

#include "check.h"
#include "game.h"

#include <stdio.h>
#include <stdlib.h>
#include <string.h>

#define UNTOUCHED 0xA5A5A5A5u

static void shown(uint32_t number, const char *what, uint32_t answer)
{
    expect(what, answer == number);
    printf("  %2u  %-46s %s\n", (unsigned)answer, what, gbasave_refusal_text(answer));
}

/* A cartridge and a copy of it, to check that a refused call changes nothing. */
typedef struct pair {
    cartridge cart;
    cartridge before;
} pair;

static pair open_pair(const char *title, const char *marker)
{
    uint8_t *image = make_image(title, marker);
    pair p;
    accepted("opening", cartridge_open(&p.cart, image, IMAGE_LENGTH, GBASAVE_PART_USUAL));
    accepted("opening", cartridge_open(&p.before, image, IMAGE_LENGTH, GBASAVE_PART_USUAL));
    free(image);
    return p;
}

static void close_pair(pair *p)
{
    cartridge_close(&p->cart);
    cartridge_close(&p->before);
}

static void unchanged(const char *what, const pair *p)
{
    same(what, p->cart.record.bytes, p->before.record.bytes, GBASAVE_RECORD_SIZE);
    same(what, p->cart.memory, p->before.memory, p->cart.length);
    for (size_t i = 0; i < p->cart.tally_count; i++)
        expect(what, p->cart.tallies[i] == p->before.tallies[i]);
}

static void refused(pair *p, uint32_t number, const char *what, uint32_t answer)
{
    shown(number, what, answer);
    unchanged(what, p);
}

static void image_refused(void)
{
    uint8_t image[GBASAVE_IMAGE_MIN - 1] = {0}, memory[1] = {0x5A};
    uint16_t tallies[1] = {0x5A};
    gbasave_record record;
    const gbasave_record zeros = {{0}};
    uint32_t kind = UNTOUCHED, handed = UNTOUCHED;
    memset(&record, 0xEE, sizeof record);
    shown(GBASAVE_REFUSED_IMAGE_LENGTH, "an image of 191 bytes",
          gbasave_from_bytes(&record, image, sizeof image, GBASAVE_PART_USUAL, memory, 0, tallies, 0));
    same("a refused opening writes 25 zeros to the record", record.bytes, zeros.bytes, GBASAVE_RECORD_SIZE);
    expect("a refused opening changes neither memory nor tallies", memory[0] == 0x5A && tallies[0] == 0x5A);
    expect("its kind is refused too",
           gbasave_detect_save_type(image, sizeof image, &kind) == GBASAVE_REFUSED_IMAGE_LENGTH && kind == UNTOUCHED);
    expect("and so is its search",
           gbasave_search(image, sizeof image, &kind, &handed) == GBASAVE_REFUSED_IMAGE_LENGTH && kind == UNTOUCHED &&
               handed == UNTOUCHED);
}

static void record_refused(void)
{
    gbasave_record record;
    uint8_t memory[1];
    uint32_t value = UNTOUCHED;
    memset(&record, 0xEE, sizeof record);
    shown(GBASAVE_REFUSED_RECORD, "a byte read with an invalid record",
          gbasave_save_read(&record, memory, 0, 0x0E000000, &value));
    expect("a refused read does not change the out-parameter", value == UNTOUCHED);
}

static void byte_refused(void)
{
    pair p = open_pair("SRAM REFUSED", "SRAM_V");
    cartridge *cart = &p.cart;
    uint32_t changed = UNTOUCHED;
    refused(&p, GBASAVE_REFUSED_MEMORY_LENGTH, "a byte write with a memory of 32,767 bytes",
            gbasave_save_write(&cart->record, cart->memory, cart->length - 1, cart->tallies, cart->tally_count, 0x0E000000,
                               1, &changed));
    expect("a refused write does not change the out-parameter", changed == UNTOUCHED);
    refused(&p, GBASAVE_REFUSED_NO_EEPROM, "a serial bit to SRAM",
            gbasave_eeprom_write(&cart->record, cart->memory, cart->length, cart->tallies, cart->tally_count, 1,
                                 &changed));
    expect("a refused bit does not change the out-parameter", changed == UNTOUCHED);
    expect("a load is refused too",
           gbasave_load_save(&cart->record, cart->memory, cart->length - 1, cart->tallies, cart->tally_count, NULL, 0,
                             &changed) == GBASAVE_REFUSED_MEMORY_LENGTH &&
               changed == UNTOUCHED);
    close_pair(&p);
}

/* The bytes of a state, and one more. */
typedef struct state_bytes {
    uint8_t bytes[GBASAVE_STATE_SIZE + 1];
} state_bytes;

/* The cartridge's own state. */
static state_bytes state_of(const cartridge *cart)
{
    state_bytes state = {{0}};
    accepted("chip state", gbasave_chip_state(&cart->record, state.bytes));
    return state;
}

static state_bytes with(state_bytes state, size_t place, uint8_t value)
{
    state.bytes[place] = value;
    return state;
}

static void state_refused(pair *p, uint32_t number, const char *what, state_bytes state)
{
    refused(p, number, what, gbasave_restore_chip_state(&p->cart.record, state.bytes, GBASAVE_STATE_SIZE));
}

/* A state with a fault in its chip record. So is the old one of 18 bytes. */
static void chip_refused(pair *p, uint32_t number, const char *what, size_t place, uint8_t value)
{
    const state_bytes state = with(state_of(&p->cart), place, value);
    state_refused(p, number, what, state);
    expect(what, gbasave_restore_chip_state(&p->cart.record, state.bytes, GBASAVE_CHIP_SIZE) == number);
    unchanged(what, p);
}

/* In the order of the questions. */
static void states_refused(pair *p)
{
    const state_bytes state = state_of(&p->cart);
    static const size_t wrong_lengths[] = {0, 17, 19, 21};
    for (size_t i = 0; i < sizeof wrong_lengths / sizeof *wrong_lengths; i++) {
        char what[32];
        snprintf(what, sizeof what, "a state of %zu bytes", wrong_lengths[i]);
        refused(p, GBASAVE_REFUSED_STATE_LENGTH, what,
                gbasave_restore_chip_state(&p->cart.record, state.bytes, wrong_lengths[i]));
    }
    state_refused(p, GBASAVE_REFUSED_STATE_LAYOUT, "a state with layout number 3", with(state, GBASAVE_STATE_LAYOUT, 3));
    state_refused(p, GBASAVE_REFUSED_STATE_LAYOUT, "layout number 3, and phase 7",
                  with(with(state, GBASAVE_STATE_LAYOUT, 3), 5, 7));
    chip_refused(p, GBASAVE_REFUSED_STATE_PHASE, "a state in phase 7", 5, 7);
    chip_refused(p, GBASAVE_REFUSED_STATE_FLASH, "a state with flash state 3", 0, 3);
    chip_refused(p, GBASAVE_REFUSED_STATE_SWITCHES, "a state with bank 2", 1, 2);
    chip_refused(p, GBASAVE_REFUSED_STATE_WIDTH, "a state with DMA width 7", 3, 7);
    chip_refused(p, GBASAVE_REFUSED_STATE_RANGES, "a state with read place 68", 9, 68);
    chip_refused(p, GBASAVE_REFUSED_STATE_COUNT, "a state with 14 bits of a 14-bit address", 6, 14);
    state_refused(p, GBASAVE_REFUSED_STATE_COUNT, "14 bits of a 14-bit address, and flag 2",
                  with(with(state, 6, 14), GBASAVE_STATE_FLAG, 2));
    /* Its chip record is allowed, and another than the cartridge's: it is not taken over. */
    state_refused(p, GBASAVE_REFUSED_STATE_FLAG, "a state with changed flag 2", with(with(state, 1, 1), GBASAVE_STATE_FLAG, 2));

    /* An old state has no layout number and no flag: what follows its 18 bytes does not count. */
    const state_bytes old = with(with(state, GBASAVE_STATE_LAYOUT, 3), GBASAVE_STATE_FLAG, 2);
    accepted("18 bytes", gbasave_restore_chip_state(&p->cart.record, old.bytes, GBASAVE_CHIP_SIZE));
    unchanged("18 bytes of its own state", p);
}

static void serial_refused(void)
{
    pair p = open_pair("EEPROM REFUS", "EEPROM_V");
    uint8_t bits[WRITE_BITS];
    eeprom_write_bits(bits, 100, 0);
    for (int twice = 0; twice < 2; twice++) {
        cartridge *cart = twice ? &p.before : &p.cart;
        accepted("DMA", gbasave_eeprom_begin_dma(&cart->record, WRITE_BITS));
        eeprom_send(cart, bits, 2 + 6);
    }
    refused(&p, GBASAVE_REFUSED_DMA_TOO_LATE, "DMA 73 after six bits of an address",
            gbasave_eeprom_begin_dma(&p.cart.record, 73));
    states_refused(&p);
    close_pair(&p);
}

static void file_refused(void)
{
    pair p = open_pair("SRAM REFUSED", "SRAM_V");
    cartridge *cart = &p.cart;
    uint8_t *destination = allocate(cart->length);
    uint32_t length = UNTOUCHED, changed = UNTOUCHED;
    memset(destination, 0x5A, cart->length);
    refused(&p, GBASAVE_REFUSED_DESTINATION_LENGTH, "an export to 32,767 bytes",
            gbasave_save_data(&cart->record, cart->memory, cart->length, destination, cart->length - 1, &length));
    expect("a refused export changes neither destination nor out-parameter", destination[0] == 0x5A && length == UNTOUCHED);
    refused(&p, GBASAVE_REFUSED_FILE_LENGTH, "an import of 32,767 bytes",
            gbasave_import_save(&cart->record, cart->memory, cart->length, cart->tallies, cart->tally_count, destination,
                                cart->length - 1, &length, &changed));
    expect("a refused import does not change the out-parameters", length == UNTOUCHED && changed == UNTOUCHED);
    free(destination);
    close_pair(&p);
}

/* What an opening is passed, apart from the image and the part. */
typedef struct buffers {
    gbasave_record record;
    uint8_t *memory;
    uint16_t tallies[GBASAVE_MAX_TALLIES];
} buffers;

static buffers flash_buffers(void)
{
    buffers b = {.memory = allocate(GBASAVE_MEMORY_FLASH64)};
    memset(&b.record, 0xEE, sizeof b.record);
    memset(b.memory, 0x5A, GBASAVE_MEMORY_FLASH64);
    memset(b.tallies, 0x5A, sizeof b.tallies);
    return b;
}

static uint32_t open_flash(buffers *b, const uint8_t *image, uint32_t part, size_t length, size_t tally_count)
{
    return gbasave_from_bytes(&b->record, image, IMAGE_LENGTH, part, b->memory, length, b->tallies, tally_count);
}

/* An opening of a flash image of 64 KiB that is refused: the record becomes zeros, and nothing else changes. */
static void opening_refused(const char *what, const uint8_t *image, uint32_t part, size_t length, size_t tally_count,
                            uint32_t number)
{
    const gbasave_record zeros = {{0}};
    buffers b = flash_buffers(), before = flash_buffers();
    expect(what, open_flash(&b, image, part, length, tally_count) == number);
    same("a refused opening writes 25 zeros to the record", b.record.bytes, zeros.bytes, GBASAVE_RECORD_SIZE);
    same("a refused opening does not change the memory", b.memory, before.memory, GBASAVE_MEMORY_FLASH64);
    expect("a refused opening does not change the tallies", memcmp(b.tallies, before.tallies, sizeof b.tallies) == 0);
    free(b.memory);
    free(before.memory);
}

enum { FLASH64_TALLIES = GBASAVE_MEMORY_FLASH64 / GBASAVE_STRETCH_SIZE };

static void part_refused(void)
{
    uint8_t *image = make_image("FLASH REFUSE", "FLASH_V");
    const size_t size = GBASAVE_MEMORY_FLASH64;
    buffers b = flash_buffers();
    uint32_t word = UNTOUCHED;
    shown(GBASAVE_REFUSED_PART, "a 128K part on a flash of 64 KiB",
          open_flash(&b, image, GBASAVE_PART_SANYO_128K, size, FLASH64_TALLIES));
    opening_refused("a part of 128K", image, GBASAVE_PART_SANYO_128K, size, FLASH64_TALLIES, GBASAVE_REFUSED_PART);
    opening_refused("a number that names no part", image, GBASAVE_PART_MACRONIX_128K + 1, size, FLASH64_TALLIES,
                    GBASAVE_REFUSED_PART);
    opening_refused("the memory's length is asked for first", image, GBASAVE_PART_SANYO_128K, 0, FLASH64_TALLIES,
                    GBASAVE_REFUSED_MEMORY_LENGTH);
    expect("its ID word on this kind is refused too",
           gbasave_id_word(GBASAVE_PART_SANYO_128K, GBASAVE_KIND_FLASH64, &word) == GBASAVE_REFUSED_PART &&
               word == UNTOUCHED);

    accepted("opening", open_flash(&b, image, GBASAVE_PART_SST_64K, size, FLASH64_TALLIES));
    b.record.bytes[GBASAVE_RECORD_PART] = GBASAVE_PART_SANYO_128K;
    expect("a record whose part does not fit is not valid",
           gbasave_save_read(&b.record, b.memory, size, 0x0E000000, &word) == GBASAVE_REFUSED_RECORD && word == UNTOUCHED);
    free(b.memory);
    free(image);
}

/* The calls on a record that are passed tallies. */
typedef enum tally_call { WRITE, LOAD, BIT, IMPORT, IS_BLANK, FIRST_IN_USE, TALLY_CALLS } tally_call;

/* The bit needs an EEPROM, and no file to import has 100 bytes: on SRAM these two calls have another fault too. */
static uint32_t call_on(cartridge *cart, tally_call call, size_t length, size_t tally_count, uint32_t *value,
                        uint32_t *changed)
{
    static const uint8_t file[100];
    gbasave_record *record = &cart->record;
    uint8_t *memory = cart->memory;
    uint16_t *tallies = cart->tallies;
    switch (call) {
    case WRITE: return gbasave_save_write(record, memory, length, tallies, tally_count, 0x0E000000, 1, changed);
    case LOAD: return gbasave_load_save(record, memory, length, tallies, tally_count, file, sizeof file, changed);
    case BIT: return gbasave_eeprom_write(record, memory, length, tallies, tally_count, 1, changed);
    case IMPORT:
        return gbasave_import_save(record, memory, length, tallies, tally_count, file, sizeof file, value, changed);
    case IS_BLANK: return gbasave_is_blank(record, tallies, tally_count, value);
    default: return gbasave_first_in_use(record, tallies, tally_count, value);
    }
}

/* Each call of a range is refused with this number. */
static void calls_refused(pair *p, tally_call first, tally_call last, size_t length, size_t tally_count, uint32_t number)
{
    static const char *const NAME[TALLY_CALLS] = {"byte write", "load", "bit in", "import", "is it blank", "first in use"};
    for (tally_call call = first; call <= last; call++) {
        uint32_t value = UNTOUCHED, changed = UNTOUCHED;
        expect(NAME[call], call_on(&p->cart, call, length, tally_count, &value, &changed) == number);
        expect("a refused call does not change the out-parameters", value == UNTOUCHED && changed == UNTOUCHED);
        unchanged(NAME[call], p);
    }
}

static void tallies_refused(void)
{
    pair p = open_pair("SRAM REFUSED", "SRAM_V");
    const size_t size = p.cart.length, count = p.cart.tally_count;
    uint32_t value = UNTOUCHED, changed = UNTOUCHED;
    write_byte(&p.cart, 0x0E001000, 0x5A);
    write_byte(&p.before, 0x0E001000, 0x5A);
    refused(&p, GBASAVE_REFUSED_TALLY_COUNT, "a byte write with 7 of the 8 tallies",
            call_on(&p.cart, WRITE, size, count - 1, &value, &changed));
    expect("a refused write does not change the out-parameter", changed == UNTOUCHED);
    const size_t wrong_counts[] = {0, count - 1, count + 1, GBASAVE_MAX_TALLIES};
    for (size_t i = 0; i < sizeof wrong_counts / sizeof *wrong_counts; i++) {
        calls_refused(&p, WRITE, FIRST_IN_USE, size, wrong_counts[i], GBASAVE_REFUSED_TALLY_COUNT);
        calls_refused(&p, WRITE, IMPORT, size - 1, wrong_counts[i], GBASAVE_REFUSED_MEMORY_LENGTH);
    }
    /* With the right number the next question is asked: so 16 comes before 4 and 14. */
    calls_refused(&p, BIT, BIT, size, count, GBASAVE_REFUSED_NO_EEPROM);
    calls_refused(&p, IMPORT, IMPORT, size, count, GBASAVE_REFUSED_FILE_LENGTH);
    p.cart.record.bytes[GBASAVE_RECORD_FLAG] = p.before.record.bytes[GBASAVE_RECORD_FLAG] = 2;
    calls_refused(&p, WRITE, FIRST_IN_USE, size - 1, count - 1, GBASAVE_REFUSED_RECORD);
    close_pair(&p);

    /* A bit whose only fault are the tallies; kind NONE, which has none. */
    p = open_pair("EEPROM REFUS", "EEPROM_V");
    calls_refused(&p, BIT, BIT, p.cart.length, p.cart.tally_count + 1, GBASAVE_REFUSED_TALLY_COUNT);
    close_pair(&p);
    p = open_pair("NO CHIP", "");
    calls_refused(&p, WRITE, FIRST_IN_USE, 0, 1, GBASAVE_REFUSED_TALLY_COUNT);
    close_pair(&p);
}

/* 16 is asked after 3 and before 15. */
static void tallies_of_openings_refused(void)
{
    uint8_t *image = make_image("FLASH REFUSE", "FLASH_V");
    const size_t size = GBASAVE_MEMORY_FLASH64, wrong_counts[] = {0, FLASH64_TALLIES - 1, FLASH64_TALLIES + 1};
    for (size_t i = 0; i < sizeof wrong_counts / sizeof *wrong_counts; i++) {
        opening_refused("opening", image, GBASAVE_PART_USUAL, size, wrong_counts[i], GBASAVE_REFUSED_TALLY_COUNT);
        opening_refused("and a part of 128K", image, GBASAVE_PART_SANYO_128K, size, wrong_counts[i],
                        GBASAVE_REFUSED_TALLY_COUNT);
        opening_refused("and a short memory", image, GBASAVE_PART_SANYO_128K, size - 1, wrong_counts[i],
                        GBASAVE_REFUSED_MEMORY_LENGTH);
    }
    free(image);
}

void refusals(void)
{
    printf("Refusals; nothing is changed, except that a refused opening writes 25 zeros to the record\n");
    image_refused();
    record_refused();
    byte_refused();
    serial_refused();
    file_refused();
    part_refused();
    tallies_refused();
    tallies_of_openings_refused();
}

/* A buffer of length 0 may have any pointer. */
static void empty_at(uint8_t *nowhere, uint16_t *no_tallies)
{
    uint8_t *image = make_image("NO CHIP", "");
    gbasave_record record;
    gbasave_matcher matcher;
    uint32_t value, changed;
    expect("no image", gbasave_from_bytes(&record, nowhere, 0, GBASAVE_PART_USUAL, nowhere, 0, no_tallies, 0) ==
                           GBASAVE_REFUSED_IMAGE_LENGTH);
    accepted("size of no image", gbasave_save_size(nowhere, 0, &value));
    expect("no image has no memory", value == 0);
    expect("search of no image", gbasave_search(nowhere, 0, &value, &changed) == GBASAVE_REFUSED_IMAGE_LENGTH);
    accepted("matcher, start", gbasave_matcher_start(&matcher));
    accepted("matcher, no piece", gbasave_matcher_feed(&matcher, nowhere, 0, &value));
    expect("no marker is seen", value == 0);
    expect("no header", gbasave_matcher_finish(&matcher, nowhere, 0, IMAGE_LENGTH, &value) == GBASAVE_REFUSED_IMAGE_LENGTH);

    accepted("opening", gbasave_from_bytes(&record, image, IMAGE_LENGTH, GBASAVE_PART_USUAL, nowhere, 0, no_tallies, 0));
    expect("no chip", record.bytes[GBASAVE_RECORD_KIND] == GBASAVE_KIND_NONE);
    accepted("byte write", gbasave_save_write(&record, nowhere, 0, no_tallies, 0, 0x0E000000, 1, &changed));
    expect("no byte changes", changed == 0);
    accepted("byte read", gbasave_save_read(&record, nowhere, 0, 0x0E000000, &value));
    expect("no chip reads FFh", value == 0xFF);
    accepted("bit out", gbasave_eeprom_read(&record, nowhere, 0, &value));
    expect("no chip reads bit 1", value == 1);
    changed = 1;
    accepted("load of no bytes", gbasave_load_save(&record, nowhere, 0, no_tallies, 0, nowhere, 0, &changed));
    expect("no byte changes", changed == 0);
    accepted("export", gbasave_save_data(&record, nowhere, 0, nowhere, 0, &value));
    expect("no file", value == 0);
    expect("bit in", gbasave_eeprom_write(&record, nowhere, 0, no_tallies, 0, 1, &changed) == GBASAVE_REFUSED_NO_EEPROM);
    expect("import of no bytes", gbasave_import_save(&record, nowhere, 0, no_tallies, 0, nowhere, 0, &value, &changed) ==
                                     GBASAVE_REFUSED_FILE_LENGTH);
    accepted("is it blank", gbasave_is_blank(&record, no_tallies, 0, &value));
    expect("no chip is blank", value == 1);
    accepted("first in use", gbasave_first_in_use(&record, no_tallies, 0, &value));
    expect("no stretch is in use", value == GBASAVE_NONE_IN_USE);
    expect("state of no bytes", gbasave_restore_chip_state(&record, nowhere, 0) == GBASAVE_REFUSED_STATE_LENGTH);
    expect("title to no bytes", gbasave_title(image, IMAGE_LENGTH, nowhere, 0, &value) == GBASAVE_REFUSED_DESTINATION_LENGTH);
    free(image);
}

void empty_slices(void)
{
    uint8_t somewhere = 0;
    uint16_t some_tally = 0;
    printf("Buffers of length 0\n");
    empty_at(&somewhere, &some_tally);
    empty_at(NULL, NULL);
    printf("  accepted or refused as any other, with a pointer and with NULL\n");
}
