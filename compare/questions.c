/*
 * Which question refuses which call: every call on a record, with records, memories and numbers of tallies around every limit, and every opening and
 * ID word by part and kind, held against document 01's "Questions at the door" and document 02's tickets 1, 4 and 5 as written here. The original
 * cannot be asked: it has no such records, memories, tallies, destinations and parts. A refused call has to leave record, memory, tallies,
 * destination and places as they were; a refused opening makes the record zeros. ID mode has to show each part's word. An accepted call that stores
 * has to write how many bytes of the memory it changed, ticket 2's number, and to add its change to the tallies, ticket 4's, whatever they were.
 * Searches in pieces, ticket 3's, are asked with matchers that are none and with such as no image leads to: refused they have to leave matcher and
 * places, else they have to step as written here. --fault NAME expects something wrong, which has to be found.
 */
#include "questions.h"

#include <stdio.h>
#include <string.h>

enum { CALLS = 18, PARTS = 6 };

const uint32_t SIZE[KINDS] = {0, 32768, 65536, 131072, 8192, 8192};

/* "64K SST D4BFh, Macronix 1CC2h, Panasonic 1B32h; 128K Sanyo 1362h, Macronix 09C2h; or the usual one": of part 0, the usual one, size and word
   go by the kind. */
static const uint32_t PART_SIZE[PARTS] = {0, 65536, 65536, 65536, 131072, 131072};
static const uint32_t PART_WORD[PARTS] = {0, 0xD4BF, 0x1CC2, 0x1B32, 0x1362, 0x09C2};
static const uint32_t USUAL_WORD[KINDS] = {0, 0, 0x1B32, 0x1362, 0, 0};

/* Numbers from 0 to 255, and above these such as a narrower type would take for a part's or a kind's. */
static const uint32_t ABOVE[] = {256, 257, 258, 259, 260, 261, 65536, 65538, 0x80000000, 0x80000002, 0xFFFFFFFF};
enum { NUMBERS = 256 + sizeof ABOVE / sizeof *ABOVE };

/* Lent to calls that are to be refused, and held against its copy at the end; and lent to calls that are to be accepted. */
static uint8_t kept[LONGEST], copy[LONGEST], file[LONGEST];
uint8_t scratch[LONGEST], before[LONGEST];
uint16_t tallies[MOST_TALLIES + 1], expected[MOST_TALLIES + 1];
uint8_t image[GBASAVE_IMAGE_MAX + 1];

/* Like the file in its first 100 bytes only: imported after the file was loaded, 512 are kept and 412 change. */
static uint8_t other_file[512];

fault_name fault;
static const char *const FAULT[] = {"nothing",   "count",    "records", "sizes", "order",   "words", "maker",   "loads",
                                    "refused",   "matchers", "finish",  "late",  "opened",  "reset", "tallies", "modulo",
                                    "stretches", "sum",      "layout",  "early", "cleared", "left"};

unsigned long calls, by_number[REFUSALS];

static uint32_t number(unsigned i)
{
    return i < 256 ? i : ABOVE[i - 256];
}

/* 15: "when a named part's size is not the kind's". A number that names no part has no size. */
static int fits(uint32_t part, uint32_t kind)
{
    if (fault == SIZES && part == 4 && kind == GBASAVE_KIND_FLASH64)
        return 1;
    return part == 0 || (part < PARTS && PART_SIZE[part] == SIZE[kind]);
}

static uint32_t word_of(uint32_t part, uint32_t kind)
{
    if (fault == WORDS && (part == 1 || part == 2))
        part = 3 - part;
    return part == 0 ? USUAL_WORD[kind] : PART_WORD[part];
}

/* 7 to 12, of the table of the chip record. */
uint32_t chip_no(const uint8_t *c)
{
    const unsigned w = c[3] != 0 ? c[3] : c[4] == 1 ? 14 : 6;
    const unsigned limit[7] = {2, w, w, 64 + (fault == COUNT), 1, 1, 1};
    if (c[5] > 6)
        return 7;
    if (c[0] > 8 || c[0] == 3)
        return 8;
    if (c[1] > 1 || c[2] > 1 || c[4] > 1)
        return 9;
    if (c[3] != 0 && c[3] != 6 && c[3] != 14)
        return 10;
    if (c[6] > 64 || (c[7] | c[8] << 8) > 1023 || c[9] > 67)
        return 11;
    return c[6] < limit[c[5]] ? 0 : 12;
}

/* 2: "Is the record's image length in that range and each chip field allowed?", of the table of the chip record; "A record whose named part does
   not have its kind's size is a no at question 2." */
int is_record(const uint8_t *r)
{
    const uint32_t length = r[0] | (uint32_t)r[1] << 8 | (uint32_t)r[2] << 16 | (uint32_t)r[3] << 24;
    return length >= 192 && length <= 33554432 && r[4] <= 5 && r[5] <= 1 && chip_no(r + GBASAVE_RECORD_CHIP) == 0 &&
           (fault == RECORDS || fits(r[GBASAVE_RECORD_PART], r[4]));
}

/* ---- Parts: ID words and openings ------------------------------------------------------------------------------------------------- */

static int wrong_part(const char *what, uint32_t part, uint32_t kind, size_t image_length, size_t memory)
{
    printf("questions: %s, part %u, kind %u, image %zu, memory %zu\n", what, (unsigned)part, (unsigned)kind, image_length, memory);
    return 1;
}

/* Every number as a part and as a kind. */
static int ask_words(void)
{
    for (unsigned p = 0; p < NUMBERS; p++)
        for (unsigned k = 0; k < NUMBERS; k++) {
            const uint32_t part = number(p), kind = number(k), no = kind >= KINDS ? 2 : fits(part, kind) ? 0 : 15;
            uint32_t word = PLACE;
            calls++;
            by_number[no]++;
            if (gbasave_id_word(part, kind, &word) != no)
                return wrong_part("an ID word, another number", part, kind, 0, 0);
            if (word != (no ? (uint32_t)PLACE : word_of(part, kind)))
                return wrong_part("another ID word", part, kind, 0, 0);
        }
    return 0;
}

size_t make_image(unsigned kind)
{
    static const char *const MARKER[KINDS] = {"", "SRAM_V", "FLASH_V", "FLASH1M_V", "EEPROM_V", "EEPROM_V"};
    memset(image, 0, 16);
    memcpy(image, MARKER[kind], strlen(MARKER[kind]));
    return kind == GBASAVE_KIND_EEPROM8K ? 16777217 : 192;
}

/* What an accepted opening leaves: image length, kind, flag 0, chip record 0 but large 1 for Eeprom8k, part. */
static void fresh_record(uint8_t *r, size_t image_length, unsigned kind, uint32_t part)
{
    memset(r, 0, RECORD);
    for (unsigned i = 0; i < 4; i++)
        r[i] = (uint8_t)(image_length >> 8 * i);
    r[GBASAVE_RECORD_KIND] = (uint8_t)kind;
    r[GBASAVE_RECORD_CHIP + 4] = kind == GBASAVE_KIND_EEPROM8K;
    r[GBASAVE_RECORD_PART] = (uint8_t)part;
}

/* 1, 3, 16, "asked after 3", and 15, "asked last at opening". */
static uint32_t opening_no(unsigned kind, size_t image_length, uint32_t part, size_t memory, size_t count)
{
    if (image_length < 192 || image_length > 33554432)
        return 1;
    if (fault == ORDER && !fits(part, kind))
        return 15;
    if (memory != SIZE[kind])
        return 3;
    if (fault == LATE && !fits(part, kind))
        return 15;
    if (count != tallies_of(kind))
        return 16;
    return fits(part, kind) ? 0 : 15;
}

int ask_opening(unsigned kind, size_t image_length, uint32_t part, size_t memory, size_t count)
{
    const uint32_t no = opening_no(kind, image_length, part, memory, count);
    uint8_t *lent = no ? kept : scratch, left[RECORD] = {0};
    gbasave_record r;
    memset(r.bytes, 0xEE, RECORD);
    if (no == 0)
        memset(scratch, 0x5A, memory + 1);
    set_tallies(0x5A5A);
    if (no ? fault == RESET : fault != OPENED)
        memset(expected, 0, count * sizeof *expected);
    calls++;
    by_number[no]++;
    if (gbasave_from_bytes(&r, image, image_length, part, lent, memory, tallies, count) != no)
        return wrong_part("opening, another number", part, kind, image_length, memory);
    if (memcmp(tallies, expected, sizeof tallies) != 0)
        return wrong_part("opening, other tallies", part, kind, image_length, memory);
    if (no == 0) {
        fresh_record(left, image_length, kind, part);
        for (size_t i = 0; i <= memory; i++)
            if (scratch[i] != (i < memory ? 0xFF : 0x5A))
                return wrong_part("opening, another memory", part, kind, image_length, memory);
    }
    if (memcmp(r.bytes, left, RECORD) != 0)
        return wrong_part("opening, another record", part, kind, image_length, memory);
    return 0;
}

/* Every part number, with images too short, right and too long; the right memory, one byte less or more, and another kind's; and as many tallies as
   the kind has, one less or more. An Eeprom8k image takes long to search: with a wrong memory or wrong tallies it is opened with a few parts only. */
static int ask_openings(unsigned first, unsigned last)
{
    for (unsigned kind = first; kind <= last; kind++) {
        const size_t right = make_image(kind), size = SIZE[kind], count = tallies_of(kind);
        const size_t length[] = {right, 191, 33554433}, memory[] = {size, size + 1, size ? size - 1 : 8192, size == 65536 ? 131072 : 65536};
        const size_t number_of_tallies[] = {count, count + 1, count ? count - 1 : 32};
        for (unsigned p = 0; p < NUMBERS; p++)
            for (unsigned l = 0; l < 3; l++)
                for (unsigned m = 0; m < 4 * 3; m++) {
                    if (kind == GBASAVE_KIND_EEPROM8K && l == 0 && m > 0 && p > 6 && p != 255)
                        continue;
                    if (ask_opening(kind, length[l], number(p), memory[m % 4], number_of_tallies[m / 4]))
                        return 1;
                }
    }
    return 0;
}

/* The byte at an address: in ID mode flash reads the maker at even addresses and the device at odd ones. */
static uint32_t byte_at(unsigned kind, uint32_t part, const uint8_t *chip, uint32_t address)
{
    const int flash = kind == GBASAVE_KIND_FLASH64 || kind == GBASAVE_KIND_FLASH128;
    if (flash && chip[2] == 1)
        return address % 2 == (fault == MAKER) ? word_of(part, kind) & 0xFF : word_of(part, kind) >> 8;
    if (flash)
        return copy[(chip[1] * 65536 + address % 65536) % SIZE[kind]];
    return SIZE[kind] == 0 ? 0xFF : copy[address % SIZE[kind]];
}

/* Every kind with every part that fits, in both banks, with ID mode off and on: every address of a bank, and some far ones. */
static int read_bytes(void)
{
    static const uint32_t FAR[] = {0x0E000000, 0x0E000001, 0x0E00FFFE, 0x0E00FFFF, 0x10000, 0x10001, 0x7FFFFFFF, 0xFFFFFFFE, 0xFFFFFFFF};
    for (unsigned kind = 0; kind < KINDS; kind++)
        for (uint32_t part = 0; part < PARTS; part++)
            for (unsigned switches = 0; switches < 4 && fits(part, kind); switches++) {
                const uint8_t chip[GBASAVE_CHIP_SIZE] = {0, switches & 1, switches >> 1};
                gbasave_record r;
                fresh_record(r.bytes, 192, kind, part);
                memcpy(scratch, copy, LONGEST);
                calls++;
                by_number[0]++;
                if (gbasave_restore_chip_state(&r, chip, sizeof chip) != 0)
                    return wrong_part("a restore is refused", part, kind, 192, SIZE[kind]);
                for (uint32_t i = 0; i < 65536 + sizeof FAR / sizeof *FAR; i++) {
                    const uint32_t address = i < 65536 ? i : FAR[i - 65536];
                    uint32_t value = PLACE;
                    calls++;
                    by_number[0]++;
                    if (gbasave_save_read(&r, scratch, SIZE[kind], address, &value) != 0 || value != byte_at(kind, part, chip, address))
                        return wrong_part("another byte", part, kind, 192, SIZE[kind]);
                }
            }
    return 0;
}

/* ---- Searches --------------------------------------------------------------------------------------------------------------------- */

enum { MATCHER = GBASAVE_MATCHER_SIZE, HEADER = GBASAVE_HEADER_SIZE, MARKERS = 5, LAST = 9, LONGEST_PIECE = 100 };

/* The markers, and which of the matcher's first four bytes tells that one was seen. */
static const char *const MARKED[MARKERS] = {"SRAM_V", "FLASH_V", "FLASH512_V", "FLASH1M_V", "EEPROM_V"};
static const unsigned SEEN[MARKERS] = {0, 1, 1, 2, 3};

static int wrong_matcher(const char *what, const uint8_t *m, size_t length, size_t image_length)
{
    printf("questions: %s, %zu bytes, image %zu, matcher", what, length, image_length);
    for (unsigned i = 0; i < MATCHER; i++)
        printf(" %02X", m[i]);
    printf("\n");
    return 1;
}

/* 2, about a matcher: its first four bytes are each 0 or 1. */
static int is_matcher(const uint8_t *m)
{
    return m[0] <= 1 && m[1] <= 1 && m[2] <= 1 && m[3] <= 1 + (fault == MATCHERS);
}

/* The last bytes, newest first, are the marker read backwards. */
static int ends_with(const uint8_t *last, const char *marker)
{
    const size_t length = strlen(marker);
    for (size_t i = 0; i < length; i++)
        if (last[i] != (uint8_t)marker[length - 1 - i])
            return 0;
    return 1;
}

/* The matcher's step over one byte. */
static void step(uint8_t *m, uint8_t byte)
{
    uint8_t last[1 + LAST] = {byte};
    memcpy(last + 1, m + 4, LAST);
    for (unsigned i = 0; i < MARKERS; i++)
        if (ends_with(last, MARKED[i]))
            m[SEEN[i]] = 1;
    memcpy(m + 4, last, LAST);
}

static int ask_feed(const uint8_t *given, const uint8_t *piece, size_t length)
{
    const uint32_t no = is_matcher(given) ? 0 : 2;
    uint8_t left[MATCHER];
    gbasave_matcher m;
    uint32_t done = PLACE;
    memcpy(m.bytes, given, MATCHER);
    memcpy(left, given, MATCHER);
    for (size_t i = 0; no == 0 && i < length && left[0] == 0; i++)
        step(left, piece[i]);
    calls++;
    by_number[no]++;
    if (gbasave_matcher_feed(&m, piece, length, &done) != no)
        return wrong_matcher("a piece, another number", given, length, 0);
    if (done != (no ? (uint32_t)PLACE : left[0]))
        return wrong_matcher("a piece, done or not", given, length, 0);
    if (memcmp(m.bytes, left, MATCHER) != 0)
        return wrong_matcher("a piece, another matcher", given, length, 0);
    return 0;
}

/* 1, of both lengths, then 2. */
static uint32_t finish_no(const uint8_t *m, size_t header_length, size_t image_length)
{
    if (fault == FINISH && !is_matcher(m))
        return 2;
    if (image_length < 192 || image_length > 33554432 || header_length < 192)
        return 1;
    return is_matcher(m) ? 0 : 2;
}

/* The kind by what was seen, where neither code nor title decides. */
static uint32_t seen_kind(const uint8_t *m, size_t image_length)
{
    if (m[0])
        return GBASAVE_KIND_SRAM;
    if (m[1])
        return GBASAVE_KIND_FLASH64;
    if (m[2])
        return GBASAVE_KIND_FLASH128;
    if (m[3])
        return image_length > 16777216 ? GBASAVE_KIND_EEPROM8K : GBASAVE_KIND_EEPROM512;
    return GBASAVE_KIND_NONE;
}

/* Headers by one text: none, game codes, one that is none, the title. */
static const struct {
    const char *text;
    size_t place;
    enum { BY_SEEN, BY_CODE, BY_TITLE } decides;
    uint32_t kind;
} HEADERS[] = {{"", 0, BY_SEEN, 0},        {"GBXP", 0xAC, BY_CODE, 1}, {"GBXJ", 0xAC, BY_CODE, 1}, {"GBXE", 0xAC, BY_CODE, 1},
               {"GB4P", 0xAC, BY_CODE, 3}, {"GB4J", 0xAC, BY_CODE, 3}, {"GB4E", 0xAC, BY_CODE, 3}, {"GB4X", 0xAC, BY_SEEN, 0},
               {"GBXP", 0xAD, BY_SEEN, 0}, {"SRAM_V", 0, BY_SEEN, 0},  {"POKEMON RUBY", 0xA0, BY_TITLE, 3}};

/* A code decides before what was seen, the title after it. What the header holds else does not count: it was fed or not. */
static uint32_t kind_of(const uint8_t *m, size_t h, size_t image_length)
{
    const uint32_t seen = seen_kind(m, image_length);
    return HEADERS[h].decides == BY_CODE || (HEADERS[h].decides == BY_TITLE && seen == 0) ? HEADERS[h].kind : seen;
}

static int ask_finish(const uint8_t *given, size_t h, size_t header_length, size_t image_length)
{
    static uint8_t header[HEADER + 1];
    const uint32_t no = finish_no(given, header_length, image_length);
    gbasave_matcher m;
    uint32_t kind = PLACE;
    memcpy(m.bytes, given, MATCHER);
    memset(header, 0, sizeof header);
    memcpy(header + HEADERS[h].place, HEADERS[h].text, strlen(HEADERS[h].text));
    calls++;
    by_number[no]++;
    if (gbasave_matcher_finish(&m, header_length ? header : NULL, header_length, image_length, &kind) != no)
        return wrong_matcher("the end, another number", given, header_length, image_length);
    if (kind != (no ? (uint32_t)PLACE : kind_of(given, h, image_length)))
        return wrong_matcher("the end, another kind", given, header_length, image_length);
    if (memcmp(m.bytes, given, MATCHER) != 0)
        return wrong_matcher("the end changes the matcher", given, header_length, image_length);
    return 0;
}

/* A matcher with every header, header length and image length around the limits, and some pieces. */
static int ask_matcher(const uint8_t *m)
{
    static const uint8_t PIECE[] = "EEPROM_V FLASH1M_V FLASH512_V FLASH_V SRAM_V FLASH_V";
    static const size_t HEADER_LENGTH[] = {0, 191, 192, 193};
    static const size_t IMAGE_LENGTH[] = {0, 191, 192, 193, 16777216, 16777217, 33554432, 33554433, SIZE_MAX};
    for (size_t h = 0; h < sizeof HEADERS / sizeof *HEADERS; h++)
        for (size_t l = 0; l < sizeof HEADER_LENGTH / sizeof *HEADER_LENGTH; l++)
            for (size_t i = 0; i < sizeof IMAGE_LENGTH / sizeof *IMAGE_LENGTH; i++)
                if (ask_finish(m, h, HEADER_LENGTH[l], IMAGE_LENGTH[i]))
                    return 1;
    return ask_feed(m, NULL, 0) || ask_feed(m, PIECE, 1) || ask_feed(m, PIECE, 37) || ask_feed(m, PIECE, sizeof PIECE);
}

/* Every byte with every value, beside first four bytes of 0 and of 1; then all four around their limit. */
static int ask_matchers(void)
{
    static const uint8_t LIMITS[] = {0, 1, 2, 255};
    uint8_t m[MATCHER];
    for (unsigned at = 0; at < MATCHER; at++)
        for (unsigned value = 0; value < 256; value++)
            for (unsigned others = 0; others < 2; others++) {
                memset(m, 0, MATCHER);
                memset(m, (int)others, 4);
                m[at] = (uint8_t)value;
                if (ask_matcher(m))
                    return 1;
            }
    memset(m, 0, MATCHER);
    for (unsigned i = 0; i < 256; i++) {
        for (unsigned at = 0; at < 4; at++)
            m[at] = LIMITS[i >> 2 * at & 3];
        if (ask_matcher(m))
            return 1;
    }
    return 0;
}

/* Whatever 13 bytes there were. */
static int ask_starts(void)
{
    static const uint8_t ZEROS[MATCHER];
    for (unsigned value = 0; value < 256; value++) {
        gbasave_matcher m;
        memset(m.bytes, (int)value, MATCHER);
        calls++;
        by_number[0]++;
        if (gbasave_matcher_start(&m) != 0 || memcmp(m.bytes, ZEROS, MATCHER) != 0)
            return wrong_matcher("a start", m.bytes, 0, 0);
    }
    return 0;
}

uint32_t random_below(uint32_t end)
{
    static uint64_t state = 1;
    state = state * 6364136223846793005u + 1442695040888963407u;
    return (uint32_t)(state >> 33) % end;
}

/* Letters of the markers, and a marker, whole or cut off at either end. */
static void make_piece(uint8_t *piece, size_t length)
{
    static const char LETTERS[] = "SRAM_VFLH512EPO";
    for (size_t i = 0; i < length; i++)
        piece[i] = (uint8_t)LETTERS[random_below(sizeof LETTERS - 1)];
    const char *marker = MARKED[random_below(MARKERS)];
    for (size_t i = 0, at = random_below(LONGEST_PIECE); marker[i]; i++)
        if (at + i >= LAST && at + i - LAST < length)
            piece[at + i - LAST] = (uint8_t)marker[i];
}

/* Matchers with the beginning of a marker in their last bytes, and pieces with its end, which is damaged now and then. Most have seen markers of
   which no image would leave these last bytes. */
static int ask_pieces(void)
{
    uint8_t m[MATCHER], piece[LONGEST_PIECE];
    for (unsigned n = 0; n < 1000000; n++) {
        const char *marker = MARKED[random_below(MARKERS)];
        const size_t length = random_below(LONGEST_PIECE + 1), in = random_below((uint32_t)strlen(marker));
        for (unsigned at = 0; at < 4; at++)
            m[at] = random_below(4) == 0;
        make_piece(m + 4, LAST);
        for (size_t i = 0; i < in; i++)
            m[4 + in - 1 - i] = (uint8_t)marker[i];
        make_piece(piece, length);
        for (size_t i = in; marker[i] && i - in < length; i++)
            if (random_below(16))
                piece[i - in] = (uint8_t)marker[i];
        if (ask_feed(m, piece, length))
            return 1;
    }
    return 0;
}

static int ask_search(size_t image_length, uint32_t expected_kind, uint32_t expected_handed)
{
    const uint32_t no = image_length < 192 || image_length > 33554432;
    uint32_t kind = PLACE, handed = PLACE;
    calls++;
    by_number[no]++;
    if (gbasave_search(image_length ? image : NULL, image_length, &kind, &handed) != no)
        return wrong_part("a search, another number", 0, expected_kind, image_length, 0);
    if (kind != (no ? (uint32_t)PLACE : expected_kind) || handed != (no ? (uint32_t)PLACE : expected_handed))
        return wrong_part("a search, another kind or number of bytes", 0, expected_kind, image_length, 0);
    return 0;
}

/* An image of each kind, whose marker is first in it, and images of no allowed length. */
static int ask_searches(void)
{
    for (unsigned kind = 0; kind < KINDS; kind++) {
        const size_t length = make_image(kind);
        if (ask_search(length, kind, kind == GBASAVE_KIND_SRAM ? 6 : (uint32_t)length) || ask_search(0, kind, 0) ||
            ask_search(191, kind, 0) || ask_search(33554433, kind, 0))
            return 1;
    }
    make_image(GBASAVE_KIND_NONE);
    return ask_search(33554432, GBASAVE_KIND_NONE, 33554432);
}

/* ---- Calls on a record ------------------------------------------------------------------------------------------------------------ */

static int stores(unsigned call)
{
    return call == 1 || call == 2 || call == 4 || (call >= 6 && call <= 8);
}

/* 4, 5, 13 and 14, which depend on what the call is. */
static uint32_t own_no(unsigned call, const uint8_t *r)
{
    const unsigned kind = r[GBASAVE_RECORD_KIND], phase = r[11], count = r[12];
    switch (call) {
    case 2: return kind < 4 ? 4 : 0;
    case 5: return kind == 0 ? 0 : 13; /* no file is so short as its destination */
    case 7: return 14;                 /* no file has 100 bytes */
    case 8: return kind < 4 ? 14 : 0;  /* an EEPROM's file may have 512 */
    case 9: return (phase == 1 || phase == 2) && count >= 6 ? 5 : 0;
    default: return 0;
    }
}

/* The number of the first question to which the answer is no, or 0. "16 when the lent tallies are not as many as the kind has, asked after 3." */
static uint32_t first_no(unsigned call, const uint8_t *r, size_t memory, size_t count)
{
    const unsigned kind = r[GBASAVE_RECORD_KIND];
    if (!is_record(r))
        return 2;
    if (call < 9 && memory != SIZE[kind])
        return 3;
    if (fault == LATE && own_no(call, r))
        return own_no(call, r);
    if ((stores(call) || call == 15 || call == 16) && count != tallies_of(kind))
        return 16;
    return own_no(call, r);
}

/* What call 14 restores, by its first 18 bytes, and call 17, by all 20: at rest, the flag 1, layout 2. */
static const uint8_t RESTORED[GBASAVE_STATE_SIZE] = {[18] = 1, [19] = 2};

uint32_t made(unsigned call, gbasave_record *r, uint8_t *memory, size_t length, size_t count, uint8_t *bytes, uint32_t *place, uint32_t *changed)
{
    switch (call) {
    case 0: return gbasave_save_read(r, memory, length, 0x1234, place);
    case 1: return gbasave_save_write(r, memory, length, tallies, count, 0x1234, 0x12, changed);
    case 2: return gbasave_eeprom_write(r, memory, length, tallies, count, 1, changed);
    case 3: return gbasave_eeprom_read(r, memory, length, place);
    case 4: return gbasave_load_save(r, memory, length, tallies, count, file, 600, changed);
    case 5: return gbasave_save_data(r, memory, length, bytes, 511, place);
    case 6: return gbasave_load_save(r, memory, length, tallies, count, file, 512, changed);
    case 7: return gbasave_import_save(r, memory, length, tallies, count, file, 100, place, changed);
    case 8: return gbasave_import_save(r, memory, length, tallies, count, other_file, sizeof other_file, place, changed);
    case 9: return gbasave_eeprom_begin_dma(r, 73);
    case 10: return gbasave_chip_state(r, bytes);
    case 11: return gbasave_take_save_dirty(r, place);
    case 12: return gbasave_uses_eeprom(r, place);
    case 13: return gbasave_eeprom_window_start(r, place);
    case 14: return gbasave_restore_chip_state(r, RESTORED, GBASAVE_CHIP_SIZE);
    case 15: return gbasave_is_blank(r, tallies, count, place);
    case 16: return gbasave_first_in_use(r, tallies, count, place);
    default: return gbasave_restore_chip_state(r, RESTORED, GBASAVE_STATE_SIZE);
    }
}

/* What has to be in the place for the number after a call: a refused call leaves it, and so does one that is not given it. */
static uint32_t number_of(unsigned call, uint32_t no, size_t memory)
{
    if (!stores(call))
        return PLACE;
    if (no)
        return fault == REFUSED ? 0 : PLACE;
    const uint32_t changed = changed_bytes(memory);
    return fault == LOADS && call == 4 ? (uint32_t)memory : changed;
}

static int wrong(const char *what, unsigned call, const uint8_t *r, size_t memory, size_t count)
{
    printf("questions: %s, call %u, memory %zu, %zu tallies, record", what, call, memory, count);
    for (unsigned i = 0; i < RECORD; i++)
        printf(" %02X", r[i]);
    printf("\n");
    return 1;
}

/* What an accepted call about states leaves: the 20 bytes of a taken one and the destination after them, or the record. */
static int other_state(unsigned call, const uint8_t *given, const gbasave_record *r, const uint8_t *destination)
{
    uint8_t state[GBASAVE_STATE_SIZE + 1] = {0}, left[RECORD];
    memcpy(left, given, RECORD);
    if (call == 10) {
        make_state(state, given);
        return memcmp(destination, state, sizeof state) != 0;
    }
    restore_expected(left, RESTORED, call == 14 ? GBASAVE_CHIP_SIZE : GBASAVE_STATE_SIZE);
    return memcmp(r->bytes, left, RECORD) != 0;
}

int ask(const uint8_t *given, size_t memory, size_t count)
{
    for (unsigned call = 0; call < CALLS; call++) {
        static uint8_t bytes[GBASAVE_STATE_SIZE + 511], untouched[sizeof bytes], destination[sizeof bytes];
        gbasave_record r;
        uint32_t place = PLACE, changed = PLACE;
        memcpy(r.bytes, given, RECORD);
        const uint32_t no = first_no(call, given, memory, count);
        calls++;
        by_number[no]++;
        if (made(call, &r, no ? kept : scratch, memory, count, no ? bytes : destination, &place, &changed) != no)
            return wrong("another number", call, given, memory, count);
        if (changed != number_of(call, no, memory))
            return wrong("another number of changed bytes", call, given, memory, count);
        if (memcmp(tallies, expected, sizeof tallies))
            return wrong("other tallies", call, given, memory, count);
        if (no && (place != PLACE || memcmp(r.bytes, given, RECORD) || memcmp(bytes, untouched, sizeof bytes)))
            return wrong("something is changed", call, given, memory, count);
        if (r.bytes[GBASAVE_RECORD_PART] != given[GBASAVE_RECORD_PART])
            return wrong("the part is changed", call, given, memory, count);
        if (!no && ((call == 15 && place != blank_by_tallies(count)) || (call == 16 && place != first_by_tallies(count))))
            return wrong("another answer from the tallies", call, given, memory, count);
        if (!no && (call == 10 || call == 14 || call == 17) && other_state(call, given, &r, destination))
            return wrong("another state", call, given, memory, count);
    }
    return 0;
}

/* With the right memory, one byte less or more, and another kind's; with the right number of tallies, and one less or more. */
static int ask_all(const uint8_t *given)
{
    const size_t size = given[4] < KINDS ? SIZE[given[4]] : 0, count = size / STRETCH, less = count ? count - 1 : 2;
    return ask(given, size, count) || ask(given, size + 1, count) || ask(given, size ? size - 1 : 8192, less) ||
           ask(given, size == 65536 ? 131072 : 65536, count) || ask(given, size, count + 1) || ask(given, size, less);
}

const uint8_t NEAR[NEARS] = {0, 1, 2, 3, 4, 5, 6, 7, 8, 9, 13, 14, 15, 63, 64, 65, 67, 68, 255};

/* The record, and those around it. */
static int ask_near(const uint8_t *r)
{
    uint8_t other[RECORD];
    /* every byte with every value */
    for (unsigned at = 0; at < RECORD; at++)
        for (unsigned value = 0; value < 256; value++) {
            memcpy(other, r, RECORD);
            other[at] = (uint8_t)value;
            if (ask_all(other))
                return 1;
        }
    /* every two of bytes 4 to 15 and of the part around their limits */
    for (unsigned a = 4; a < 16; a++)
        for (unsigned b = a + 1; b < 17; b++)
            for (size_t i = 0; i < NEARS * NEARS; i++) {
                memcpy(other, r, RECORD);
                other[a] = NEAR[i / NEARS];
                other[b < 16 ? b : GBASAVE_RECORD_PART] = NEAR[i % NEARS];
                const size_t size = other[4] < KINDS ? SIZE[other[4]] : 0;
                if (ask(other, size, size / STRETCH))
                    return 1;
            }
    /* image lengths around both limits */
    memcpy(other, r, RECORD);
    for (uint32_t length = 190; length <= 33554434; length = length == 194 ? 33554430 : length + 1) {
        for (unsigned i = 0; i < 4; i++)
            other[i] = (uint8_t)(length >> 8 * i);
        if (ask_all(other))
            return 1;
    }
    return 0;
}

/* Records after byte 3: at rest; a flash command in bank 1 and ID mode; an address at each width; data; a read; large. */
static const uint8_t BASE[][14] = {{0}, {0, 1, 4, 1, 1}, {0, 0, 0, 0, 0, 6, 0, 1, 5}, {0, 1, 0, 0, 0, 14, 1, 2, 13}, {0, 0, 0, 0, 0, 0, 1, 3, 63, 100}, {0, 0, 0, 0, 0, 14, 1, 6, 0, 255, 3, 67}, {0, 0, 8, 1, 0, 0, 1}};
_Static_assert(sizeof BASE / sizeof *BASE == BASES, "the header says how many there are");

void make_record(uint8_t *r, unsigned kind, unsigned part, size_t base)
{
    memset(r, 0, RECORD);
    r[1] = 16;
    memcpy(r + 4, BASE[base], sizeof *BASE);
    r[GBASAVE_RECORD_KIND] = (uint8_t)kind;
    r[GBASAVE_RECORD_PART] = (uint8_t)part;
}

/* Every kind with every part that fits it. The tallies begin with all bits 0, one less, and so on, and go on as the calls leave them. */
static int ask_records(void)
{
    memcpy(before, scratch, LONGEST);
    for (size_t i = 0; i <= MOST_TALLIES; i++)
        tallies[i] = expected[i] = (uint16_t)(0 - i);
    for (unsigned kind = 0; kind < KINDS; kind++)
        for (unsigned part = 0; part < PARTS; part++)
            for (size_t base = 0; base < BASES && fits(part, kind); base++) {
                uint8_t r[RECORD];
                make_record(r, kind, part, base);
                if (ask_near(r))
                    return 1;
            }
    return 0;
}

int main(int argc, char **argv)
{
    for (unsigned i = 0; argc == 3 && strcmp(argv[1], "--fault") == 0 && i < sizeof FAULT / sizeof *FAULT; i++)
        if (strcmp(argv[2], FAULT[i]) == 0)
            fault = i;
    if (argc > 1 && fault == NOTHING) {
        fprintf(stderr, "usage: questions [--fault count | records | sizes | order | words | maker | loads | refused | matchers | finish | late |\n"
                        "                           opened | reset | tallies | modulo | stretches | sum | layout | early | cleared | left]\n");
        return 2;
    }
    for (size_t i = 0; i < LONGEST; i++)
        kept[i] = copy[i] = file[i] = (uint8_t)(i * 31 + i / 256);
    for (size_t i = 0; i < sizeof other_file; i++)
        other_file[i] = i < 100 ? file[i] : (uint8_t)~file[i];
    if (ask_words() || ask_starts() || ask_matchers() || ask_pieces() || ask_searches() || read_bytes() || ask_states() || ask_tallies() ||
        ask_counts() || ask_lists() || ask_openings(GBASAVE_KIND_NONE, GBASAVE_KIND_EEPROM512) || ask_records() ||
        ask_openings(GBASAVE_KIND_EEPROM8K, GBASAVE_KIND_EEPROM8K))
        return 1;
    if (memcmp(kept, copy, LONGEST) != 0) {
        printf("questions: a refused call changed a memory\n");
        return 1;
    }
    printf("questions: %lu calls, none wrong; accepted %lu", calls, by_number[0]);
    for (unsigned n = 1; n < REFUSALS; n++)
        if (by_number[n])
            printf(", %u: %lu", n, by_number[n]);
    printf("\n");
    return 0;
}
