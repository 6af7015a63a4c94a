/*
 * Replays the stored answers of the original through the C calls, without the original: reads the list that README.md describes, makes the
 * call of each line and compares the answer. The list has no number of changed bytes: after each call that stores, the number is compared with
 * a count over the memory before and after the call. Nor has it tallies: after each call on the cartridge, they and the two answers from them are
 * compared with a reading of the memory. The list's states have 18 bytes: of each state that is taken, the other two are compared with the flag and
 * the layout number, and each restore is also made with 20 bytes. Prints the first lines that differ, then for each frame how many lines were
 * replayed and how many of them differ. The status is 1 if an answer or a number differs, if the list is malformed or if a line of it was not
 * replayed. --fault count counts one changed byte too few, --fault tallies one byte in use, --fault stretches numbers stretches from 1, and
 * --fault flag expects the other flag in a state. Each has to be found.
 */
#include "gbasave.h"

#include <stdbool.h>
#include <stdio.h>
#include <string.h>

enum {
    LIST_MAX = 1 << 20,
    FRAME_MAX = 43,  /* bytes */
    ANSWER_MAX = 52, /* bytes */
    FRAMES = 0x11,   /* frame numbers are below this */
    KINDS = 6,
    FILE_MAX = 131328,
    SMALL_IMAGE_MAX = 16777216, /* a longer image with the EEPROM marker is EEPROM8K */
    DIFFERENCES_SHOWN = 10
};

/* In buffers and out-parameters before a call, so that a value that the call does not write shows. */
static const uint8_t UNWRITTEN = 0xA5;
static const uint32_t NO_VALUE = 0xA5A5A5A5;

/* The cartridge of the last frame 0B. Before the first it is 25 zeros, which every call refuses. */
static struct {
    gbasave_record record;
    uint8_t memory[GBASAVE_MEMORY_MAX];
    uint32_t size;
    uint16_t tallies[GBASAVE_MAX_TALLIES];
    size_t tally_count;
    bool is_open;
} cart;

static uint8_t image[GBASAVE_IMAGE_MAX];
static uint8_t file[FILE_MAX];

/* The cartridge's memory before a call that stores. */
static uint8_t before[GBASAVE_MEMORY_MAX];

/* What is counted or numbered wrongly. */
static enum { NOTHING, COUNT, TALLIES, STRETCHES, FLAG } fault;
static const char *const FAULT[] = {"nothing", "count", "tallies", "stretches", "flag"};

/* Lines, by the frame's number. */
static struct {
    unsigned long replayed, differ;
} by_frame[FRAMES];

/* ---- Digits -------------------------------------------------------------------------------------------------------- */

/* Characters of the list. */
struct text {
    const char *at;
    size_t count;
};

/* An answer, written digit by digit. */
struct answer {
    char digits[256];
    size_t count;
};

static int digit_value(char c)
{
    if (c >= '0' && c <= '9')
        return c - '0';
    return c >= 'A' && c <= 'F' ? c - 'A' + 10 : -1;
}

/* Whether these are the digits of 1 to `most` bytes. */
static bool are_bytes(struct text digits, size_t most)
{
    for (size_t i = 0; i < digits.count; i++)
        if (digit_value(digits.at[i]) < 0)
            return false;
    return digits.count >= 2 && digits.count % 2 == 0 && digits.count / 2 <= most;
}

static void decode(struct text digits, uint8_t *bytes)
{
    for (size_t i = 0; i < digits.count / 2; i++)
        bytes[i] = (uint8_t)(digit_value(digits.at[2 * i]) * 16 + digit_value(digits.at[2 * i + 1]));
}

/* The number of so many bytes, highest first. */
static uint32_t number(const uint8_t *bytes, size_t count)
{
    uint32_t value = 0;
    for (size_t i = 0; i < count; i++)
        value = value << 8 | bytes[i];
    return value;
}

/* A value that needs more digits gets them: the answer then differs. */
static void put(struct answer *a, uint32_t value, int digits)
{
    a->count += (size_t)snprintf(a->digits + a->count, sizeof a->digits - a->count, "%0*X", digits, (unsigned)value);
}

static void put_bytes(struct answer *a, const uint8_t *bytes, size_t count)
{
    for (size_t i = 0; i < count; i++)
        put(a, bytes[i], 2);
}

/* 00, or the number of the refusal. Returns whether the call was accepted. */
static bool put_status(struct answer *a, uint32_t refusal)
{
    put(a, refusal, 2);
    return refusal == 0;
}

/* 00 and the value, or the number of the refusal alone. */
static void put_value(struct answer *a, uint32_t refusal, uint32_t value, int digits)
{
    if (put_status(a, refusal))
        put(a, value, digits);
}

/* ---- Changed bytes ------------------------------------------------------------------------------------------------ */

/* Before a call that stores. Returns what its out-parameter has then. */
static uint32_t keep_memory(void)
{
    memcpy(before, cart.memory, sizeof before);
    return NO_VALUE;
}

static uint32_t changed_bytes(void)
{
    uint32_t changed = 0;
    for (size_t i = 0; i < cart.size; i++)
        if (cart.memory[i] != before[i])
            changed++;
    return fault == COUNT && changed > 0 ? changed - 1 : changed;
}

/* 00, or the number of the refusal. If the call wrote another number of changed bytes than there are, or any at a refusal, that is in the answer
   too, which then differs. */
static void put_stored(struct answer *a, uint32_t refusal, uint32_t changed)
{
    const uint32_t expected = put_status(a, refusal) ? changed_bytes() : NO_VALUE;
    if (changed != expected)
        a->count += (size_t)snprintf(a->digits + a->count, sizeof a->digits - a->count, " and %lu changed bytes, not %lu",
                                     (unsigned long)changed, (unsigned long)expected);
}

/* ---- Tallies ------------------------------------------------------------------------------------------------------- */

/* How many bytes of a stretch are in use. */
static uint32_t in_use(size_t stretch)
{
    uint32_t used = 0;
    for (size_t i = stretch * GBASAVE_STRETCH_SIZE; i < (stretch + 1) * GBASAVE_STRETCH_SIZE; i++)
        if (cart.memory[i] != 0xFF)
            used++;
    return fault == TALLIES && used > 0 ? used - 1 : used;
}

/* If the tallies are not those of the memory, or the answers from them, that is in the answer too, which then differs. */
static void put_tallies(struct answer *a)
{
    uint32_t blank = NO_VALUE, first = NO_VALUE, expected = GBASAVE_NONE_IN_USE;
    size_t wrong = 0;
    for (size_t i = cart.tally_count; i-- > 0;) {
        const uint32_t used = in_use(i);
        wrong += cart.tallies[i] != used;
        if (used > 0)
            expected = (uint32_t)i + (fault == STRETCHES);
    }
    const uint32_t refusal = gbasave_is_blank(&cart.record, cart.tallies, cart.tally_count, &blank) |
                             gbasave_first_in_use(&cart.record, cart.tallies, cart.tally_count, &first);
    if (wrong != 0 || refusal != 0 || first != expected || blank != (expected == GBASAVE_NONE_IN_USE))
        a->count += (size_t)snprintf(a->digits + a->count, sizeof a->digits - a->count,
                                     " and %zu wrong tallies, blank %lu, first in use %lu, not %lu", wrong, (unsigned long)blank,
                                     (unsigned long)first, (unsigned long)expected);
}

/* ---- States -------------------------------------------------------------------------------------------------------- */

/* The changed flag of a record. */
static uint8_t flag_of(const gbasave_record *record)
{
    return record->bytes[GBASAVE_RECORD_FLAG] ^ (fault == FLAG);
}

/* The first 18 bytes of a state. If flag and layout number after them are others, that is in the answer too, which then differs. */
static void put_state(struct answer *a, const uint8_t state[GBASAVE_STATE_SIZE])
{
    put_bytes(a, state, GBASAVE_CHIP_SIZE);
    if (state[GBASAVE_STATE_FLAG] != flag_of(&cart.record) || state[GBASAVE_STATE_LAYOUT] != 2)
        a->count += (size_t)snprintf(a->digits + a->count, sizeof a->digits - a->count, " and %u %u", (unsigned)state[GBASAVE_STATE_FLAG],
                                     (unsigned)state[GBASAVE_STATE_LAYOUT]);
}

/* 00, or the number of the refusal, of 18 bytes that have been restored. If the 20 of layout 2 with the same flag have another answer or leave
   another record than these have, or if the flag has changed, that is in the answer too, which then differs. */
static void put_restored(struct answer *a, uint32_t refusal, const uint8_t chip[GBASAVE_CHIP_SIZE], const gbasave_record *before_restore)
{
    uint8_t state[GBASAVE_STATE_SIZE];
    gbasave_record other = *before_restore;
    memcpy(state, chip, GBASAVE_CHIP_SIZE);
    state[GBASAVE_STATE_FLAG] = flag_of(before_restore);
    state[GBASAVE_STATE_LAYOUT] = 2;
    put_status(a, refusal);
    const uint32_t other_refusal = gbasave_restore_chip_state(&other, state, sizeof state);
    if (other_refusal != refusal || memcmp(&other, &cart.record, sizeof other) != 0)
        a->count += (size_t)snprintf(a->digits + a->count, sizeof a->digits - a->count, " and %lu from 20 bytes, or another record",
                                     (unsigned long)other_refusal);
}

/* ---- Files and images ---------------------------------------------------------------------------------------------- */

static void make_file(size_t length, uint8_t seed)
{
    for (size_t i = 0; i < length; i++)
        file[i] = (uint8_t)(seed + 7 * i + i / 256);
}

/* CRC-32/IEEE of the file, bit by bit. Not by gbasave_rom_crc, which is itself under test. */
static uint32_t file_crc(size_t length)
{
    uint32_t crc = 0xFFFFFFFF;
    for (size_t i = 0; i < length; i++) {
        crc ^= file[i];
        for (int bit = 0; bit < 8; bit++)
            crc = crc >> 1 ^ (crc & 1 ? 0xEDB88320 : 0);
    }
    return ~crc;
}

static void make_image(size_t length, uint8_t seed)
{
    memset(image, 0, length);
    for (size_t i = 0; seed != 0 && i < length; i++)
        image[i] = (uint8_t)(seed * (i / 64 + 1) + 13 * i);
}

/* The text at an offset; what would be past the image's end falls away. */
static void put_text(size_t length, size_t offset, const void *text, size_t text_length)
{
    const size_t room = length - offset;
    memcpy(image + offset, text, text_length < room ? text_length : room);
}

/* Whether the image of make_image_of has the kind: the length decides between the two EEPROM kinds. */
static bool has_image(uint8_t kind, uint32_t length)
{
    if (kind >= GBASAVE_KIND_EEPROM512 && (length > SMALL_IMAGE_MAX) != (kind == GBASAVE_KIND_EEPROM8K))
        return false;
    return kind < KINDS && length <= sizeof image;
}

/* An image of a kind: zeros and the kind's marker. */
static void make_image_of(uint8_t kind, uint32_t length)
{
    static const char *const MARKER[KINDS] = {"", "SRAM_V", "FLASH_V", "FLASH1M_V", "EEPROM_V", "EEPROM_V"};
    make_image(length, 0);
    put_text(length, 0, MARKER[kind], strlen(MARKER[kind]));
}

/* The shortest image of a kind. Returns its length. */
static uint32_t make_shortest_image_of(uint8_t kind)
{
    const uint32_t length = kind == GBASAVE_KIND_EEPROM8K ? SMALL_IMAGE_MAX + 1 : GBASAVE_IMAGE_MIN;
    make_image_of(kind, length);
    return length;
}

/* ---- The calls: each takes what follows the frame's number, and writes the answer ----------------------------------- */

/* 01 address (8) */
static void read_byte(const uint8_t *s, struct answer *a)
{
    uint32_t value = NO_VALUE;
    const uint32_t refusal = gbasave_save_read(&cart.record, cart.memory, cart.size, number(s, 4), &value);
    put_value(a, refusal, value, 2);
}

/* 02 address (8) value (2) */
static void write_byte(const uint8_t *s, struct answer *a)
{
    uint32_t changed = keep_memory();
    const uint32_t refusal = gbasave_save_write(&cart.record, cart.memory, cart.size, cart.tallies, cart.tally_count, number(s, 4), s[4],
                                                &changed);
    put_stored(a, refusal, changed);
}

/* 03 */
static void bit_out(struct answer *a)
{
    uint32_t bit = NO_VALUE;
    const uint32_t refusal = gbasave_eeprom_read(&cart.record, cart.memory, cart.size, &bit);
    put_value(a, refusal, bit, 2);
}

/* 04 value (4) */
static void bit_in(const uint8_t *s, struct answer *a)
{
    uint32_t changed = keep_memory();
    const uint32_t refusal =
        gbasave_eeprom_write(&cart.record, cart.memory, cart.size, cart.tallies, cart.tally_count, (uint16_t)number(s, 2), &changed);
    put_stored(a, refusal, changed);
}

/* 05 words (4) */
static void begin_dma(const uint8_t *s, struct answer *a)
{
    put_status(a, gbasave_eeprom_begin_dma(&cart.record, number(s, 2)));
}

/* 06 */
static void take_flag(struct answer *a)
{
    uint32_t flag = NO_VALUE;
    const uint32_t refusal = gbasave_take_save_dirty(&cart.record, &flag);
    put_value(a, refusal, flag, 2);
}

/* 07 */
static void chip_record(struct answer *a)
{
    uint8_t state[GBASAVE_STATE_SIZE];
    memset(state, UNWRITTEN, sizeof state);
    if (put_status(a, gbasave_chip_state(&cart.record, state)))
        put_state(a, state);
}

/* 08 length (6) seed (2) */
static void load(const uint8_t *s, struct answer *a)
{
    const uint32_t length = number(s, 3);
    make_file(length, s[3]);
    uint32_t changed = keep_memory();
    const uint32_t refusal =
        gbasave_load_save(&cart.record, cart.memory, cart.size, cart.tallies, cart.tally_count, file, length, &changed);
    put_stored(a, refusal, changed);
}

/* 09 */
static void export(struct answer *a)
{
    uint32_t length = NO_VALUE;
    memset(file, UNWRITTEN, sizeof file);
    if (!put_status(a, gbasave_save_data(&cart.record, cart.memory, cart.size, file, GBASAVE_MEMORY_MAX, &length)))
        return;
    put(a, length, 6);
    put(a, file_crc(length <= sizeof file ? length : 0), 8);
}

/* 0A 18 bytes (36) */
static void restore(const uint8_t *s, struct answer *a)
{
    const gbasave_record before_restore = cart.record;
    const uint32_t refusal = gbasave_restore_chip_state(&cart.record, s, GBASAVE_CHIP_SIZE);
    put_restored(a, refusal, s, &before_restore);
}

/* 0B kind (2) image length (8) */
static void open_cartridge(const uint8_t *s, struct answer *a)
{
    const uint32_t length = number(s + 1, 4);
    make_image_of(s[0], length);
    memset(&cart, UNWRITTEN, sizeof cart);
    uint32_t refusal = gbasave_memory_size(s[0], &cart.size);
    cart.tally_count = cart.size / GBASAVE_STRETCH_SIZE;
    if (refusal == 0)
        refusal = gbasave_from_bytes(&cart.record, image, length, GBASAVE_PART_USUAL, cart.memory, cart.size, cart.tallies,
                                     cart.tally_count);
    cart.is_open = refusal == 0;
    put_status(a, refusal);
}

/* 0C kind (2) length (8). Where the C call keeps 0 bytes, the list has a refusal. */
static void fit(const uint8_t *s, struct answer *a)
{
    const uint32_t length = make_shortest_image_of(s[0]);
    uint32_t kept = NO_VALUE;
    const uint32_t refusal = gbasave_save_fit(image, length, number(s + 1, 4), &kept);
    put_value(a, refusal == 0 && kept == 0 ? GBASAVE_REFUSED_FILE_LENGTH : refusal, kept, 8);
}

/* 0D kind (2) */
static void size(const uint8_t *s, struct answer *a)
{
    const uint32_t length = make_shortest_image_of(s[0]);
    uint32_t bytes = NO_VALUE;
    const uint32_t refusal = gbasave_save_size(image, length, &bytes);
    put_value(a, refusal, bytes, 8);
}

/* Opens the image apart from the list's cartridge, with the file's buffer as its memory. */
static uint32_t open_image(gbasave_record *record, uint32_t length)
{
    uint16_t tallies[GBASAVE_MAX_TALLIES];
    uint32_t bytes = NO_VALUE;
    const uint32_t refusal = gbasave_save_size(image, length, &bytes);
    if (refusal != 0)
        return refusal;
    return gbasave_from_bytes(record, image, length, GBASAVE_PART_USUAL, file, bytes, tallies, bytes / GBASAVE_STRETCH_SIZE);
}

/* One of several values. If its call is refused, the refusal is in the answer too, which then differs. */
static void put_next(struct answer *a, uint32_t refusal, uint32_t *value, int digits)
{
    if (refusal != 0)
        put(a, refusal, 2);
    put(a, *value, digits);
    *value = NO_VALUE;
}

static void put_title(struct answer *a, uint32_t length)
{
    uint8_t title[GBASAVE_TITLE_SIZE];
    uint32_t value = NO_VALUE;
    memset(title, UNWRITTEN, sizeof title);
    const uint32_t refusal = gbasave_title(image, length, title, sizeof title, &value);
    const size_t count = value <= sizeof title ? value : 0;
    put_next(a, refusal, &value, 2);
    put_bytes(a, title, count);
}

/* If the search finds another kind, or hands over more bytes than there are, that is in the answer too, which then differs. */
static void put_kind(struct answer *a, uint32_t length)
{
    uint32_t kind = NO_VALUE, found = NO_VALUE, handed = NO_VALUE;
    const uint32_t refusal = gbasave_detect_save_type(image, length, &kind);
    if (gbasave_search(image, length, &found, &handed) != refusal || found != kind || handed > length)
        a->count += (size_t)snprintf(a->digits + a->count, sizeof a->digits - a->count, " and a search that gives %lu after %lu bytes ",
                                     (unsigned long)found, (unsigned long)handed);
    put_next(a, refusal, &kind, 2);
}

/* 10 image length (8) seed (2) offset (8) text (0 to 66) */
static void image_alone(const uint8_t *s, size_t count, struct answer *a)
{
    const uint32_t length = number(s, 4);
    uint32_t value = NO_VALUE;
    gbasave_record record;
    make_image(length, s[4]);
    put_text(length, number(s + 5, 4), s + 9, count - 9);
    if (!put_status(a, open_image(&record, length)))
        return;
    put_kind(a, length);
    put_next(a, gbasave_header_checksum(image, length, &value), &value, 2);
    put_next(a, gbasave_rom_crc(image, length, &value), &value, 8);
    put_next(a, gbasave_save_size(image, length, &value), &value, 8);
    put_next(a, gbasave_eeprom_window_start(&record, &value), &value, 8);
    put_title(a, length);
}

/* ---- The list ------------------------------------------------------------------------------------------------------ */

/* Whether a frame has the length in bytes that its number asks for; 10 may end with a text. */
static bool has_its_length(const uint8_t *frame, size_t count)
{
    static const size_t LENGTH[FRAMES] = {0, 5, 6, 1, 3, 3, 1, 1, 5, 1, 19, 6, 6, 2, 0, 0, 10};
    const size_t length = frame[0] < FRAMES ? LENGTH[frame[0]] : 0;
    return length != 0 && (frame[0] == 0x10 ? count >= length : count == length);
}

/* Whether a frame's call can be made: there is an image of its kind, and a buffer holds its file or image. */
static bool is_frame(const uint8_t *frame, size_t count)
{
    if (!has_its_length(frame, count))
        return false;
    switch (frame[0]) {
    case 0x08: return number(frame + 1, 3) <= sizeof file;
    case 0x0B: return has_image(frame[1], number(frame + 2, 4));
    case 0x0C:
    case 0x0D: return frame[1] < KINDS;
    case 0x10: return number(frame + 1, 4) <= sizeof image && number(frame + 6, 4) <= number(frame + 1, 4);
    default: return true;
    }
}

static void make_call(const uint8_t *frame, size_t count, struct answer *a)
{
    const uint8_t *s = frame + 1;
    switch (frame[0]) {
    case 0x01: read_byte(s, a); break;
    case 0x02: write_byte(s, a); break;
    case 0x03: bit_out(a); break;
    case 0x04: bit_in(s, a); break;
    case 0x05: begin_dma(s, a); break;
    case 0x06: take_flag(a); break;
    case 0x07: chip_record(a); break;
    case 0x08: load(s, a); break;
    case 0x09: export(a); break;
    case 0x0A: restore(s, a); break;
    case 0x0B: open_cartridge(s, a); break;
    case 0x0C: fit(s, a); break;
    case 0x0D: size(s, a); break;
    case 0x10: image_alone(s, count - 1, a); break;
    }
}

static void show(unsigned long line, struct text frame, struct text expected, const struct answer *got)
{
    static unsigned shown;
    if (shown++ < DIFFERENCES_SHOWN)
        printf("answers: line %lu, frame %.*s: expected %.*s, got %s\n", line, (int)frame.count, frame.at, (int)expected.count,
               expected.at, got->digits);
}

/* A line without its line feed: frame, one space, answer. Returns false if it is malformed. */
static bool replay_line(unsigned long line, struct text text)
{
    const char *space = memchr(text.at, ' ', text.count);
    if (space == NULL)
        return false;
    const struct text frame = {text.at, (size_t)(space - text.at)}, expected = {space + 1, text.count - frame.count - 1};
    if (!are_bytes(frame, FRAME_MAX) || !are_bytes(expected, ANSWER_MAX))
        return false;
    uint8_t bytes[FRAME_MAX];
    decode(frame, bytes);
    if (!is_frame(bytes, frame.count / 2))
        return false;
    struct answer got = {"", 0};
    make_call(bytes, frame.count / 2, &got);
    if (bytes[0] <= 0x0B && cart.is_open)
        put_tallies(&got);
    by_frame[bytes[0]].replayed++;
    if (got.count != expected.count || memcmp(got.digits, expected.at, got.count) != 0) {
        by_frame[bytes[0]].differ++;
        show(line, frame, expected, &got);
    }
    return true;
}

/* Stops at a malformed line: the lines after it may depend on its call. */
static void replay(struct text list)
{
    for (unsigned long line = 1; list.count > 0; line++) {
        const char *end = memchr(list.at, '\n', list.count);
        if (end == NULL || !replay_line(line, (struct text){list.at, (size_t)(end - list.at)})) {
            printf("answers: line %lu is malformed\n", line);
            return;
        }
        list.count -= (size_t)(end + 1 - list.at);
        list.at = end + 1;
    }
}

/* Counted by itself, to see that the replay left none out. A last line without a line feed counts. */
static unsigned long lines_of(struct text list)
{
    unsigned long lines = 0;
    for (size_t i = 0; i < list.count; i++)
        if (list.at[i] == '\n' || i + 1 == list.count)
            lines++;
    return lines;
}

/* Returns the status: 0 if there are lines, all were replayed and none differs. */
static int report(unsigned long lines)
{
    unsigned long replayed = 0, differ = 0;
    for (unsigned i = 0; i < FRAMES; i++) {
        if (by_frame[i].replayed != 0)
            printf("answers: frame %02X, %lu replayed, %lu differ\n", i, by_frame[i].replayed, by_frame[i].differ);
        replayed += by_frame[i].replayed;
        differ += by_frame[i].differ;
    }
    printf("answers: %lu of %lu lines replayed through the C calls, %lu differ\n", replayed, lines, differ);
    return lines == 0 || replayed != lines || differ != 0;
}

int main(int argc, char **argv)
{
    static char room[LIST_MAX];
    for (unsigned i = 0; argc == 4 && strcmp(argv[2], "--fault") == 0 && i < sizeof FAULT / sizeof *FAULT; i++)
        if (strcmp(argv[3], FAULT[i]) == 0)
            fault = i;
    FILE *stream = argc == 2 || fault != NOTHING ? fopen(argv[1], "rb") : NULL;
    if (stream == NULL) {
        fprintf(stderr, "usage: answers LIST [--fault count | tallies | stretches | flag], where LIST is a file that can be read\n");
        return 2;
    }
    const struct text list = {room, fread(room, 1, sizeof room, stream)};
    fclose(stream);
    if (list.count == sizeof room) {
        fprintf(stderr, "answers: the list is too long\n");
        return 1;
    }
    replay(list);
    return report(lines_of(list));
}
