/*
 * States: what is taken of a record, and which question refuses which bytes of a restore, of both layouts and of other lengths. Held against
 * document 02's ticket 5 as written here: "Layout 2 is 20 bytes: the eighteen, the flag, and the layout number 2. Old files of 18 bytes are still
 * read, leave the flag, and come back unchanged as the first eighteen of the twenty; length tells the two."
 */
#include "questions.h"

#include <stdio.h>
#include <string.h>

enum { CHIP = 18, STATE = 20, FLAG = 18, LAYOUT_NUMBER = 19, LONGEST_STATE = 40 };

/* ---- What they have to be --------------------------------------------------------------------------------------------------------- */

void make_state(uint8_t *state, const uint8_t *r)
{
    memcpy(state, r + GBASAVE_RECORD_CHIP, CHIP);
    state[FLAG] = r[GBASAVE_RECORD_FLAG];
    state[LAYOUT_NUMBER] = 2;
}

void restore_expected(uint8_t *r, const uint8_t *state, size_t length)
{
    memcpy(r + GBASAVE_RECORD_CHIP, state, CHIP);
    if (length == STATE && fault != LEFT)
        r[GBASAVE_RECORD_FLAG] = state[FLAG];
    if (length == CHIP && fault == CLEARED)
        r[GBASAVE_RECORD_FLAG] = 0;
}

/* 2, 6, "17 when byte 19 is not 2, asked before 7", 7 to 12, "18 when byte 18 is above 1, asked after 12". */
static uint32_t restore_no(const uint8_t *r, const uint8_t *state, size_t length)
{
    if (!is_record(r))
        return 2;
    if (length != CHIP && length != STATE)
        return 6;
    const uint32_t no = chip_no(state);
    const int new_layout = length == STATE, no_17 = new_layout && state[LAYOUT_NUMBER] != 2, no_18 = new_layout && state[FLAG] > 1;
    if (no_17 && !(fault == LAYOUT && no == 7))
        return 17;
    if (no_18 && fault == EARLY && no == 12)
        return 18;
    return no ? no : no_18 ? 18 : 0;
}

/* ---- Restores --------------------------------------------------------------------------------------------------------------------- */

static int wrong_state(const char *what, const uint8_t *r, const uint8_t *state, size_t length)
{
    printf("questions: %s, a state of %zu bytes", what, length);
    for (size_t i = 0; i < length; i++)
        printf(" %02X", state[i]);
    printf(", record");
    for (unsigned i = 0; i < RECORD; i++)
        printf(" %02X", r[i]);
    printf("\n");
    return 1;
}

/* After an accepted restore: the state is written back, and is restored to itself. The byte after the 20 keeps its value. */
static int taken_back(const gbasave_record *left, const uint8_t *state, size_t length)
{
    uint8_t expected_state[STATE + 1] = {0}, taken[STATE + 1] = {0};
    gbasave_record again = *left;
    make_state(expected_state, left->bytes);
    calls += 2;
    by_number[0] += 2;
    if (gbasave_chip_state(left, taken) != 0 || memcmp(taken, expected_state, sizeof taken) != 0)
        return wrong_state("another state is taken", left->bytes, state, length);
    if (memcmp(taken, state, length) != 0)
        return wrong_state("not written back as it was", left->bytes, state, length);
    if (gbasave_restore_chip_state(&again, taken, STATE) != 0 || memcmp(again.bytes, left->bytes, RECORD) != 0)
        return wrong_state("not restored to itself", left->bytes, state, length);
    return 0;
}

/* A refused restore leaves the record. */
static int ask_state(const uint8_t *given, const uint8_t *state, size_t length)
{
    const uint32_t no = restore_no(given, state, length);
    uint8_t left[RECORD];
    gbasave_record r;
    memcpy(r.bytes, given, RECORD);
    memcpy(left, given, RECORD);
    if (no == 0)
        restore_expected(left, state, length);
    calls++;
    by_number[no]++;
    if (gbasave_restore_chip_state(&r, length ? state : NULL, length) != no)
        return wrong_state("another number", given, state, length);
    if (memcmp(r.bytes, left, RECORD) != 0)
        return wrong_state("another record", given, state, length);
    return no ? 0 : taken_back(&r, state, length);
}

/* Both layouts: the 18 bytes, whatever follows them, and the 20. */
static int ask_both(const uint8_t *given, const uint8_t *state)
{
    return ask_state(given, state, CHIP) || ask_state(given, state, STATE);
}

/* A chip record that is allowed, and one for each number from 7 to 12. */
enum { CHIPS = 7 };
static const uint8_t CHIP_RECORDS[CHIPS][CHIP] = {{4, 1, 1, 14, 1, 3, 63, 255, 3, 67, 1, 2, 3, 4, 5, 6, 7, 128},
                                                  {0, 0, 0, 0, 0, 7},
                                                  {3},
                                                  {0, 2},
                                                  {0, 0, 0, 7},
                                                  {0, 0, 0, 0, 0, 0, 0, 0, 4},
                                                  {0, 0, 0, 0, 0, 1, 6}};

static void make_bytes(uint8_t *state, size_t chip, uint8_t flag, uint8_t layout)
{
    memset(state, 0, LONGEST_STATE);
    memcpy(state, CHIP_RECORDS[chip], CHIP);
    state[FLAG] = flag;
    state[LAYOUT_NUMBER] = layout;
}

/* With every chip record: every length from 0 to 40; byte 18 and byte 19 with every value, and beside an allowed one with every two values. */
static int ask_ends(const uint8_t *given)
{
    uint8_t state[LONGEST_STATE];
    for (size_t chip = 0; chip < CHIPS; chip++) {
        for (size_t length = 0; length <= LONGEST_STATE; length++)
            for (unsigned end = 0; end < 4; end++) {
                make_bytes(state, chip, end & 1 ? 2 : 1, end & 2 ? 3 : 2);
                if (ask_state(given, state, length))
                    return 1;
            }
        for (unsigned a = 0; a < 256; a++)
            for (unsigned b = 0; b < 256; b++) {
                if (chip > 0 && a > 2 && a < 255 && (b < 1 || b > 3))
                    continue;
                make_bytes(state, chip, (uint8_t)a, (uint8_t)b);
                if (ask_both(given, state))
                    return 1;
            }
    }
    return 0;
}

/* Every byte of the chip record with every value, and every two of its first ten around their limits, with byte 18 and byte 19 right and wrong. */
static int ask_chips(const uint8_t *given)
{
    static const uint8_t FLAGS[] = {0, 1, 2}, LAYOUTS[] = {2, 1, 18};
    uint8_t state[LONGEST_STATE];
    for (size_t end = 0; end < 9; end++) {
        for (unsigned at = 0; at < CHIP; at++)
            for (unsigned value = 0; value < 256; value++) {
                make_bytes(state, 0, FLAGS[end % 3], LAYOUTS[end / 3]);
                state[at] = (uint8_t)value;
                if (ask_both(given, state))
                    return 1;
            }
        for (unsigned a = 0; a < 10; a++)
            for (unsigned b = a + 1; b < 10; b++)
                for (size_t i = 0; i < NEARS * NEARS; i++) {
                    make_bytes(state, 0, FLAGS[end % 3], LAYOUTS[end / 3]);
                    state[a] = NEAR[i / NEARS];
                    state[b] = NEAR[i % NEARS];
                    if (ask_both(given, state))
                        return 1;
                }
    }
    return 0;
}

/* Every kind, at rest and in the middle of commands, with the flag 0, 1 and, which is no record, 2. */
int ask_states(void)
{
    for (unsigned kind = 0; kind < KINDS; kind++)
        for (size_t base = 0; base < BASES; base++)
            for (unsigned flag = 0; flag <= 2; flag++) {
                uint8_t r[RECORD];
                make_record(r, kind, 0, base);
                r[GBASAVE_RECORD_FLAG] = (uint8_t)flag;
                if (ask_ends(r) || (base == kind && ask_chips(r)))
                    return 1;
            }
    return 0;
}
