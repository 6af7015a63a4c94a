/* What the files of compare/questions share: what is lent to the calls, what is expected wrongly, and how a call is asked. */
#ifndef QUESTIONS_H
#define QUESTIONS_H

#include "gbasave.h"

enum { RECORD = GBASAVE_RECORD_SIZE, LONGEST = GBASAVE_MEMORY_MAX + 1, PLACE = 0x5EED5EED, KINDS = 6, STRETCH = 4096 };

/* Tallies are passed in numbers of 0 to 40. */
enum { MOST_TALLIES = 40 };

/* Bytes of save memory by kind. */
extern const uint32_t SIZE[KINDS];

/* Lent to calls that are to be accepted, and what it held before a call on a record that stores. No other one changes it. */
extern uint8_t scratch[LONGEST], before[LONGEST];

/* The tallies of scratch, right or not, and what they have to be. */
extern uint16_t tallies[MOST_TALLIES + 1], expected[MOST_TALLIES + 1];

extern uint8_t image[GBASAVE_IMAGE_MAX + 1];

/* Calls made, and by the number that they had to answer. */
enum { REFUSALS = 19 };
extern unsigned long calls, by_number[REFUSALS];

/* What is expected wrongly: a count of 64 in phase 3; records with a part that does not fit; a 128K part on Flash64; 15 asked before 3; two parts'
   words swapped; the maker at odd addresses; every byte of the memory changed by a load; the number 0 of a refused call that stores; matchers whose
   fourth byte is 2; 2 asked before 1 at the end of a search. Of tallies: 16 asked after 4, 14 and 15; an opening that leaves them; a refused one that
   sets them to 0; a store that adds every byte that it changes; tallies that stop at 0 and at 65,535; stretches numbered from 1; blank if their sum is
   0 modulo 65,536. Of states: 17 asked after 7; 18 asked before 12; 18 bytes that clear the flag; 20 bytes that leave it. */
typedef enum fault_name {
    NOTHING,
    COUNT,
    RECORDS,
    SIZES,
    ORDER,
    WORDS,
    MAKER,
    LOADS,
    REFUSED,
    MATCHERS,
    FINISH,
    LATE,
    OPENED,
    RESET,
    TALLIES,
    MODULO,
    STRETCHES,
    SUM,
    LAYOUT,
    EARLY,
    CLEARED,
    LEFT
} fault_name;
extern fault_name fault;

/* An image of a kind: zeros and the kind's marker. Returns its length, the least one. */
size_t make_image(unsigned kind);

uint32_t random_below(uint32_t end);

/* The number of the first question about a chip record, 7 to 12, to which the answer is no, or 0. */
uint32_t chip_no(const uint8_t *c);
int is_record(const uint8_t *r);

/* Bytes around the limits of a record's fields. */
enum { NEARS = 19 };
extern const uint8_t NEAR[NEARS];

/* Records of a kind: at rest, and in the middle of commands. */
enum { BASES = 7 };
void make_record(uint8_t *r, unsigned kind, unsigned part, size_t base);

/* Makes a call on a record, by number, with so many tallies. */
uint32_t made(unsigned call, gbasave_record *r, uint8_t *memory, size_t length, size_t count, uint8_t *bytes, uint32_t *place, uint32_t *changed);

/* Makes every call on a record, or an opening, and looks at what it answers and leaves. Returns 1 if something is wrong. */
int ask(const uint8_t *given, size_t memory, size_t count);
int ask_opening(unsigned kind, size_t image_length, uint32_t part, size_t memory, size_t count);

/* ---- question_tallies.c ----------------------------------------------------------------------------------------------------------- */

size_t tallies_of(unsigned kind);
void set_tallies(uint16_t value);

/* After an accepted call that stores: how many bytes of scratch it changed. The tallies that are expected change too. */
uint32_t changed_bytes(size_t memory);

/* What the two answers have to be, by the tallies that are expected. */
uint32_t first_by_tallies(size_t count);
uint32_t blank_by_tallies(size_t count);

/* Numbers of tallies, what they hold, and lists of stores. Return 1 if something is wrong. */
int ask_counts(void);
int ask_tallies(void);
int ask_lists(void);

/* ---- question_states.c ------------------------------------------------------------------------------------------------------------ */

/* What a state of 20 bytes has to be, of a valid record. */
void make_state(uint8_t *state, const uint8_t *r);

/* Makes the record what an accepted restore has to leave. */
void restore_expected(uint8_t *r, const uint8_t *state, size_t length);

/* States of both layouts and of other lengths, into every kind of record. Returns 1 if something is wrong. */
int ask_states(void);

#endif
