/* A cartridge with its memory and tallies, and its states, as a console core would have them. */
#ifndef CARTRIDGE_H
#define CARTRIDGE_H

#include <gbasave.h>
#include <stdbool.h>

/* What tells one cartridge from another, and the part with which it is opened. */
typedef struct identity {
    uint32_t kind;
    uint32_t image_length;
    uint32_t image_crc;
    uint32_t part;
} identity;

typedef struct cartridge {
    gbasave_record record;
    uint8_t *memory;
    size_t length; /* of the memory */
    uint16_t tallies[GBASAVE_MAX_TALLIES];
    size_t tally_count;
    identity id;
} cartridge;

/* All that a state keeps of a cartridge, and the cartridge that it belongs to. The tallies are not kept. */
typedef struct saved_state {
    identity id;
    uint8_t chip[GBASAVE_STATE_SIZE];
    size_t chip_length; /* GBASAVE_STATE_SIZE, or GBASAVE_CHIP_SIZE in a state that an older host took */
    uint8_t *file;
    uint32_t length; /* of the file; 0 if the kind has none */
} saved_state;

/* What a host knows about the save file that it has written out, when it resumes a state. */
typedef enum save_file {
    SAVE_FILE_AS_IT_WAS,   /* it is the one of the moment when the state was taken */
    SAVE_FILE_MAY_BE_OTHER /* it may be another one: a later one, or another player's */
} save_file;

/* Returned by cartridge_resume, beside the numbers of gbasave.h. */
enum {
    OTHER_CARTRIDGE = 0x100, /* the state belongs to another cartridge */
    OTHER_PART               /* the state belongs to this cartridge, opened with another part */
};

/* Returns a text for what cartridge_open or cartridge_resume returns. */
const char *answer_text(uint32_t answer);

/* Returns the kind's name for a person. */
const char *kind_text(uint32_t kind);

/* Returns 0 or the number of a refusal. A refused cartridge need not be closed. The image is not kept. */
uint32_t cartridge_open(cartridge *cart, const uint8_t *image, size_t image_length, uint32_t part);
void cartridge_close(cartridge *cart);

/* Returns whether the file has to be written out, and clears the changed flag. */
bool cartridge_take_changed(cartridge *cart);

/* Returns the changed flag, and leaves it. */
bool cartridge_changed(const cartridge *cart);

/* Loads a file of any length. Returns how many bytes of the memory have changed. */
uint32_t cartridge_load(cartridge *cart, const uint8_t *file, size_t length);

/* Counts the tallies again, after they were lost or something else has written to the memory. */
void cartridge_count_tallies(cartridge *cart);

saved_state take_state(const cartridge *cart);
void drop_state(saved_state *state);

/*
 * Resumes a state in an open cartridge of the same image and part, whatever was played on it. The changed flag comes with
 * the state. If it cannot, or if the save file may be another one, the file counts as changed. *changed is how many bytes
 * of the memory have changed. Returns 0, the number of a refusal, OTHER_CARTRIDGE or OTHER_PART. If it is not 0, the
 * cartridge and *changed are unchanged.
 */
uint32_t cartridge_resume(cartridge *cart, const saved_state *state, save_file written_out, uint32_t *changed);

#endif
