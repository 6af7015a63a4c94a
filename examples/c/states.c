#include "states.h"

#include "check.h"
#include "game.h"

#include <stdio.h>
#include <stdlib.h>
#include <string.h>

enum { PLACE = 0x0E000000 };

void same_states(const saved_state *a, const saved_state *b)
{
    expect("the files have the same length", a->length == b->length);
    same("the files", a->file, b->file, a->length);
    expect("the chips' states have the same length", a->chip_length == b->chip_length);
    same("the chips", a->chip, b->chip, a->chip_length);
}

void not_resumed(const char *what, cartridge *cart, const saved_state *state, uint32_t number)
{
    saved_state before = take_state(cart);
    const uint32_t untouched = 0xA5A5A5A5;
    uint32_t changed = untouched;
    expect(what, cartridge_resume(cart, state, SAVE_FILE_MAY_BE_OTHER, &changed) == number);
    saved_state after = take_state(cart);
    same_states(&before, &after);
    expect("there is no number of changed bytes", changed == untouched);
    printf("  %-24s not resumed: %s\n", what, answer_text(number));
    drop_state(&before);
    drop_state(&after);
}

/* A host that writes out the save file only if the changed flag is 1. */
typedef struct host {
    uint8_t *image;
    cartridge cart;
    uint8_t *save_file; /* as it was written out last */
} host;

static void switch_on(host *h)
{
    accepted("opening", cartridge_open(&h->cart, h->image, IMAGE_LENGTH, GBASAVE_PART_USUAL));
}

/* Returns whether the file was written out. */
static bool flush(host *h)
{
    const bool changed = cartridge_take_changed(&h->cart);
    if (changed)
        memcpy(h->save_file, h->cart.memory, h->cart.length);
    return changed;
}

/* A game saves this byte. */
static void save(host *h, uint8_t byte)
{
    write_byte(&h->cart, PLACE, byte);
}

/* Resumes the state, in which the game has saved 5Ah. The flag is then 0 or 1, as given, and the host acts on it. */
static void resumed(const char *what, host *h, const saved_state *state, save_file written_out, bool flag)
{
    const bool has_flag = state->chip_length == GBASAVE_STATE_SIZE, set = !has_flag || written_out != SAVE_FILE_AS_IT_WAS;
    uint32_t changed;
    accepted("resuming", cartridge_resume(&h->cart, state, written_out, &changed));
    expect("the byte is there", read_byte(&h->cart, PLACE) == 0x5A && changed == 1);
    expect(what, flush(h) == flag && !flush(h));
    same("the save file", h->save_file, h->cart.memory, h->cart.length);
    printf("  %-24s resumed; flag %d, %s: the save file %s\n", what, flag, set ? "set by the host" : "from the state",
           flag ? "is written" : "has it already");
}

/* States of 20 bytes. The first is taken before the file is written out, the second after it. */
static void with_flag(host *h)
{
    switch_on(h);
    save(h, 0x5A);
    saved_state unwritten = take_state(&h->cart);
    expect("the state has the flag", unwritten.chip[GBASAVE_STATE_FLAG] == 1);
    cartridge_close(&h->cart);

    /* The console was switched off. The flag comes with the state. */
    switch_on(h);
    resumed("in a fresh cartridge", h, &unwritten, SAVE_FILE_AS_IT_WAS, true);
    saved_state written = take_state(&h->cart);
    expect("the state has the flag", written.chip[GBASAVE_STATE_FLAG] == 0);
    cartridge_close(&h->cart);
    switch_on(h);
    resumed("taken after the writing", h, &written, SAVE_FILE_AS_IT_WAS, false);

    /* In the open cartridge the flag is the state's too, whatever was played. */
    save(h, 0xA5);
    resumed("in the open cartridge", h, &written, SAVE_FILE_AS_IT_WAS, false);

    /* The game has saved since, and the host has written that out. The state's flag is still 0: now the host sets it. */
    save(h, 0xA5);
    expect("a later file is written", flush(h));
    resumed("an older state", h, &written, SAVE_FILE_MAY_BE_OTHER, true);
    cartridge_close(&h->cart);
    drop_state(&unwritten);
    drop_state(&written);
}

/* Reads the 18 bytes of an old file into a cartridge whose flag is as given, and writes them back. */
static void written_back(host *h, const uint8_t old[GBASAVE_CHIP_SIZE], bool flag)
{
    uint8_t state[GBASAVE_STATE_SIZE];
    char what[32];
    switch_on(h);
    if (flag)
        save(h, 0x5A);
    accepted("an old state", gbasave_restore_chip_state(&h->cart.record, old, GBASAVE_CHIP_SIZE));
    expect("the flag stays", cartridge_changed(&h->cart) == flag);
    accepted("chip state", gbasave_chip_state(&h->cart.record, state));
    same("the first 18 bytes", state, old, GBASAVE_CHIP_SIZE);
    expect("then the flag and 2", state[GBASAVE_STATE_FLAG] == flag && state[GBASAVE_STATE_LAYOUT] == 2);
    snprintf(what, sizeof what, "18 bytes, flag %d", flag);
    printf("  %-24s written back as the same 18, then %02X %02X\n", what, state[GBASAVE_STATE_FLAG],
           state[GBASAVE_STATE_LAYOUT]);
    cartridge_close(&h->cart);
}

/* States that an older host took: 18 bytes, without the flag. */
static void without_flag(host *h)
{
    static const uint8_t old_chip[GBASAVE_CHIP_SIZE] = {0, 0, 0, 14, 1, 3, 24, 100, 0, 0, 0x45, 0x23, 1};
    switch_on(h);
    save(h, 0x5A);
    saved_state old = take_state(&h->cart);
    old.chip_length = GBASAVE_CHIP_SIZE;
    cartridge_close(&h->cart);

    switch_on(h);
    resumed("an old state, 18 bytes", h, &old, SAVE_FILE_AS_IT_WAS, true);
    drop_state(&old);
    cartridge_close(&h->cart);
    written_back(h, old_chip, false);
    written_back(h, old_chip, true);
}

static void elsewhere(host *h)
{
    uint8_t *same_kind = make_image("OTHER STORY", "SRAM_V"), *other_kind = make_image("OTHER STORY", "FLASH_V");
    cartridge other;
    switch_on(h);
    save(h, 0x5A);
    saved_state state = take_state(&h->cart);
    accepted("opening", cartridge_open(&other, other_kind, IMAGE_LENGTH, GBASAVE_PART_USUAL));
    not_resumed("in a flash cartridge", &other, &state, OTHER_CARTRIDGE);
    cartridge_close(&other);
    accepted("opening", cartridge_open(&other, same_kind, IMAGE_LENGTH, GBASAVE_PART_USUAL));
    not_resumed("in another SRAM one", &other, &state, OTHER_CARTRIDGE);
    cartridge_close(&other);

    save(h, 0xA5);
    state.chip[5] = 7;
    not_resumed("a damaged state", &h->cart, &state, GBASAVE_REFUSED_STATE_PHASE);
    drop_state(&state);
    cartridge_close(&h->cart);
    free(same_kind);
    free(other_kind);
}

void state_story(void)
{
    host h = {.image = make_image("STATE STORY", "SRAM_V"), .save_file = allocate(GBASAVE_MEMORY_SRAM)};
    memset(h.save_file, 0xFF, GBASAVE_MEMORY_SRAM);
    printf("States\n");
    with_flag(&h);
    without_flag(&h);
    elsewhere(&h);
    free(h.image);
    free(h.save_file);
}
