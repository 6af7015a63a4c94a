#include "cartridge.h"

#include "check.h"

#include <stdlib.h>

const char *answer_text(uint32_t answer)
{
    switch (answer) {
    case OTHER_CARTRIDGE: return "the state belongs to another cartridge";
    case OTHER_PART: return "the state was taken with another part";
    default: return gbasave_refusal_text(answer);
    }
}

const char *kind_text(uint32_t kind)
{
    static const char *const names[] = {"none",           "SRAM",              "flash, 64 KiB",
                                        "flash, 128 KiB", "EEPROM, 512 bytes", "EEPROM, 8 KiB"};
    return names[kind];
}

uint32_t cartridge_open(cartridge *cart, const uint8_t *image, size_t image_length, uint32_t part)
{
    uint32_t size;
    accepted("the memory's size", gbasave_save_size(image, image_length, &size));
    cart->memory = allocate(size);
    cart->length = size;
    cart->tally_count = size / GBASAVE_STRETCH_SIZE;
    uint32_t answer = gbasave_from_bytes(&cart->record, image, image_length, part, cart->memory, cart->length,
                                         cart->tallies, cart->tally_count);
    if (answer != GBASAVE_ACCEPTED) {
        cartridge_close(cart);
        return answer;
    }
    cart->id.kind = cart->record.bytes[GBASAVE_RECORD_KIND];
    cart->id.image_length = (uint32_t)image_length;
    cart->id.part = cart->record.bytes[GBASAVE_RECORD_PART];
    accepted("CRC", gbasave_rom_crc(image, image_length, &cart->id.image_crc));
    return GBASAVE_ACCEPTED;
}

void cartridge_close(cartridge *cart)
{
    free(cart->memory);
    cart->memory = NULL;
    cart->length = 0;
}

bool cartridge_take_changed(cartridge *cart)
{
    uint32_t flag;
    accepted("flag", gbasave_take_save_dirty(&cart->record, &flag));
    return flag == 1;
}

bool cartridge_changed(const cartridge *cart)
{
    return cart->record.bytes[GBASAVE_RECORD_FLAG] == 1;
}

uint32_t cartridge_load(cartridge *cart, const uint8_t *file, size_t length)
{
    uint32_t changed;
    accepted("load", gbasave_load_save(&cart->record, cart->memory, cart->length, cart->tallies, cart->tally_count, file,
                                       length, &changed));
    return changed;
}

void cartridge_count_tallies(cartridge *cart)
{
    for (size_t stretch = 0; stretch < cart->tally_count; stretch++) {
        const uint8_t *bytes = cart->memory + stretch * GBASAVE_STRETCH_SIZE;
        cart->tallies[stretch] = 0;
        for (size_t i = 0; i < GBASAVE_STRETCH_SIZE; i++)
            cart->tallies[stretch] += bytes[i] != 0xFF;
    }
}

saved_state take_state(const cartridge *cart)
{
    saved_state state;
    state.id = cart->id;
    state.file = allocate(cart->length);
    accepted("export", gbasave_save_data(&cart->record, cart->memory, cart->length, state.file, cart->length, &state.length));
    accepted("chip state", gbasave_chip_state(&cart->record, state.chip));
    state.chip_length = sizeof state.chip;
    return state;
}

void drop_state(saved_state *state)
{
    free(state->file);
    state->file = NULL;
}

static bool same_cartridge(const identity *a, const identity *b)
{
    return a->kind == b->kind && a->image_length == b->image_length && a->image_crc == b->image_crc;
}

static uint32_t restore(cartridge *cart, const saved_state *state)
{
    return gbasave_restore_chip_state(&cart->record, state->chip, state->chip_length);
}

uint32_t cartridge_resume(cartridge *cart, const saved_state *state, save_file written_out, uint32_t *changed)
{
    if (!same_cartridge(&cart->id, &state->id))
        return OTHER_CARTRIDGE;
    if (cart->id.part != state->id.part)
        return OTHER_PART;
    /* Before the load, so that a refused state changes nothing; after it, since the load may have made the chip large. */
    uint32_t answer = restore(cart, state);
    if (answer != GBASAVE_ACCEPTED)
        return answer;
    *changed = state->length > 0 ? cartridge_load(cart, state->file, state->length) : 0;
    accepted("the same state again", restore(cart, state));
    /* After the restore, which replaces the flag. A state of 18 bytes has no flag. */
    if (state->length > 0 && (state->chip_length == GBASAVE_CHIP_SIZE || written_out == SAVE_FILE_MAY_BE_OTHER))
        cart->record.bytes[GBASAVE_RECORD_FLAG] = 1;
    return GBASAVE_ACCEPTED;
}
