#include "budget.h"

#include "check.h"
#include "game.h"

#include <inttypes.h>
#include <stdio.h>
#include <stdlib.h>
#include <string.h>

enum { SAVE_PLACE = 0x0E000010, SAVE_BYTES = 8, BUDGET = 12 };

static cartridge opened(const char *title, const char *marker)
{
    uint8_t *image = make_image(title, marker);
    cartridge cart;
    accepted("opening", cartridge_open(&cart, image, IMAGE_LENGTH, GBASAVE_PART_USUAL));
    free(image);
    return cart;
}

/* ---- The numbers --------------------------------------------------------------------------------------------------- */

/* How many bytes a store changed, and the changed flag after it. */
typedef struct stored {
    uint32_t changed;
    bool flag;
} stored;

static stored with_flag(cartridge *cart, uint32_t changed)
{
    return (stored){changed, cartridge_take_changed(cart)};
}

/* Prints two stores and checks them. */
static void shown(const char *what, stored first, stored second, uint32_t first_changed, uint32_t second_changed, bool flag)
{
    printf("  %-24s %" PRIu32 " and flag %d, then %" PRIu32 " and flag %d\n", what, first.changed, first.flag, second.changed,
           second.flag);
    expect(what, first.changed == first_changed && second.changed == second_changed);
    expect(what, first.flag == flag && second.flag == flag);
}

static void byte_numbers(void)
{
    cartridge cart = opened("SRAM NUMBERS", "SRAM_V");
    stored first = with_flag(&cart, write_byte(&cart, SAVE_PLACE, 0x5A));
    stored again = with_flag(&cart, write_byte(&cart, SAVE_PLACE, 0x5A));
    shown("a byte, the same again", first, again, 1, 0, true);
    cartridge_close(&cart);
}

static void erase_numbers(void)
{
    cartridge cart = opened("FLASH NUMBER", "FLASH_V");
    flash_program(&cart, 0x0E003000, 0x11);
    flash_program(&cart, 0x0E003FFF, 0x22);
    flash_program(&cart, 0x0E004000, 0x33);
    stored first = with_flag(&cart, flash_erase_sector(&cart, 0x0E003000));
    stored again = with_flag(&cart, flash_erase_sector(&cart, 0x0E003000));
    shown("a sector, blank again", first, again, 2, 0, true);
    first = with_flag(&cart, flash_erase_chip(&cart));
    again = with_flag(&cart, flash_erase_chip(&cart));
    shown("the chip, blank again", first, again, 1, 0, true);
    cartridge_close(&cart);
}

static void block_numbers(void)
{
    cartridge cart = opened("EEPROM NUMBE", "EEPROM_V");
    stored first = with_flag(&cart, eeprom_write_block(&cart, 100, 0x0123456789ABCDEF));
    stored again = with_flag(&cart, eeprom_write_block(&cart, 100, 0x0123456789ABCDEE));
    shown("a block, one bit of it", first, again, 8, 1, true);
    first = with_flag(&cart, write_byte(&cart, SAVE_PLACE, 0x5A));
    again = with_flag(&cart, write_byte(&cart, SAVE_PLACE, 0x5A));
    shown("a byte to an EEPROM", first, again, 1, 0, false);
    cartridge_close(&cart);
}

static stored load(cartridge *cart, const uint8_t *file, size_t length)
{
    return with_flag(cart, cartridge_load(cart, file, length));
}

static void file_numbers(void)
{
    cartridge cart = opened("SRAM NUMBERS", "SRAM_V");
    const uint8_t file[] = {1, 2, 3, 0xFF, 5};
    stored first = load(&cart, file, sizeof file), again = load(&cart, file, sizeof file);
    shown("a load, the same again", first, again, 4, 0, false);
    first = load(&cart, NULL, 0);
    again = load(&cart, NULL, 0);
    shown("a load of no bytes", first, again, 4, 0, false);
    cartridge_close(&cart);
}

/* It writes no number. */
static void refused_number(void)
{
    cartridge cart = opened("SRAM NUMBERS", "SRAM_V");
    uint32_t changed = write_byte(&cart, SAVE_PLACE, 0x5A);
    const uint32_t answer =
        gbasave_eeprom_write(&cart.record, cart.memory, cart.length, cart.tallies, cart.tally_count, 1, &changed);
    expect("a bit to SRAM", answer == GBASAVE_REFUSED_NO_EEPROM);
    printf("  %-24s none: the out-parameter still has the %" PRIu32 " of the byte before\n", "a refused bit", changed);
    expect("a refused bit writes no number", changed == 1);
    cartridge_close(&cart);
}

/* ---- The budget ---------------------------------------------------------------------------------------------------- */

/* A host whose card is to be written to seldom. */
typedef struct host {
    cartridge cart;
    uint8_t *card;      /* the file as it was written out last */
    uint32_t unwritten; /* the sum of the numbers since then */
} host;

static void write_out(host *h)
{
    uint32_t length;
    accepted("export", gbasave_save_data(&h->cart.record, h->cart.memory, h->cart.length, h->card, h->cart.length, &length));
    h->unwritten = 0;
}

/* Adds the numbers of a frame. At its end the file is written out if the budget is reached. The flag is then taken too: it
   stands for what is now written out. */
static void end_frame(host *h, uint32_t changed)
{
    h->unwritten += changed;
    printf("%" PRIu32 " changed, %" PRIu32 " not written out", changed, h->unwritten);
    if (h->unwritten >= BUDGET) {
        cartridge_take_changed(&h->cart);
        write_out(h);
        printf(": the file is written");
    }
    printf("\n");
}

/* At the end the flag decides, so that a rest below the budget is not lost. Returns whether the file was written. */
static bool end_session(host *h)
{
    const bool flag = cartridge_take_changed(&h->cart);
    if (flag)
        write_out(h);
    printf("  %-24s the flag is %d: the file is %s\n", "the end", flag, flag ? "written" : "not written");
    return flag;
}

/* The game's save: a name, the level, the gold and a check byte. The game stores all of it each time. */
static uint32_t save_game(cartridge *cart, uint8_t level, uint16_t gold)
{
    const uint8_t low = (uint8_t)gold, high = (uint8_t)(gold >> 8);
    const uint8_t save[SAVE_BYTES] = {'H', 'E', 'R', 'O', level, low, high, (uint8_t)(level + low + high)};
    uint32_t changed = 0;
    for (uint32_t i = 0; i < SAVE_BYTES; i++)
        changed += write_byte(cart, SAVE_PLACE + i, save[i]);
    return changed;
}

/* One frame in which the game saves. */
static void play(host *h, int frame, uint8_t level, uint16_t gold, uint32_t changed, uint32_t unwritten)
{
    const uint32_t sum = save_game(&h->cart, level, gold);
    printf("  frame %-18d %d bytes stored, ", frame, SAVE_BYTES);
    end_frame(h, sum);
    expect("the changed bytes of the frame", sum == changed);
    expect("the bytes that are not written out", h->unwritten == unwritten);
    const bool on_card = memcmp(h->card, h->cart.memory, h->cart.length) == 0;
    expect("the card has the save if no byte is unwritten", on_card == (unwritten == 0));
}

static void first_session(host *h)
{
    uint32_t changed;
    play(h, 1, 1, 100, 8, 8);
    play(h, 2, 1, 150, 2, 10);
    saved_state state = take_state(&h->cart);
    play(h, 3, 1, 150, 0, 10);
    play(h, 4, 2, 300, 4, 0);
    play(h, 5, 2, 310, 2, 2);

    /* A state that is resumed changes bytes too. The card has a later file: that of frame 4. */
    accepted("resuming", cartridge_resume(&h->cart, &state, SAVE_FILE_MAY_BE_OTHER, &changed));
    drop_state(&state);
    printf("  %-24s ", "frame 2 resumed");
    end_frame(h, changed);
    expect("level, gold and check byte change", changed == 4 && h->unwritten == 6);
    expect("the file is written at the end", end_session(h));
    same("the card", h->card, h->cart.memory, h->cart.length);
}

/* The file comes from the card: what the import changes is written out already, and the sum starts at 0. */
static void next_session(host *h)
{
    uint32_t kept, changed;
    cartridge *cart = &h->cart;
    accepted("import", gbasave_import_save(&cart->record, cart->memory, cart->length, cart->tallies, cart->tally_count,
                                           h->card, cart->length, &kept, &changed));
    h->unwritten = 0;
    printf("  %-24s %" PRIu32 " changed by the import, 0 not written out\n", "the next session", changed);
    expect("the save's bytes change", kept == cart->length && changed == SAVE_BYTES);
    expect("the file is not written at the end", !end_session(h));
}

static void budget_of_a_card(void)
{
    host h = {opened("BUDGET", "SRAM_V"), allocate(GBASAVE_MEMORY_SRAM), 0};
    memset(h.card, 0xFF, GBASAVE_MEMORY_SRAM);
    first_session(&h);
    cartridge_close(&h.cart);
    h.cart = opened("BUDGET", "SRAM_V");
    next_session(&h);
    cartridge_close(&h.cart);
    free(h.card);
}

void budget_story(void)
{
    printf("Changed bytes\n");
    byte_numbers();
    erase_numbers();
    block_numbers();
    file_numbers();
    refused_number();
    printf("Write-back: at the end of a frame the file is written if %d bytes or more have changed\n", BUDGET);
    budget_of_a_card();
}
