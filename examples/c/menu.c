#include "menu.h"

#include "check.h"
#include "game.h"

#include <inttypes.h>
#include <stdio.h>
#include <stdlib.h>
#include <string.h>

/* ---- The menu ------------------------------------------------------------------------------------------------------- */

/* Prints a line of the menu. It gets no memory. Returns the first stretch in use. */
static uint32_t show(const char *what, const gbasave_record *record, const uint16_t *tallies, size_t tally_count)
{
    uint32_t blank, stretch;
    accepted("is it blank", gbasave_is_blank(record, tallies, tally_count, &blank));
    accepted("first in use", gbasave_first_in_use(record, tallies, tally_count, &stretch));
    expect("it is blank if no stretch is in use", blank == (stretch == GBASAVE_NONE_IN_USE));
    if (blank)
        printf("  %-24s empty\n", what);
    else
        printf("  %-24s in use, first in stretch %" PRIu32 ", from %05" PRIX32 "h on\n", what, stretch,
               stretch * GBASAVE_STRETCH_SIZE);
    return stretch;
}

/* What the menu is spared: a reading of the memory, for the checks here. */
static uint32_t read_whole(const cartridge *cart)
{
    for (size_t i = 0; i < cart->length; i++)
        if (cart->memory[i] != 0xFF)
            return (uint32_t)(i / GBASAVE_STRETCH_SIZE);
    return GBASAVE_NONE_IN_USE;
}

/* The line of a cartridge whose tallies are those of its memory. */
static void right(const char *what, const cartridge *cart, uint32_t stretch)
{
    expect(what, show(what, &cart->record, cart->tallies, cart->tally_count) == stretch);
    expect("a reading of the memory gives the same", read_whole(cart) == stretch);
}

/* The line of a cartridge with foreign tallies: it is about them, and the memory may hold something else. */
static void foreign(const char *what, const cartridge *cart, uint32_t stretch, uint32_t in_memory)
{
    expect(what, show(what, &cart->record, cart->tallies, cart->tally_count) == stretch);
    expect("a reading of the memory", read_whole(cart) == in_memory);
}

static cartridge opened(const char *marker)
{
    uint8_t *image = make_image("MENU STORY", marker);
    cartridge cart;
    accepted("opening", cartridge_open(&cart, image, IMAGE_LENGTH, GBASAVE_PART_USUAL));
    free(image);
    return cart;
}

/* ---- Games and files ------------------------------------------------------------------------------------------------ */

static void sram_lines(void)
{
    cartridge cart = opened("SRAM_V");
    right("SRAM, fresh", &cart, GBASAVE_NONE_IN_USE);
    write_byte(&cart, 0x0E002010, 0x5A);
    write_byte(&cart, 0x0E007FFF, 0x5A);
    right("SRAM, a game saved", &cart, 2);
    write_byte(&cart, 0x0E002010, 0xFF);
    right("SRAM, in part cleared", &cart, 7);
    write_byte(&cart, 0x0E007FFF, 0xFF);
    right("SRAM, all cleared", &cart, GBASAVE_NONE_IN_USE);
    cartridge_close(&cart);
}

static void flash_lines(void)
{
    cartridge cart = opened("FLASH1M_V");
    flash_select_bank(&cart, 1);
    flash_program(&cart, 0x0E003000, 0x11);
    flash_program(&cart, 0x0E003FFF, 0x22);
    flash_program(&cart, 0x0E004000, 0x33);
    right("flash, bank 1 programmed", &cart, 16 + 3);
    flash_erase_sector(&cart, 0x0E003000);
    right("flash, a sector erased", &cart, 16 + 4);
    flash_erase_chip(&cart);
    right("flash, the chip erased", &cart, GBASAVE_NONE_IN_USE);
    cartridge_close(&cart);
}

static void eeprom_lines(void)
{
    cartridge cart = opened("EEPROM_V");
    eeprom_write_block(&cart, 600, 0x0123456789ABCDEF);
    right("EEPROM, block 600", &cart, 1);
    eeprom_write_block(&cart, 600, UINT64_MAX);
    right("EEPROM, all ones there", &cart, GBASAVE_NONE_IN_USE);
    cartridge_close(&cart);
}

/* A player's file, and one that holds nothing. */
static void file_lines(void)
{
    cartridge cart = opened("SRAM_V");
    uint8_t *file = allocate(cart.length);
    uint32_t kept, changed;
    memset(file, 0xFF, cart.length);
    file[5000] = 0x5A;
    accepted("import", gbasave_import_save(&cart.record, cart.memory, cart.length, cart.tallies, cart.tally_count, file,
                                           cart.length, &kept, &changed));
    right("SRAM, a file imported", &cart, 1);
    expect("a file shorter than a stretch", cartridge_load(&cart, file, 100) == 1);
    right("SRAM, 100 FFh loaded", &cart, GBASAVE_NONE_IN_USE);
    free(file);
    cartridge_close(&cart);
}

/* A state has no tallies: the load brings them, in the open cartridge and in a fresh one. */
static void state_lines(void)
{
    cartridge cart = opened("FLASH_V");
    uint32_t changed;
    flash_program(&cart, 0x0E00A123, 0x5A);
    saved_state state = take_state(&cart);
    flash_program(&cart, 0x0E000000, 0x5A);
    right("flash, played on", &cart, 0);
    accepted("resuming", cartridge_resume(&cart, &state, SAVE_FILE_AS_IT_WAS, &changed));
    right("flash, a state resumed", &cart, 10);
    cartridge_close(&cart);
    cart = opened("FLASH_V");
    accepted("resuming", cartridge_resume(&cart, &state, SAVE_FILE_AS_IT_WAS, &changed));
    right("the same, opened again", &cart, 10);
    drop_state(&state);
    cartridge_close(&cart);
}

static void no_chip_lines(void)
{
    cartridge cart = opened("");
    expect("no chip has no tallies", cart.tally_count == 0);
    right("no chip", &cart, GBASAVE_NONE_IN_USE);
    write_byte(&cart, 0x0E000000, 0x5A);
    right("no chip, written to", &cart, GBASAVE_NONE_IN_USE);
    cartridge_close(&cart);
}

/* ---- Lost tallies --------------------------------------------------------------------------------------------------- */

/* The host has lost the tallies and passes others. The calls take them; only the menu is wrong. */
static void lost(void)
{
    cartridge cart = opened("SRAM_V");
    uint32_t changed;
    write_byte(&cart, 0x0E002010, 0x5A);
    right("a save", &cart, 2);

    memset(cart.tallies, 0, sizeof cart.tallies);
    foreign("tallies lost, now 0", &cart, GBASAVE_NONE_IN_USE, 2);
    expect("a byte changes", write_byte(&cart, 0x0E005000, 0x5A) == 1);
    foreign("another byte saved", &cart, 5, 2);
    write_byte(&cart, 0x0E002010, 0xFF);
    expect("one less than 0", cart.tallies[2] == UINT16_MAX);
    foreign("the first one cleared", &cart, 2, 5);

    /* Two ways back. */
    cartridge_count_tallies(&cart);
    right("counted again", &cart, 5);
    memset(cart.tallies, 0x5A, sizeof cart.tallies);
    foreign("lost again, now 5A5Ah", &cart, 0, 5);
    saved_state state = take_state(&cart);
    cartridge_close(&cart);
    cart = opened("SRAM_V");
    accepted("resuming", cartridge_resume(&cart, &state, SAVE_FILE_AS_IT_WAS, &changed));
    right("opened and loaded again", &cart, 5);
    drop_state(&state);
    cartridge_close(&cart);
}

void menu_story(void)
{
    printf("Save menu, from records and tallies alone\n");
    sram_lines();
    flash_lines();
    eeprom_lines();
    file_lines();
    state_lines();
    no_chip_lines();
    printf("Save menu of a host that has lost its tallies\n");
    lost();
}
