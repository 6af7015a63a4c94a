/*
 * What games do to a cartridge: images with a marker, byte accesses, flash commands, serial commands with 14 address bits.
 * A function that writes returns how many bytes of the memory have changed.
 */
#ifndef GAME_H
#define GAME_H

#include "cartridge.h"

enum {
    IMAGE_LENGTH = 1024,
    WRITE_BITS = 81, /* 1 0, 14 bits of address, 64 of data, the end bit */
    READ_BITS = 17   /* 1 1, 14 bits of address, the end bit */
};

/* Makes an image with a correct header and the marker at its end. The caller frees it. */
uint8_t *make_image(const char *title, const char *marker);

uint8_t read_byte(const cartridge *cart, uint32_t address);
uint32_t write_byte(cartridge *cart, uint32_t address, uint8_t value);

void flash_id_mode(cartridge *cart, int on);
/* The chip's ID word: as it is read in ID mode, and with ID mode on for the reading only. */
uint32_t read_id_word(const cartridge *cart);
uint32_t flash_id_word(cartridge *cart);
void flash_select_bank(cartridge *cart, uint8_t bank);
uint32_t flash_program(cartridge *cart, uint32_t address, uint8_t value);
uint32_t flash_erase_sector(cartridge *cart, uint32_t address);
uint32_t flash_erase_chip(cartridge *cart);

/* The bits of a write command. They are sent after a DMA length of WRITE_BITS. */
void eeprom_write_bits(uint8_t bits[WRITE_BITS], uint32_t block, uint64_t data);
uint32_t eeprom_send(cartridge *cart, const uint8_t *bits, int count);

uint32_t eeprom_write_block(cartridge *cart, uint32_t block, uint64_t data);
uint64_t eeprom_read_block(cartridge *cart, uint32_t block);

#endif
