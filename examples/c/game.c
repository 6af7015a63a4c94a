#include "game.h"

#include "check.h"

#include <string.h>

uint8_t *make_image(const char *title, const char *marker)
{
    uint8_t *image = allocate(IMAGE_LENGTH);
    uint32_t check;
    memset(image, 0, IMAGE_LENGTH);
    memcpy(image + 0xA0, title, strlen(title));
    image[0xB2] = 0x96;
    image[0xBC] = 1; /* version */
    accepted("header check", gbasave_header_checksum(image, IMAGE_LENGTH, &check));
    image[0xBD] = (uint8_t)check;
    memcpy(image + IMAGE_LENGTH - strlen(marker), marker, strlen(marker));
    return image;
}

uint8_t read_byte(const cartridge *cart, uint32_t address)
{
    uint32_t value;
    accepted("byte read", gbasave_save_read(&cart->record, cart->memory, cart->length, address, &value));
    return (uint8_t)value;
}

uint32_t write_byte(cartridge *cart, uint32_t address, uint8_t value)
{
    uint32_t changed;
    accepted("byte write", gbasave_save_write(&cart->record, cart->memory, cart->length, cart->tallies, cart->tally_count,
                                              address, value, &changed));
    return changed;
}

/* A flash command: the two bytes that begin every command, then the command itself. */
static uint32_t flash_command(cartridge *cart, uint32_t address, uint8_t command)
{
    uint32_t changed = write_byte(cart, 0x0E005555, 0xAA);
    changed += write_byte(cart, 0x0E002AAA, 0x55);
    return changed + write_byte(cart, address, command);
}

void flash_id_mode(cartridge *cart, int on)
{
    flash_command(cart, 0x0E005555, on ? 0x90 : 0xF0);
}

uint32_t read_id_word(const cartridge *cart)
{
    uint32_t maker = read_byte(cart, 0x0E000000), device = read_byte(cart, 0x0E000001);
    return device << 8 | maker;
}

uint32_t flash_id_word(cartridge *cart)
{
    flash_id_mode(cart, 1);
    uint32_t word = read_id_word(cart);
    flash_id_mode(cart, 0);
    return word;
}

void flash_select_bank(cartridge *cart, uint8_t bank)
{
    flash_command(cart, 0x0E005555, 0xB0);
    write_byte(cart, 0x0E000000, bank);
}

uint32_t flash_program(cartridge *cart, uint32_t address, uint8_t value)
{
    uint32_t changed = flash_command(cart, 0x0E005555, 0xA0);
    return changed + write_byte(cart, address, value);
}

uint32_t flash_erase_sector(cartridge *cart, uint32_t address)
{
    uint32_t changed = flash_command(cart, 0x0E005555, 0x80);
    return changed + flash_command(cart, address, 0x30);
}

uint32_t flash_erase_chip(cartridge *cart)
{
    uint32_t changed = flash_command(cart, 0x0E005555, 0x80);
    return changed + flash_command(cart, 0x0E005555, 0x10);
}

/* Writes the lowest width bits of number, highest first. Returns the position after them. */
static uint8_t *put_bits(uint8_t *bits, uint64_t number, int width)
{
    for (int place = width - 1; place >= 0; place--)
        *bits++ = (uint8_t)(number >> place & 1);
    return bits;
}

void eeprom_write_bits(uint8_t bits[WRITE_BITS], uint32_t block, uint64_t data)
{
    bits = put_bits(bits, 2, 2);
    bits = put_bits(bits, block, 14);
    bits = put_bits(bits, data, 64);
    put_bits(bits, 0, 1);
}

uint32_t eeprom_send(cartridge *cart, const uint8_t *bits, int count)
{
    uint32_t sum = 0;
    for (int i = 0; i < count; i++) {
        uint32_t changed;
        accepted("bit in", gbasave_eeprom_write(&cart->record, cart->memory, cart->length, cart->tallies,
                                                cart->tally_count, bits[i], &changed));
        sum += changed;
    }
    return sum;
}

uint32_t eeprom_write_block(cartridge *cart, uint32_t block, uint64_t data)
{
    uint8_t bits[WRITE_BITS];
    eeprom_write_bits(bits, block, data);
    accepted("DMA", gbasave_eeprom_begin_dma(&cart->record, WRITE_BITS));
    return eeprom_send(cart, bits, WRITE_BITS);
}

uint64_t eeprom_read_block(cartridge *cart, uint32_t block)
{
    uint8_t bits[READ_BITS];
    put_bits(put_bits(put_bits(bits, 3, 2), block, 14), 0, 1);
    accepted("DMA", gbasave_eeprom_begin_dma(&cart->record, READ_BITS));
    eeprom_send(cart, bits, READ_BITS);

    uint64_t data = 0; /* the first four of the 68 bits are ignored */
    accepted("DMA", gbasave_eeprom_begin_dma(&cart->record, 68));
    for (int i = 0; i < 68; i++) {
        uint32_t bit;
        accepted("bit out", gbasave_eeprom_read(&cart->record, cart->memory, cart->length, &bit));
        data = i < 4 ? 0 : data << 1 | bit;
    }
    return data;
}
