/*
 * A small host. It opens images, saves on every chip, takes states in the middle of an 81-bit write and resumes them in a
 * fresh cartridge and in the open one. It writes the file out if the changed flag says so, which comes with a state. It
 * gives a game the flash chip that the game looks for. It writes the file out when enough bytes have changed. It shows in a
 * save menu which cartridges are empty. It finds the kind of images that it reads in blocks. It checks every answer; a wrong
 * one ends the program with status 1.
 *
 *     host           runs the examples below, on images that the program makes
 *     host IMAGE     prints what is found in an image file
 */
#include "budget.h"
#include "check.h"
#include "game.h"
#include "menu.h"
#include "parts.h"
#include "pieces.h"
#include "refusals.h"
#include "states.h"

#include <inttypes.h>
#include <stdio.h>
#include <stdlib.h>
#include <string.h>

/* The archive's version is the header's, and the header's text and number are the same version. */
static void check_version(void)
{
    char text[16];
    snprintf(text, sizeof text, "%d.%d.%d", GBASAVE_VERSION_NUMBER / 10000, GBASAVE_VERSION_NUMBER / 100 % 100,
             GBASAVE_VERSION_NUMBER % 100);
    expect("the header's version as a number and as a text", strcmp(text, GBASAVE_VERSION) == 0);
    expect("the archive has the header's version", gbasave_version() == GBASAVE_VERSION_NUMBER);
    printf("gbasave: the header and the archive have the same version\n");
}

static void describe(const uint8_t *image, size_t length)
{
    uint8_t title[GBASAVE_TITLE_SIZE];
    uint32_t title_length, check, there, last, crc, kind, size;
    accepted("title", gbasave_title(image, length, title, sizeof title, &title_length));
    accepted("header check", gbasave_header_checksum(image, length, &check));
    accepted("read", gbasave_read(image, length, 0xBD, &there));
    accepted("read", gbasave_read32(image, length, (uint32_t)length - 1, &last));
    expect("past the image's last byte are zeros", last == image[length - 1]);
    accepted("CRC", gbasave_rom_crc(image, length, &crc));
    accepted("kind", gbasave_detect_save_type(image, length, &kind));
    const identity in_blocks = identify_in_blocks(image, length);
    expect("kind and CRC are the same in blocks", in_blocks.kind == kind && in_blocks.image_crc == crc);
    accepted("memory", gbasave_memory_size(kind, &size));
    printf("Image \"%.*s\", %zu bytes, CRC %08" PRIX32 ", header check %02" PRIX32 ", %s\n", (int)title_length, (char *)title,
           length, crc, check, check == there ? "as in the header" : "but the header has another value");
    printf("  save chip: %s; save memory: %" PRIu32 " bytes\n", kind_text(kind), size);
}

static void print_bytes(const char *what, const uint8_t *bytes, size_t count)
{
    printf("  %-24s", what);
    for (size_t i = 0; i < count; i++)
        printf(" %02X", bytes[i]);
    printf("\n");
}

enum { FOOTER = 16 };

static void sram_story(void)
{
    uint8_t *image = make_image("SRAM STORY", "SRAM_V");
    cartridge cart, other;
    describe(image, IMAGE_LENGTH);
    accepted("opening", cartridge_open(&cart, image, IMAGE_LENGTH, GBASAVE_PART_USUAL));

    expect("nothing stored yet", !cartridge_take_changed(&cart));
    for (uint32_t i = 0; i < 4; i++)
        expect("a byte changes", write_byte(&cart, 0x0E000010 + i, (uint8_t)"SAVE"[i]) == 1);
    for (uint32_t i = 0; i < 4; i++)
        expect("the bytes are stored, and read 32 KiB further on too",
               read_byte(&cart, 0x0E000010 + i) == "SAVE"[i] && read_byte(&cart, 0x0E008010 + i) == "SAVE"[i]);
    print_bytes("stored from 10h on", cart.memory + 0x10, 5);
    expect("the flag is taken once", cartridge_take_changed(&cart) && !cartridge_take_changed(&cart));

    /* Another cartridge imports the file, with a footer of 16 bytes that some programs add. The host keeps the footer. */
    uint32_t length, kept, changed;
    uint8_t *file = allocate(cart.length + FOOTER), *written = allocate(cart.length + FOOTER);
    accepted("export", gbasave_save_data(&cart.record, cart.memory, cart.length, file, cart.length, &length));
    memset(file + length, 0xEE, FOOTER);
    accepted("opening", cartridge_open(&other, image, IMAGE_LENGTH, GBASAVE_PART_USUAL));
    accepted("import", gbasave_import_save(&other.record, other.memory, other.length, other.tallies, other.tally_count,
                                           file, length + FOOTER, &kept, &changed));
    printf("  a file of %" PRIu32 " bytes is imported elsewhere, %" PRIu32 " kept, %" PRIu32 " changed\n", length + FOOTER,
           kept, changed);
    same("the other memory", other.memory, cart.memory, cart.length);
    expect("only the four bytes are another there", changed == 4);
    accepted("export", gbasave_save_data(&other.record, other.memory, other.length, written, other.length, &length));
    memcpy(written + length, file + kept, FOOTER);
    same("the file with its footer", written, file, length + FOOTER);
    free(file);
    free(written);
    cartridge_close(&cart);
    cartridge_close(&other);
    free(image);
}

static void flash_story(void)
{
    uint8_t *image = make_image("FLASH STORY", "FLASH1M_V");
    cartridge cart;
    describe(image, IMAGE_LENGTH);
    accepted("opening", cartridge_open(&cart, image, IMAGE_LENGTH, GBASAVE_PART_USUAL));

    flash_id_mode(&cart, 1);
    printf("  maker and device         %02X %02X\n", read_byte(&cart, 0x0E000000), read_byte(&cart, 0x0E000001));
    flash_id_mode(&cart, 0);
    expect("the chip's numbers", flash_id_word(&cart) == 0x1362);

    expect("a byte changes", flash_program(&cart, 0x0E003000, 0x11) == 1);
    flash_select_bank(&cart, 1);
    expect("a byte changes", flash_program(&cart, 0x0E003000, 0x22) == 1);
    expect("a byte changes", flash_program(&cart, 0x0E004000, 0x33) == 1);
    printf("  programmed               bank 0, 3000h: %02X; bank 1, 3000h: %02X, 4000h: %02X\n", cart.memory[0x3000],
           read_byte(&cart, 0x0E003000), read_byte(&cart, 0x0E004000));
    expect("one byte of the sector changes", flash_erase_sector(&cart, 0x0E003000) == 1);
    printf("  bank 1, 3000h erased     bank 0, 3000h: %02X; bank 1, 3000h: %02X, 4000h: %02X\n", cart.memory[0x3000],
           read_byte(&cart, 0x0E003000), read_byte(&cart, 0x0E004000));
    expect("one sector is erased", read_byte(&cart, 0x0E003000) == 0xFF && read_byte(&cart, 0x0E004000) == 0x33);
    flash_select_bank(&cart, 0);
    expect("and none in bank 0", read_byte(&cart, 0x0E003000) == 0x11);
    cartridge_close(&cart);
    free(image);
}

static const uint64_t EARLIER = 0x1122334455667788, DATA = 0x0123456789ABCDEF;
static const uint8_t DATA_BYTES[] = {0x01, 0x23, 0x45, 0x67, 0x89, 0xAB, 0xCD, 0xEF};

enum { UNCUT = WRITE_BITS + 1 };

typedef enum where { FRESH, OPEN } where;

/* Interrupts the game after `cut` bits of the write, and goes on in a fresh cartridge or in the open one. */
static saved_state played(const uint8_t *image, int cut, where resumed, bool shown)
{
    cartridge cart;
    uint8_t bits[WRITE_BITS];
    int sent = 0;
    uint32_t changed = 0, by_resuming;
    accepted("opening", cartridge_open(&cart, image, IMAGE_LENGTH, GBASAVE_PART_USUAL));
    eeprom_write_block(&cart, 3, EARLIER);
    eeprom_write_bits(bits, 100, DATA);
    accepted("DMA", gbasave_eeprom_begin_dma(&cart.record, WRITE_BITS));
    if (cut != UNCUT) {
        changed = eeprom_send(&cart, bits, cut);
        sent = cut;
        saved_state state = take_state(&cart);
        if (shown) {
            printf("  after bit %d: a file of %" PRIu32 " bytes and the chip's state\n", cut, state.length);
            print_bytes("", state.chip, GBASAVE_STATE_SIZE);
        }
        if (resumed == FRESH) {
            cartridge_close(&cart);
            accepted("opening", cartridge_open(&cart, image, IMAGE_LENGTH, GBASAVE_PART_USUAL));
        } else {
            /* What is played on after the state was taken is forgotten. */
            accepted("DMA", gbasave_eeprom_begin_dma(&cart.record, WRITE_BITS));
            eeprom_send(&cart, bits, WRITE_BITS);
        }
        accepted("resuming", cartridge_resume(&cart, &state, SAVE_FILE_AS_IT_WAS, &by_resuming));
        saved_state again = take_state(&cart);
        same_states(&state, &again);
        drop_state(&state);
        drop_state(&again);
    }
    changed += eeprom_send(&cart, bits + sent, WRITE_BITS - sent);
    expect("the write changes the block's eight bytes, cut or uncut", changed == 8);

    uint64_t earlier = eeprom_read_block(&cart, 3), data = eeprom_read_block(&cart, 100);
    if (shown)
        printf("  %-24s block 3: %016" PRIX64 ", block 100: %016" PRIX64 "\n", cut == UNCUT ? "uncut" : "resumed", earlier,
               data);
    expect("both blocks read back", earlier == EARLIER && data == DATA);
    saved_state end = take_state(&cart);
    cartridge_close(&cart);
    return end;
}

static void eeprom_story(void)
{
    uint8_t *image = make_image("EEPROM STORY", "EEPROM_V");
    describe(image, IMAGE_LENGTH);
    saved_state uncut = played(image, UNCUT, FRESH, true);
    print_bytes("uncut, file from 320h", uncut.file + 0x320, 8);
    same("block 100 of the file", uncut.file + 8 * 100, DATA_BYTES, 8);
    saved_state resumed = played(image, 40, FRESH, true);
    print_bytes("resumed, file from 320h", resumed.file + 0x320, 8);
    same_states(&uncut, &resumed);
    drop_state(&resumed);

    for (int cut = 0; cut <= WRITE_BITS; cut++) {
        for (where place = FRESH; place <= OPEN; place++) {
            resumed = played(image, cut, place, false);
            same_states(&uncut, &resumed);
            drop_state(&resumed);
        }
    }
    printf("  cut after the DMA length and after each of the 81 bits: the same blocks, file, chip and flag,\n");
    printf("  resumed in a fresh cartridge or in the open one\n");
    drop_state(&uncut);
    free(image);
}

static void describe_file(const char *path)
{
    FILE *file = fopen(path, "rb");
    expect("the image can be opened", file != NULL);
    uint8_t *image = allocate(GBASAVE_IMAGE_MAX + 1);
    size_t length = fread(image, 1, GBASAVE_IMAGE_MAX + 1, file);
    expect("the image can be read", !ferror(file));
    fclose(file);

    cartridge cart;
    accepted("opening", cartridge_open(&cart, image, length, GBASAVE_PART_USUAL));
    describe(image, length);
    cartridge_close(&cart);
    free(image);
}

int main(int argc, char **argv)
{
    if (argc > 1) {
        describe_file(argv[1]);
        return 0;
    }
    check_version();
    sram_story();
    flash_story();
    eeprom_story();
    state_story();
    part_story();
    budget_story();
    menu_story();
    piece_story();
    refusals();
    empty_slices();
    return 0;
}
