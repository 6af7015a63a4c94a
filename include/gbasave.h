/*
 * gbasave.h: the backup chip of a Game Boy Advance cartridge (SRAM, flash, serial EEPROM), for console cores. For C11
 * and C++. The archive libgbasave.a is for x86-64 with the System V calling convention.
 *
 * WHAT IT IS. A set of calls that keep no state of their own. The image, the save memory, the tallies, the record and
 * the matcher belong to the caller, who passes them to each call. No call uses them after it has returned. The archive
 * allocates nothing, opens no file and has no variables of its own. A call takes a few KiB of stack at most. The
 * archive needs three functions from outside: memcpy, memmove and memset. It may call them with length 0, and then with
 * any pointer, also NULL. Every call ends.
 *
 * THE RECORD is 25 bytes. It holds all data of a cartridge except its image, its memory and the tallies of the memory.
 * It contains no pointer: it may be copied, stored and moved like any other bytes. gbasave_from_bytes writes it.
 *
 *     bytes 0-3    the image's length, low byte first, 192 to 33,554,432
 *     byte  4      the kind, 0 to 5
 *     byte  5      the changed flag, 0 or 1
 *     bytes 6-23   the chip record, the first 18 bytes of gbasave_chip_state
 *     byte  24     the part, 0 to 5
 *
 * A record is valid if each of its fields has an allowed value and its part fits its kind. 25 bytes that are not a
 * valid record do no harm: every call that reads a record refuses them with 2. The caller may read the fields, and may
 * set the changed flag to 0 or 1.
 *
 * THE MATCHER is 13 bytes. It holds what a search has seen of an image so far, so that a host can find the kind of an
 * image that it reads in pieces. It contains no pointer: it may be copied, stored and moved like any other bytes.
 * gbasave_matcher_start writes it.
 *
 *     byte  0      SRAM_V was seen, 0 or 1
 *     byte  1      FLASH_V or FLASH512_V was seen, 0 or 1
 *     byte  2      FLASH1M_V was seen, 0 or 1
 *     byte  3      EEPROM_V was seen, 0 or 1
 *     bytes 4-12   the last nine bytes fed, the newest first; 0 where there were none
 *
 * A matcher is valid if its first four bytes are each 0 or 1. 13 bytes that are not a valid matcher do no harm: every
 * call that reads a matcher refuses them with 2. The caller may read the fields.
 *
 * KINDS.
 *
 *     number and name            save memory       tallies   exported file
 *     0  GBASAVE_KIND_NONE             0 bytes      0        none
 *     1  GBASAVE_KIND_SRAM        32,768            8        the memory
 *     2  GBASAVE_KIND_FLASH64     65,536           16        the memory
 *     3  GBASAVE_KIND_FLASH128   131,072           32        the memory
 *     4  GBASAVE_KIND_EEPROM512    8,192            2        its first 512 bytes; the memory once the chip is known to
 *                                                            be large
 *     5  GBASAVE_KIND_EEPROM8K     8,192            2        the same; this kind is large from the start
 *
 * PARTS. A part is a flash chip of one maker. A game can read the chip's ID word, and some games save only on chips
 * that they know. So gbasave_from_bytes takes the number of the part that the game is to find:
 *
 *     number and name                  chip                 ID word   fits
 *     0  GBASAVE_PART_USUAL            Panasonic, 64 KiB    1B32h     FLASH64
 *                                      Sanyo, 128 KiB       1362h     FLASH128
 *                                      no flash chip        0         NONE, SRAM, EEPROM512, EEPROM8K
 *     1  GBASAVE_PART_SST_64K          SST, 64 KiB          D4BFh     FLASH64
 *     2  GBASAVE_PART_MACRONIX_64K     Macronix, 64 KiB     1CC2h     FLASH64
 *     3  GBASAVE_PART_PANASONIC_64K    Panasonic, 64 KiB    1B32h     FLASH64
 *     4  GBASAVE_PART_SANYO_128K       Sanyo, 128 KiB       1362h     FLASH128
 *     5  GBASAVE_PART_MACRONIX_128K    Macronix, 128 KiB    09C2h     FLASH128
 *
 * The usual part fits every kind. A named part, 1 to 5, fits the flash kind of its size. A number above 5 names no part
 * and fits no kind. The high byte of an ID word is the device, the low byte the maker. In ID mode even addresses read
 * the maker, and odd ones the device. The part has no other effect: every command does the same with every part.
 * gbasave_from_bytes writes the part to the record; no other call changes it.
 *
 * RETURN VALUES. Every call but gbasave_version returns 0 (accepted) or the number of a refusal. It asks questions
 * about its arguments, in the order that its comment gives. It returns the number of the first question to which the
 * answer is no, or 0 if there is no such question. gbasave_refusal_text returns a text for each number. Values are
 * returned through out-parameters (uint32_t *). The questions are:
 *
 *      1   Is the image 192 to 33,554,432 bytes long?
 *      2   Is the record valid? (Some calls ask it about a matcher or about a kind's number; their comments say so.)
 *      3   Does the memory have its kind's length?
 *      4   Does the kind have an EEPROM?
 *      5   Are fewer than 6 bits of an address in, or is no address being received?
 *      6   Does the state have 18 or 20 bytes?
 *      7   Is the state's phase allowed?
 *      8   Is the state's flash state allowed?
 *      9   Are the state's bank, ID mode and large each 0 or 1?
 *     10   Is the state's DMA width allowed?
 *     11   Is the state's count at most 64, and are its block and its read place allowed?
 *     12   Is the state's count allowed in its phase?
 *     13   Is the destination long enough for the output?
 *     14   Is the file's length one for this kind? (For kind NONE no length is.)
 *     15   Does the part have the kind's size? (The usual part fits every kind, a number above 5 none.)
 *     16   Are the tallies as many as the kind has? (It is asked after 3, and before 4, 14 and 15.)
 *     17   Is byte 19 of the state, its layout number, 2? (Only of 20 bytes. It is asked after 6, and before 7.)
 *     18   Is byte 18 of the state, the changed flag, 0 or 1? (Only of 20 bytes. It is asked after 12.)
 *
 * A REFUSED CALL CHANGES NOTHING: the record, the matcher, the memory, the tallies, the destination, the state and
 * every out-parameter keep their values. The one exception is gbasave_from_bytes: if it is refused it writes 25 zeros
 * to the record.
 *
 * CHANGED BYTES. Four calls store: gbasave_save_write, gbasave_eeprom_write, gbasave_load_save and gbasave_import_save.
 * Each writes to *changed how many bytes of the memory have another value after the call than before it:
 *
 *     a byte stored in SRAM, programmed in flash or written to an EEPROM kind     0 or 1
 *     a block of the EEPROM                                                       0 to 8
 *     a sector of flash erased                                                    0 to 4,096
 *     the flash chip erased, a file loaded or imported                            0 to the memory's length
 *     a step or a bit of a command that stores nothing; kind NONE                 0
 *
 * The number is for a host with a write-back budget. Such a host adds the numbers up, and writes out the file when the
 * sum reaches the budget. In at most that many bytes the memory differs from what it was when the sum was 0.
 *
 * The number does not replace the changed flag. Storing the value that is already there gives 0 and sets the flag to 1.
 * Loads, imports and byte writes to an EEPROM kind have a number, and leave the flag as it was. Opening has no number.
 * The sum says when to write out the file; the flag says at the end whether there is anything left to write out.
 *
 * TALLIES. A save menu can show "empty" without a reading of the memory. A stretch is 4,096 bytes of the memory:
 * stretch 0 is the first 4,096 bytes, stretch 1 the next, and so on. A byte is in use if it is not FFh. For each
 * stretch the caller keeps a tally beside the memory, a uint16_t: how many bytes of the stretch are in use. The tally
 * of stretch 0 comes first. The number of tallies is the memory's length / GBASAVE_STRETCH_SIZE, as the table at KINDS
 * has it; it is at most GBASAVE_MAX_TALLIES. Opening and the four calls that store are passed the tallies:
 *
 *   - gbasave_from_bytes sets every tally to 0. Every byte of the memory is then FFh.
 *   - A call that stores adds its change to each tally: the tally becomes (tally + bytes of its stretch in use after
 *     the call - bytes of its stretch in use before it) modulo 65,536.
 *   - A refused call leaves the tallies, and so does a refused opening.
 *
 * No other call changes the memory. gbasave_is_blank and gbasave_first_in_use answer from the record and the tallies
 * alone. It is proved that both answers are those of a reading of the whole memory, after an accepted opening and every
 * list of eleven calls, refused ones included: the ten calls that WHAT IS PROVED OF STATES names, with byte writes to
 * EEPROM kinds, and gbasave_restore_chip_state with any bytes. For this, each call has to get the record, the memory
 * and the tallies as the last call left them, and nothing else may write to them. (Only the changed flag may be set: no
 * store depends on it.) Kind NONE has no tallies, and is blank.
 *
 * The answers are about the whole memory. If an EEPROM is not large, the exported file is only a part of it. The rest
 * is blank, unless a byte write or a restored state has stored something there.
 *
 * FOREIGN TALLIES. No call sees whether the numbers passed are those of the memory. Any numbers are changed in the same
 * way. Only the two answers depend on them: they are then about the tallies, and not about the memory. Nothing else
 * goes wrong. A store adds only its change, so a tally that is wrong stays wrong by the same number, modulo 65,536. A
 * caller that has lost the tallies, or has written to the memory itself, gets right ones in one of two ways:
 *   - It counts them: in each stretch, the bytes that are not FFh.
 *   - It takes a state, opens the cartridge again and resumes the state. Opening sets the tallies to 0, and the load
 *     adds what it stores. So a state need not contain tallies.
 * Load and restore on an open cartridge keep right tallies right.
 *
 * WHAT THE CALLER HAS TO ENSURE, in every call. A buffer is a pointer and a length in bytes. (For the state of
 * gbasave_chip_state the length is 20. Tallies are a buffer whose length is how many there are.)
 *   - No pointer is NULL, except that of a buffer whose length is 0. Such a pointer may be any pointer, also NULL, as
 *     an empty std::vector has it. Nothing is read or written through it.
 *   - No two of the objects passed to one call overlap: no two of record, matcher, image, header, piece, memory,
 *     tallies, file, state, destination and out-parameters.
 *   - A buffer is as long as its length says, and it can be written to if its pointer is not to const.
 *   - While the call runs, nothing else writes to the objects passed to it, or reads one that the call writes to.
 * Only tallies and out-parameters need an alignment, that of uint16_t and that of uint32_t. The calls check everything
 * else: a buffer may hold any bytes, and any length and any number may be passed.
 *
 * THREADS. Calls share nothing. Any number of threads may call at the same time, each with its own record, memory and
 * tallies, or its own matcher. They may all pass the same image.
 *
 * TIME. gbasave_from_bytes, gbasave_detect_save_type, gbasave_search, gbasave_save_fit and gbasave_save_size search the
 * image. They hand its bytes to a matcher, from the front and each at most once, and stop after the first SRAM_V. They
 * hand over none if the game code decides. gbasave_rom_crc goes through the whole image, gbasave_crc_feed through its
 * piece, gbasave_matcher_feed through its piece up to the first SRAM_V. gbasave_load_save, gbasave_import_save,
 * gbasave_save_data and the erasing of a flash chip go through the memory, the erasing of a sector through its 4,096
 * bytes. gbasave_is_blank and gbasave_first_in_use go through the tallies, 32 at most. The time of every other call
 * does not grow with the size of any of these.
 *
 * TO PLAY.
 *   1. Compare gbasave_version() with GBASAVE_VERSION_NUMBER. If they differ, the archive belongs to another header.
 *   2. Call gbasave_save_size to learn how much memory the image needs.
 *   3. Pass a memory of that size to gbasave_from_bytes, size / GBASAVE_STRETCH_SIZE tallies, and the part:
 *      GBASAVE_PART_USUAL, unless the game is known to look for another flash chip. No call finds the part in the
 *      image.
 *   4. Load the player's file, if there is one, with gbasave_import_save. A footer of 16 bytes is not loaded, and no
 *      exported file has one. If later files are to have the footer, keep it and append it to them.
 *   5. Pass on the game's accesses. Bytes at 0E000000h to 0E00FFFFh go to gbasave_save_read and gbasave_save_write. On
 *      EEPROM kinds, halfwords from gbasave_eeprom_window_start to 0DFFFFFFh go to gbasave_eeprom_read and
 *      gbasave_eeprom_write; the length of each DMA transfer to or from there goes to gbasave_eeprom_begin_dma before
 *      the transfer's first halfword. A game can cause one refusal here, 5. The chip is then unchanged, and the game
 *      goes on.
 *   6. From time to time, and at the end, call gbasave_take_save_dirty. If it sets *flag to 1, write out the file from
 *      gbasave_save_data. A host with a budget does so when the sum of *changed has reached it, and at the end. It
 *      starts the sum at 0 after step 4 and whenever the file is written out.
 *   7. To show "empty" in a save menu, call gbasave_is_blank. To show where a save begins, call gbasave_first_in_use.
 *      Both need only the record and the tallies.
 *
 * TO TAKE A STATE, keep:
 *   - the file from gbasave_save_data, if there is one (*length is not 0);
 *   - the state's 20 bytes from gbasave_chip_state. The changed flag is one of them;
 *   - what identifies the cartridge: the kind and the image's length (both in the record), and gbasave_rom_crc of the
 *     image. Compute the CRC once, when the image is opened;
 *   - the part with which the cartridge was opened (the record's byte GBASAVE_RECORD_PART).
 * The tallies need not be kept. The file and the 20 bytes do not say to which cartridge they belong, nor with which
 * part it was opened. gbasave_load_save and gbasave_restore_chip_state accept those of another cartridge, also of
 * another kind or part, and overwrite its save. Only the caller can prevent this.
 *
 * LAYOUTS OF A STATE. The 20 bytes are layout 2: the 18 bytes of the chip record, the changed flag, and the layout
 * number 2. Versions before 0.7.0 wrote layout 1: the chip record alone, 18 bytes. gbasave_restore_chip_state takes
 * both, and the length tells them apart. 18 bytes leave the changed flag as it is. gbasave_chip_state writes layout 2;
 * its first 18 bytes are the same as in layout 1.
 *
 * TO RESUME A STATE, in this process or in another:
 *   1. Compare the kind, the image's length and the CRC with those of the cartridge that is to go on. If one of them
 *      differs, stop: the state belongs to another cartridge. If the cartridge is open, compare the part too. If only
 *      the part differs, stop, or open the cartridge again with the state's part: with another part the game may find
 *      another chip than before. Check also that the file is complete: the load takes a file of any length.
 *   2. If that cartridge is not open, open it with gbasave_from_bytes and the state's part. If it is open with that
 *      part, keep its record, its memory and its tallies: opening it again makes no difference (with 18 bytes, none
 *      except to the flag), and takes the time of a search of the image. (Foreign tallies would stay foreign: open it
 *      again, or count them.)
 *   3. Pass the state, 20 bytes or the 18 of an old one, to gbasave_restore_chip_state. If it is refused, stop: the
 *      cartridge is unchanged.
 *   4. If there is a file, pass it to gbasave_load_save.
 *   5. Pass the state to gbasave_restore_chip_state again, since the load may have made the chip large.
 *   6. If there is a file, and the state has 18 bytes or the host is not sure that its save file is still the one of
 *      the moment when the state was taken: set the record's byte GBASAVE_RECORD_FLAG, the changed flag, to 1.
 * The save file is the one that the host writes out when the flag is 1. Byte 18 of a state says whether the save file
 * was out of date when the state was taken.
 *   - A host that goes on from the file and the state as it left them, as a console that was switched off, does not
 *     need step 6. The flag comes with the state: if it is 1, the next gbasave_take_save_dirty tells the host to write
 *     out the file.
 *   - A host that has written out another file since then, and now resumes the older state, needs step 6. The memory
 *     holds the state's file and the save file is another one, but byte 18 may be 0. Without the flag such a host would
 *     not write out the file, and the save would be lost.
 *   - 18 bytes have no flag. After an opening it is 0, in an open cartridge it is the cartridge's own.
 *   - A host that is not sure sets the flag. At worst it writes out the same file again.
 * Step 6 comes after step 5, since a restore of 20 bytes replaces the flag.
 *
 * WHAT IS PROVED OF STATES. Every later answer, file and state is the same as if no state had been taken and resumed,
 * where both cartridges are opened with the same part: the one of which the state is taken and the one in which it is
 * resumed. The numbers of changed bytes are among the answers.
 *   - If every state is resumed with its 20 bytes, nothing is left out: the answers of gbasave_take_save_dirty and all
 *     20 bytes of later states are the same too.
 *   - If one state or more is resumed with its first 18 bytes alone, the answers of gbasave_take_save_dirty and byte 18
 *     of the states are left out, everywhere in the list.
 * This holds for every part, and for every list of these ten calls, refused ones included: gbasave_save_read,
 * gbasave_save_write, gbasave_eeprom_begin_dma, gbasave_eeprom_write, gbasave_eeprom_read, gbasave_load_save,
 * gbasave_save_data, gbasave_import_save, gbasave_chip_state and gbasave_take_save_dirty. It holds wherever between the
 * calls states are taken and resumed, also between two bits of a serial command, and however often. To resume means
 * here to open, load and restore; the caller does not set the flag. The claim does not cover lists with a byte write to
 * an EEPROM kind, or the restoring of other states.
 *
 * It is also proved that load and restore on the open cartridge of the same image and part leave the same memory and
 * record as opening, load and restore. If the state has 18 bytes, only the flag may differ: opening sets it to 0, load
 * and restore keep it.
 *
 * Of a state's bytes it is proved: 20 bytes that gbasave_restore_chip_state accepts are those that gbasave_chip_state
 * then writes. 18 bytes that it accepts are the first 18 of those. A state that gbasave_chip_state has written is
 * accepted, and makes the chip record and the flag what they were.
 */
#ifndef GBASAVE_H
#define GBASAVE_H

#include <stddef.h>
#include <stdint.h>

#ifdef __cplusplus
extern "C" {
#endif

/* The version of this header and of its archive, as a text and as a number: major * 10000 + minor * 100 + patch. */
#define GBASAVE_VERSION "0.7.0"
#define GBASAVE_VERSION_NUMBER 700

/* Sizes in bytes. */
#define GBASAVE_RECORD_SIZE 25
#define GBASAVE_MATCHER_SIZE 13
#define GBASAVE_STATE_SIZE 20   /* layout 2 */
#define GBASAVE_CHIP_SIZE 18    /* the chip record; also an old state, of layout 1 */
#define GBASAVE_TITLE_SIZE 36   /* the longest title */
#define GBASAVE_HEADER_SIZE 192 /* the image's first bytes, which gbasave_matcher_finish takes */
#define GBASAVE_IMAGE_MIN 192
#define GBASAVE_IMAGE_MAX 33554432

/* Save memory by kind. */
#define GBASAVE_MEMORY_NONE 0
#define GBASAVE_MEMORY_SRAM 32768
#define GBASAVE_MEMORY_FLASH64 65536
#define GBASAVE_MEMORY_FLASH128 131072
#define GBASAVE_MEMORY_EEPROM512 8192
#define GBASAVE_MEMORY_EEPROM8K 8192
#define GBASAVE_MEMORY_MAX 131072

/* Tallies: a kind has its memory's size / GBASAVE_STRETCH_SIZE of them. */
#define GBASAVE_STRETCH_SIZE 4096
#define GBASAVE_MAX_TALLIES 32
#define GBASAVE_NONE_IN_USE 0xFFFFFFFF /* from gbasave_first_in_use: no stretch is in use */

typedef enum gbasave_kind {
    GBASAVE_KIND_NONE = 0,
    GBASAVE_KIND_SRAM = 1,
    GBASAVE_KIND_FLASH64 = 2,
    GBASAVE_KIND_FLASH128 = 3,
    GBASAVE_KIND_EEPROM512 = 4,
    GBASAVE_KIND_EEPROM8K = 5
} gbasave_kind;

typedef enum gbasave_part {
    GBASAVE_PART_USUAL = 0,
    GBASAVE_PART_SST_64K = 1,
    GBASAVE_PART_MACRONIX_64K = 2,
    GBASAVE_PART_PANASONIC_64K = 3,
    GBASAVE_PART_SANYO_128K = 4,
    GBASAVE_PART_MACRONIX_128K = 5
} gbasave_part;

typedef enum gbasave_refusal {
    GBASAVE_ACCEPTED = 0,
    GBASAVE_REFUSED_IMAGE_LENGTH = 1,
    GBASAVE_REFUSED_RECORD = 2,
    GBASAVE_REFUSED_MEMORY_LENGTH = 3,
    GBASAVE_REFUSED_NO_EEPROM = 4,
    GBASAVE_REFUSED_DMA_TOO_LATE = 5,
    GBASAVE_REFUSED_STATE_LENGTH = 6,
    GBASAVE_REFUSED_STATE_PHASE = 7,
    GBASAVE_REFUSED_STATE_FLASH = 8,
    GBASAVE_REFUSED_STATE_SWITCHES = 9,
    GBASAVE_REFUSED_STATE_WIDTH = 10,
    GBASAVE_REFUSED_STATE_RANGES = 11,
    GBASAVE_REFUSED_STATE_COUNT = 12,
    GBASAVE_REFUSED_DESTINATION_LENGTH = 13,
    GBASAVE_REFUSED_FILE_LENGTH = 14,
    GBASAVE_REFUSED_PART = 15,
    GBASAVE_REFUSED_TALLY_COUNT = 16,
    GBASAVE_REFUSED_STATE_LAYOUT = 17,
    GBASAVE_REFUSED_STATE_FLAG = 18
} gbasave_refusal;

/* Returns a short text for the return value of a call. */
static inline const char *gbasave_refusal_text(uint32_t answer)
{
    switch (answer) {
    case GBASAVE_ACCEPTED: return "accepted";
    case GBASAVE_REFUSED_IMAGE_LENGTH: return "the image's length is not allowed";
    case GBASAVE_REFUSED_RECORD: return "this is no valid record, matcher or kind";
    case GBASAVE_REFUSED_MEMORY_LENGTH: return "the save memory does not have its kind's length";
    case GBASAVE_REFUSED_NO_EEPROM: return "the cartridge has no EEPROM";
    case GBASAVE_REFUSED_DMA_TOO_LATE: return "the DMA length comes too late in an address";
    case GBASAVE_REFUSED_STATE_LENGTH: return "the chip state is neither 18 nor 20 bytes long";
    case GBASAVE_REFUSED_STATE_PHASE: return "the chip state's phase is not allowed";
    case GBASAVE_REFUSED_STATE_FLASH: return "the chip state's flash state is not allowed";
    case GBASAVE_REFUSED_STATE_SWITCHES: return "the chip state's bank, ID mode or large is neither 0 nor 1";
    case GBASAVE_REFUSED_STATE_WIDTH: return "the chip state's DMA width is not allowed";
    case GBASAVE_REFUSED_STATE_RANGES: return "the chip state's count, block or read place is out of range";
    case GBASAVE_REFUSED_STATE_COUNT: return "the chip state's count is not allowed in its phase";
    case GBASAVE_REFUSED_DESTINATION_LENGTH: return "the destination is too short";
    case GBASAVE_REFUSED_FILE_LENGTH: return "no file of this kind has this length";
    case GBASAVE_REFUSED_PART: return "the part does not have the kind's size";
    case GBASAVE_REFUSED_TALLY_COUNT: return "the tallies are not as many as the kind has";
    case GBASAVE_REFUSED_STATE_LAYOUT: return "the chip state's layout number is not 2";
    case GBASAVE_REFUSED_STATE_FLAG: return "the chip state's changed flag is neither 0 nor 1";
    default: return "no call returns this number";
    }
}

/* Returns the name of a part, to be shown to a person. */
static inline const char *gbasave_part_text(uint32_t part)
{
    switch (part) {
    case GBASAVE_PART_USUAL: return "the usual part";
    case GBASAVE_PART_SST_64K: return "SST 64K";
    case GBASAVE_PART_MACRONIX_64K: return "Macronix 64K";
    case GBASAVE_PART_PANASONIC_64K: return "Panasonic 64K";
    case GBASAVE_PART_SANYO_128K: return "Sanyo 128K";
    case GBASAVE_PART_MACRONIX_128K: return "Macronix 128K";
    default: return "no part";
    }
}

/* A cartridge record. The struct gives it a type of its own; the calls take a pointer to the 25 bytes. */
typedef struct gbasave_record {
    uint8_t bytes[GBASAVE_RECORD_SIZE];
} gbasave_record;

/* Offsets of the record's fields. */
#define GBASAVE_RECORD_IMAGE_LENGTH 0
#define GBASAVE_RECORD_KIND 4
#define GBASAVE_RECORD_FLAG 5
#define GBASAVE_RECORD_CHIP 6
#define GBASAVE_RECORD_PART 24

/* Offsets of the state's bytes after the chip record. */
#define GBASAVE_STATE_FLAG 18
#define GBASAVE_STATE_LAYOUT 19

/* A matcher. The struct gives it a type of its own; the calls take a pointer to the 13 bytes. */
typedef struct gbasave_matcher {
    uint8_t bytes[GBASAVE_MATCHER_SIZE];
} gbasave_matcher;

/*
 * The comment of each call says what the call does, and then:
 *   Asks:    the numbers of its questions, in the order in which it asks them. "1 (lower bound)" is question 1 without
 *            its upper bound: does the image have at least 192 bytes?
 *   Writes:  what it writes to out-parameters and to destinations.
 *   Changes: what it changes in the record, in the matcher, in the memory and in the tallies. A call without this line
 *            changes none.
 * A call writes and changes nothing else.
 */

/* ---- The version ------------------------------------------------------------------------------------------------- */

/*
 * Returns the version of the archive: GBASAVE_VERSION_NUMBER of the header that belongs to it. It is not the number of
 * a refusal.
 */
uint32_t gbasave_version(void);

/* ---- The image --------------------------------------------------------------------------------------------------- */

/*
 * Finds the kind of an image. The game code at ACh decides first: GBXP, GBXJ and GBXE give SRAM; GB4P, GB4J and GB4E
 * give FLASH128. Otherwise these markers are tried in this order, and the first that occurs anywhere in the image
 * decides: SRAM_V gives SRAM; FLASH_V or FLASH512_V gives FLASH64; FLASH1M_V gives FLASH128; EEPROM_V gives EEPROM8K
 * above 16,777,216 bytes and EEPROM512 otherwise. Otherwise the title POKEMON RUBY gives FLASH128. Otherwise the kind
 * is NONE.
 *   Asks:    1
 *   Writes:  *kind, 0 to 5.
 */
uint32_t gbasave_detect_save_type(const uint8_t *image, size_t image_length, uint32_t *kind);

/*
 * Finds the kind of an image, as gbasave_detect_save_type does, and tells how far it had to look for it. The search
 * hands the image's bytes to a matcher, from the front and each at most once. The kind depends only on the image's
 * first 192 bytes, on its length and on the matcher after the bytes handed over.
 *   Asks:    1
 *   Writes:  *kind, 0 to 5. *handed: how many bytes were handed over. 0 if the game code decides; otherwise, if SRAM_V
 *            occurs, the offset just after the first one; otherwise the image's length.
 */
uint32_t gbasave_search(const uint8_t *image, size_t image_length, uint32_t *kind, uint32_t *handed);

/*
 * Gets the size of the save memory of the image's kind: the length of the memory to pass to gbasave_from_bytes, with
 * size / GBASAVE_STRETCH_SIZE tallies. It is also the largest size that gbasave_save_fit keeps. The size is 0 for an
 * image below 192 bytes. An image above 33,554,432 bytes is treated like any other.
 *   Asks:    nothing, and returns 0.
 *   Writes:  *size.
 */
uint32_t gbasave_save_size(const uint8_t *image, size_t image_length, uint32_t *size);

/*
 * Gets the number of bytes that are kept of a save file of file_length bytes, for the image's kind. A file has the
 * chip's size or, with a footer, 16 bytes more. SRAM also takes 65,536 and 65,552 bytes, and keeps 32,768 of them.
 * Both EEPROM kinds take the chip sizes 512 and 8,192. An image below 192 bytes takes no file. An image above
 * 33,554,432 bytes is treated like any other.
 *   Asks:    nothing, and returns 0.
 *   Writes:  *kept: the number of bytes kept, or 0 if a file of this length cannot belong to the image.
 */
uint32_t gbasave_save_fit(const uint8_t *image, size_t image_length, size_t file_length, uint32_t *kept);

/*
 * Gets the size of the save memory of a kind, by the kind's number.
 *   Asks:    2, about the number: is it a kind's, 0 to 5?
 *   Writes:  *size.
 */
uint32_t gbasave_memory_size(uint32_t kind, uint32_t *size);

/*
 * Reads a byte, halfword or word of the image, low byte first. The address is an offset into the image and need not be
 * a multiple of the width. Bytes past the image's end, or past FFFFFFFFh, read as 0.
 *   Asks:    1
 *   Writes:  *value.
 */
uint32_t gbasave_read(const uint8_t *image, size_t image_length, uint32_t address, uint32_t *value);
uint32_t gbasave_read16(const uint8_t *image, size_t image_length, uint32_t address, uint32_t *value);
uint32_t gbasave_read32(const uint8_t *image, size_t image_length, uint32_t address, uint32_t *value);

/*
 * Computes the header's complement check: 0 minus the bytes A0h to BCh minus 19h, modulo 256. A correct header has
 * this value at BDh. No call refuses an image because of another value there.
 *   Asks:    1 (lower bound)
 *   Writes:  *value, 0 to 255.
 */
uint32_t gbasave_header_checksum(const uint8_t *image, size_t image_length, uint32_t *value);

/*
 * Gets the header's title as UTF-8: the bytes A0h to ABh, with ill-formed ones replaced by U+FFFD and trailing zero
 * bytes dropped. No zero byte is added at its end. GBASAVE_TITLE_SIZE bytes hold any title.
 *   Asks:    1 (lower bound), 13
 *   Writes:  *length, 0 to 36, and the title to the destination's first bytes. The bytes after the title keep their
 *            values.
 */
uint32_t gbasave_title(const uint8_t *image, size_t image_length, uint8_t *destination, size_t destination_length,
                       uint32_t *length);

/*
 * Computes the CRC-32/IEEE of the whole image.
 *   Asks:    1
 *   Writes:  *value.
 */
uint32_t gbasave_rom_crc(const uint8_t *image, size_t image_length, uint32_t *value);

/*
 * Compute the CRC-32/IEEE of an image that the host reads in pieces, as from a card. The caller's number *crc is passed
 * from call to call:
 *
 *     gbasave_crc_start(&crc);
 *     while ((piece_length = next_piece(piece)) != 0) gbasave_crc_feed(&crc, piece, piece_length);
 *     gbasave_crc_finish(&crc);
 *
 * gbasave_crc_start begins, gbasave_crc_feed takes the next piece, gbasave_crc_finish ends. The pieces are fed in the
 * image's order, none twice and none left out. A piece may have any length; one of 0 bytes changes nothing. It is
 * proved that, however the image is cut into pieces, *crc is at the end what gbasave_rom_crc writes for the whole.
 *   Asks:    nothing, and each returns 0. No call sees the whole image, so the host itself asks question 1 about the
 *            sum of the pieces' lengths. If the answer is no, *crc is still the CRC-32/IEEE of the bytes fed.
 *   Changes: *crc. Before the end it is not yet a CRC. It may be copied: a finished copy is the CRC of the pieces so
 *            far. After the end it is not fed again.
 *   Time:    It grows with the piece's length. Per byte it is least if every piece is a multiple of 32,768 bytes long.
 */
uint32_t gbasave_crc_start(uint32_t *crc);
uint32_t gbasave_crc_feed(uint32_t *crc, const uint8_t *piece, size_t piece_length);
uint32_t gbasave_crc_finish(uint32_t *crc);

/*
 * Find the kind of an image that the host reads in pieces, as from a card, without holding the image. The matcher is
 * passed from call to call. The same pieces may also be fed to the CRC:
 *
 *     gbasave_matcher_start(&matcher);
 *     gbasave_crc_start(&crc);
 *     while ((piece_length = next_piece(piece)) != 0) {
 *         gbasave_matcher_feed(&matcher, piece, piece_length, &done);
 *         gbasave_crc_feed(&crc, piece, piece_length);
 *     }
 *     gbasave_crc_finish(&crc);
 *     gbasave_matcher_finish(&matcher, header, GBASAVE_HEADER_SIZE, image_length, &kind);
 *
 * The pieces are fed in the image's order, none twice and none left out. A piece may have any length; one of 0 bytes
 * changes nothing. Once *done is 1, the matcher needs no more pieces, and feeding more changes nothing. A host that
 * wants only the kind may then stop reading, as soon as it has the header; a host that also wants the CRC reads on. The
 * header is the image's first 192 bytes, which the host keeps. It is proved that, however the image is cut into pieces,
 * *kind is what gbasave_detect_save_type writes for the whole image. Opening still takes the whole image.
 */

/*
 * Begins a search: no byte has been fed.
 *   Asks:    nothing, and returns 0.
 *   Changes: matcher, whatever it held before: it becomes 13 zeros.
 */
uint32_t gbasave_matcher_start(gbasave_matcher *matcher);

/*
 * Takes the next piece: hands its bytes to the matcher, from the front, until SRAM_V has been seen.
 *   Asks:    2, about the matcher: are its first four bytes each 0 or 1?
 *   Writes:  *done: 1 if SRAM_V has been seen in the bytes fed so far, also in an earlier piece or over the boundary of
 *            two. Otherwise 0.
 *   Changes: matcher, by the bytes handed over.
 *   Time:    It grows with the number of bytes handed over. In a piece, 32 bytes without _V are passed over at once. So
 *            per byte it is least if the pieces are much longer than 32 bytes.
 */
uint32_t gbasave_matcher_feed(gbasave_matcher *matcher, const uint8_t *piece, size_t piece_length, uint32_t *done);

/*
 * Gets the kind of the image whose pieces were fed. Of a longer header only the first 192 bytes count. The matcher
 * keeps its bytes, and may be fed more pieces.
 *   Asks:    1, about image_length and about the header: is image_length 192 to 33,554,432, and has the header at least
 *            192 bytes? Then 2, about the matcher, as gbasave_matcher_feed does. No call sees the whole image, so the
 *            host itself ensures that image_length is the whole image's length, also if it stopped reading before.
 *   Writes:  *kind, 0 to 5.
 */
uint32_t gbasave_matcher_finish(const gbasave_matcher *matcher, const uint8_t *header, size_t header_length,
                                size_t image_length, uint32_t *kind);

/* ---- Opening ----------------------------------------------------------------------------------------------------- */

/*
 * Gets the ID word of a part on a kind, both by number: the word that a game reads in ID mode. It tells before an
 * opening whether the part fits the kind.
 *   Asks:    2, about the kind's number: is it a kind's, 0 to 5? Then 15.
 *   Writes:  *word: the device in bits 8 to 15, the maker in bits 0 to 7. 0 if the kind has no flash chip.
 */
uint32_t gbasave_id_word(uint32_t part, uint32_t kind, uint32_t *word);

/*
 * Opens a cartridge: finds the image's kind as gbasave_detect_save_type does, and erases the memory. The image is not
 * kept; the record holds only its length. The part is a number of the table at PARTS.
 *   Asks:    1, then for the image's kind: 3, 16, 15
 *   Changes: record, whatever it held before: image length, kind and part; flag 0; chip record 0, except that large is
 *            1 for EEPROM8K. memory: every byte becomes FFh. tallies: each becomes 0.
 *   Refused: The record becomes 25 zeros, which are not a valid record. The memory and the tallies keep their values.
 *            A cartridge whose record is passed here is lost if the call is refused. To keep it, pass a second record,
 *            and copy it over the first if the call is accepted.
 */
uint32_t gbasave_from_bytes(gbasave_record *record, const uint8_t *image, size_t image_length, uint32_t part,
                            uint8_t *memory, size_t memory_length, uint16_t *tallies, size_t tally_count);

/* ---- Bytes: SRAM and flash --------------------------------------------------------------------------------------- */

/*
 * Reads the byte at an address. Any address may be passed, also the one on the bus (0E000000h and up). SRAM uses it
 * modulo 32,768, flash modulo 65,536 in the selected bank (FLASH64 has one bank), EEPROM kinds modulo 8,192. Kind NONE
 * reads FFh. Flash in ID mode reads the maker at even addresses and the device at odd ones: the low and the high byte
 * of the part's ID word. With the usual part these are 32h and 1Bh for FLASH64, 62h and 13h for FLASH128.
 *   Asks:    2, 3
 *   Writes:  *value, 0 to 255.
 */
uint32_t gbasave_save_read(const gbasave_record *record, const uint8_t *memory, size_t memory_length, uint32_t address,
                           uint32_t *value);

/*
 * Writes a byte at an address. The address is used as in gbasave_save_read.
 *   SRAM:    The byte is stored, and the flag becomes 1.
 *   Flash:   The byte is a step of a command. Programming a byte, erasing a sector of 4,096 bytes and erasing the
 *            whole chip change the memory and set the flag to 1.
 *   NONE:    Nothing happens.
 *   EEPROM:  Both kinds store the byte, and the flag keeps its value. Games have no use for this, and a state may lose
 *            the byte.
 *
 *   Asks:    2, 3, 16
 *   Writes:  *changed: how many bytes of the memory have changed (see CHANGED BYTES). 0 if nothing is stored.
 *   Changes: record (flag; flash state, bank and ID mode) and memory, as above; tallies (see TALLIES): that of the
 *            byte's or the sector's stretch, or all of them if the chip is erased.
 */
uint32_t gbasave_save_write(gbasave_record *record, uint8_t *memory, size_t memory_length, uint16_t *tallies,
                            size_t tally_count, uint32_t address, uint8_t value, uint32_t *changed);

/* ---- Serial bits: EEPROM ----------------------------------------------------------------------------------------- */

/*
 * Tells whether the kind is one of the two EEPROM kinds.
 *   Asks:    2
 *   Writes:  *answer, 0 or 1.
 */
uint32_t gbasave_uses_eeprom(const gbasave_record *record, uint32_t *answer);

/*
 * Gets the bus address at which the EEPROM begins: 0DFFFF00h for images above 16,777,216 bytes, otherwise 0D000000h.
 * The EEPROM ends at 0DFFFFFFh.
 *   Asks:    2
 *   Writes:  *start, also if the kind has no EEPROM.
 */
uint32_t gbasave_eeprom_window_start(const gbasave_record *record, uint32_t *start);

/*
 * Announces the length of a DMA transfer, in halfwords, before its first bit. The chip learns from it how long
 * addresses are. 9 and 73 mean 6 bits; 17 and 81 mean 14 bits, and that the chip is large. Other lengths change
 * nothing.
 *   Asks:    2, 5 (for 9 and 73 only)
 *   Changes: record (DMA width, large).
 */
uint32_t gbasave_eeprom_begin_dma(gbasave_record *record, uint32_t words);

/*
 * Takes one bit: bit 0 of value. The other bits are ignored. A write command is the bits 1 0, the address, 64 bits of
 * data and an end bit. A read command is the bits 1 1, the address and an end bit. Numbers come highest bit first. The
 * last bit of data stores the block's eight bytes and sets the flag to 1. After a read command gbasave_eeprom_read
 * gives 68 bits. If a bit is written before all 68 are read, it ends the read and begins a command.
 *   Asks:    2, 3, 16, 4
 *   Writes:  *changed: how many of the block's bytes have changed, 0 to 8. 0 for every bit but the last one of data.
 *   Changes: record (flag, chip record) and, with the last bit of data, eight bytes of memory and the tally of the
 *            block's stretch.
 */
uint32_t gbasave_eeprom_write(gbasave_record *record, uint8_t *memory, size_t memory_length, uint16_t *tallies,
                              size_t tally_count, uint16_t value, uint32_t *changed);

/*
 * Reads one bit. After a read command: 0 four times, then the block's 64 bits, highest first. If the kind has no
 * EEPROM, these 64 bits are 1; only a restored state can lead to this. At all other times: 1.
 *   Asks:    2, 3
 *   Writes:  *bit, 0 or 1.
 *   Changes: record (chip record) during a read, otherwise nothing.
 */
uint32_t gbasave_eeprom_read(gbasave_record *record, const uint8_t *memory, size_t memory_length, uint32_t *bit);

/* ---- Files ------------------------------------------------------------------------------------------------------- */

/*
 * Writes the save file: the memory, or only its first 512 bytes if the chip is an EEPROM that is not large.
 * GBASAVE_MEMORY_MAX bytes hold any file. The flag keeps its value.
 *   Asks:    2, 3, 13 (not for kind NONE)
 *   Writes:  *length, and the file to the destination's first bytes. The bytes after the file keep their values. Kind
 *            NONE has no file: *length is 0.
 */
uint32_t gbasave_save_data(const gbasave_record *record, const uint8_t *memory, size_t memory_length,
                           uint8_t *destination, size_t destination_length, uint32_t *length);

/*
 * Imports a player's file, if its length is one that gbasave_save_fit takes for the kind. What is kept of the
 * file, without a footer, is loaded as gbasave_load_save does it. A footer is the file's last 16 bytes; it is not kept.
 *   Asks:    2, 3, 16, 14
 *   Writes:  *kept: how many of the file's bytes were loaded. *changed: how many bytes of the memory have changed.
 *   Changes: memory; tallies; record (large). The flag and the part keep their values.
 */
uint32_t gbasave_import_save(gbasave_record *record, uint8_t *memory, size_t memory_length, uint16_t *tallies,
                             size_t tally_count, const uint8_t *file, size_t file_length, uint32_t *kept,
                             uint32_t *changed);

/*
 * Loads a file of any length, to resume a state. Every byte of the memory becomes FFh; then the file's first bytes are
 * written to its beginning, as many as there is room for. On EEPROM kinds a file longer than 512 bytes makes the chip
 * large. For kind NONE nothing happens.
 *   Asks:    2, 3, 16
 *   Writes:  *changed: how many bytes of the memory have changed. Loading what is there gives 0, loading 0 bytes gives
 *            the number of bytes that were not FFh.
 *   Changes: memory; tallies; record (large). The flag and the part keep their values.
 */
uint32_t gbasave_load_save(gbasave_record *record, uint8_t *memory, size_t memory_length, uint16_t *tallies,
                           size_t tally_count, const uint8_t *file, size_t file_length, uint32_t *changed);

/*
 * Reads the changed flag and clears it. The flag is 1 if a write has stored anything since the flag was last taken,
 * even what was there already. Byte writes to an EEPROM kind, loads, imports and restores of 18 bytes leave it as it
 * was. A restore of 20 bytes sets it to the state's byte 18. The caller may set it too (see TO RESUME A STATE).
 *   Asks:    2
 *   Writes:  *flag, 0 or 1.
 *   Changes: record: flag 0.
 */
uint32_t gbasave_take_save_dirty(gbasave_record *record, uint32_t *flag);

/* ---- Stretches in use -------------------------------------------------------------------------------------------- */

/*
 * Tells whether the memory is blank: whether its every byte is FFh. It looks at the tallies in place of the memory (see
 * TALLIES).
 *   Asks:    2, 16
 *   Writes:  *blank: 1 if every tally is 0, or if there are none; otherwise 0.
 */
uint32_t gbasave_is_blank(const gbasave_record *record, const uint16_t *tallies, size_t tally_count, uint32_t *blank);

/*
 * Finds the first stretch of the memory that is in use. It looks at the tallies in place of the memory (see TALLIES).
 *   Asks:    2, 16
 *   Writes:  *stretch: the number of the first stretch, from 0, whose tally is not 0. The stretch begins at byte
 *            *stretch * GBASAVE_STRETCH_SIZE of the memory. If every tally is 0, or if there are none:
 *            GBASAVE_NONE_IN_USE, which is no stretch's number.
 */
uint32_t gbasave_first_in_use(const gbasave_record *record, const uint16_t *tallies, size_t tally_count,
                              uint32_t *stretch);

/* ---- States ------------------------------------------------------------------------------------------------------ */

/*
 * Gets the state of the chip, in layout 2: the chip record (bytes 0 to 17), the changed flag and the layout number. The
 * flag keeps its value in the record. The bytes are:
 *     0      flash state, 0 to 2 or 4 to 8          7-8    block, 0 to 1,023, low byte first
 *     1      bank, 0 or 1                           9      read place, 0 to 67
 *     2      ID mode, 0 or 1                        10-17  bits collected so far, low byte first
 *     3      DMA width: 0 (not announced), 6 or 14  18     the changed flag, 0 or 1
 *     4      large, 0 or 1                          19     the layout number, 2
 *     5      phase: 0 opcode, 1 address of a read, 2 address of a write, 3 data, 4 end of a read command, 5 end of a
 *            write, 6 reading
 *     6      count: below 2 in phase 0, below the address's length in 1 and 2, below 64 in 3, else 0
 * The address's length is the DMA width. If that is 0, it is 14 bits if large is 1, and 6 bits if not.
 *   Asks:    2
 *   Writes:  the 20 bytes at state.
 */
uint32_t gbasave_chip_state(const gbasave_record *record, uint8_t state[GBASAVE_STATE_SIZE]);

/*
 * Replaces the chip record in the record, and with a state of 20 bytes the changed flag too. 20 bytes are layout 2, 18
 * bytes are layout 1 (see LAYOUTS OF A STATE). The bytes may come from an untrusted source: any state that is accepted
 * is safe to go on with.
 *   Asks:    20 bytes: 2, 6, 17, 7, 8, 9, 10, 11, 12, 18
 *            18 bytes: 2, 6, 7, 8, 9, 10, 11, 12
 *            any other number of bytes: 2, 6
 *   Changes: record: the chip record becomes the state's bytes 0 to 17. With 20 bytes the flag becomes byte 18; with 18
 *            bytes it keeps its value. Image length, kind and part keep their values.
 */
uint32_t gbasave_restore_chip_state(gbasave_record *record, const uint8_t *state, size_t state_length);

#ifdef __cplusplus
}
#endif

#endif
