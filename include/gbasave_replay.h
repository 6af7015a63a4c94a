/*
 * gbasave_replay.h: replays a list of calls of gbasave.h on a fresh cartridge, with states taken and resumed between
 * the calls. It is for tests. For C11 and C++. The archive libgbasave_replay.a is for x86-64 with the System V calling
 * convention. It needs nothing from outside but memcpy, memmove and memset. It may be linked with libgbasave.a or
 * without.
 *
 * THE LIST is a sequence of items. An item is one byte and its arguments. Numbers have their high byte first; the
 * table has their sizes in bytes.
 *
 *     item                          call                                answer
 *     01  address (4)               gbasave_save_read                   status, the byte
 *     02  address (4)  value (1)    gbasave_save_write                  status
 *     03                            gbasave_eeprom_read                 status, the bit
 *     04  value (2)                 gbasave_eeprom_write                status
 *     05  words (2)                 gbasave_eeprom_begin_dma            status
 *     06                            gbasave_take_save_dirty             status, the flag
 *     07                            gbasave_chip_state                  status, 20 bytes
 *     08  length (4)  the file      gbasave_load_save                   status
 *     09  length (4)                gbasave_save_data, into a           status, the file's length (4), the destination
 *                                   destination of that many zeros
 *     0A                            a cut                               nothing
 *
 * The answers of 02, 04 and 08 have no number of changed bytes.
 *
 * A CUT takes a state and resumes it. Its steps are gbasave_save_data and gbasave_chip_state; then gbasave_from_bytes
 * with the same image and the same part, gbasave_load_save with the file, if there is one, and
 * gbasave_restore_chip_state. Only the file and the 20 bytes are kept; everything else that the call before the cut
 * left is lost. No item is a cut that keeps the 18 bytes of an old state.
 *
 * THE OUTPUT is the answers of the items, one after the other. A status is 0 or the number of a refusal. After a
 * refusal the values are 0. Two more answers follow, as if the list ended with these items: the answer of a 09 whose
 * length is that of the save memory, and the answer of a 07. They are the file and the state at the end.
 *
 * WHAT RUNS. A replay does not run the calls of gbasave.h. It runs functions of the same repository that take a record
 * as a value and return it. Each does what the call of gbasave.h does that is named above: both have contracts over the
 * same definitions, and from the chip's step down they are the same code. What only the calls of gbasave.h have is not
 * run: reading a record's 25 bytes, writing them back, and the fast paths. A replay has tallies of its own, which no
 * answer shows. A caller that goes on with the memory that it leaves counts them (see FOREIGN TALLIES in gbasave.h).
 *
 * IT IS PROVED that the output is the same as that of the list without its cuts, with every part, wherever the cuts are
 * and however many there are. Nothing is left out: 06 answers the flag, and each state has it. About lists of the calls
 * of gbasave.h themselves, with cuts made of them, the same is a theorem about their contracts: see WHAT IS PROVED OF
 * STATES in gbasave.h.
 */
#ifndef GBASAVE_REPLAY_H
#define GBASAVE_REPLAY_H

#include <stddef.h>
#include <stdint.h>

#ifdef __cplusplus
extern "C" {
#endif

/* Refusals of a replay, in addition to those of gbasave.h. */
#define GBASAVE_REPLAY_BYTE_WRITE 0xFE /* the list has a byte write to an EEPROM cartridge */
#define GBASAVE_REPLAY_NO_LIST 0xFF    /* the list has an unknown item, or it ends inside one */

/* The size in bytes of the end of the output (the two answers after the list's own), for a save memory of n bytes. */
#define GBASAVE_REPLAY_END(n) (26 + (size_t)(n))

/*
 * Opens the image with the part, plays the list, and writes its answers to the beginning of `out`. The part is a number
 * of the table at PARTS in gbasave.h; 0 is the usual one. The call returns 0 or the number of the first question to
 * which the answer is no.
 *   Asks:    1    Is the image 192 bytes to 32 MiB long?
 *            3    Does the memory have the length of the image's kind?
 *            15   Does the part have the size of the image's kind? (See gbasave.h.)
 *            FFh  Is the list valid?
 *            FEh  Does the list contain no 02, or does the cartridge have no EEPROM?
 *            13   Is the scratch at least as long as the memory?
 *            13   Is `out` at least as long as all answers and the end?
 *   Writes:  to `out`, the answers and the end. The bytes after them keep their values.
 *   Changes: memory: as the calls leave it. scratch: every byte becomes 0.
 * If it is refused it changes nothing. A status in the output refuses only its own item; the list goes on after it.
 *
 * The caller has to ensure what gbasave.h says: no pointer is NULL, except that of a buffer whose length is 0, and no
 * two objects overlap.
 */
uint32_t gbasave_replay(const uint8_t *image, size_t image_length, uint32_t part, const uint8_t *list,
                        size_t list_length, uint8_t *memory, size_t memory_length, uint8_t *scratch,
                        size_t scratch_length, uint8_t *out, size_t out_length);

#ifdef __cplusplus
}
#endif

#endif
