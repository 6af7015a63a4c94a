/* Kind and CRC of an image that is read from a card in blocks, without holding it. */
#ifndef PIECES_H
#define PIECES_H

#include "cartridge.h"

/* What tells the image's cartridge from others, with the usual part: read in blocks of 512 bytes, all of them. */
identity identify_in_blocks(const uint8_t *image, size_t length);

void piece_story(void);

#endif
