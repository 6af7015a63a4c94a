#include "pieces.h"

#include "check.h"

#include <inttypes.h>
#include <stdio.h>
#include <stdlib.h>
#include <string.h>

enum { BLOCK = 512 };

/* ---- Reading a card ------------------------------------------------------------------------------------------------- */

/* An image on a card, which is read from the front, block by block. */
typedef struct card {
    const uint8_t *image;
    size_t length;
    size_t read; /* how many bytes the host has read */
} card;

/* All that the host holds of the image. */
typedef struct reader {
    uint8_t block[BLOCK];
    size_t block_length;
    uint8_t header[GBASAVE_HEADER_SIZE];
    size_t header_length;
} reader;

/* Reads the next block, and keeps the header from the first one. Returns false at the image's end. */
static bool next_block(card *c, reader *r)
{
    const bool first = c->read == 0;
    const size_t rest = c->length - c->read;
    r->block_length = rest < BLOCK ? rest : BLOCK;
    memcpy(r->block, c->image + c->read, r->block_length);
    c->read += r->block_length;
    if (first) {
        r->header_length = r->block_length < sizeof r->header ? r->block_length : sizeof r->header;
        memcpy(r->header, r->block, r->header_length);
    }
    return r->block_length > 0;
}

/* The kind alone: the host stops reading when the matcher needs no more blocks. */
static uint32_t kind_in_blocks(card *c)
{
    reader r;
    gbasave_matcher matcher;
    uint32_t done = 0, kind;
    accepted("matcher, start", gbasave_matcher_start(&matcher));
    while (!done && next_block(c, &r))
        accepted("matcher, block", gbasave_matcher_feed(&matcher, r.block, r.block_length, &done));
    accepted("matcher, finish", gbasave_matcher_finish(&matcher, r.header, r.header_length, c->length, &kind));
    return kind;
}

/* The CRC needs every block. */
identity identify_in_blocks(const uint8_t *image, size_t length)
{
    card c = {image, length, 0};
    reader r;
    gbasave_matcher matcher;
    uint32_t done;
    identity id = {.image_length = (uint32_t)length, .part = GBASAVE_PART_USUAL};
    accepted("matcher, start", gbasave_matcher_start(&matcher));
    accepted("CRC, start", gbasave_crc_start(&id.image_crc));
    while (next_block(&c, &r)) {
        accepted("matcher, block", gbasave_matcher_feed(&matcher, r.block, r.block_length, &done));
        accepted("CRC, block", gbasave_crc_feed(&id.image_crc, r.block, r.block_length));
    }
    accepted("CRC, finish", gbasave_crc_finish(&id.image_crc));
    accepted("matcher, finish", gbasave_matcher_finish(&matcher, r.header, r.header_length, length, &id.kind));
    return id;
}

/* ---- Images --------------------------------------------------------------------------------------------------------- */

enum { LENGTH = 4000, BLOCKS = 8, CODE_PLACE = 0xAC, TITLE_PLACE = 0xA0 };

/* An image with one or two texts in it. A | in the name is where the second block ends and the third begins. */
typedef struct story {
    const char *what;
    size_t place;
    const char *text;
    size_t other_place;
    const char *other_text;
    uint32_t kind;
    uint32_t handed; /* how many bytes the search of the whole image hands over */
} story;

static const story STORIES[] = {
    {"SRAM_V", 600, "SRAM_V", 0, "", GBASAVE_KIND_SRAM, 606},
    {"SRA|M_V", 2 * BLOCK - 3, "SRAM_V", 0, "", GBASAVE_KIND_SRAM, 2 * BLOCK + 3},
    {"SRAM_|V", 2 * BLOCK - 5, "SRAM_V", 0, "", GBASAVE_KIND_SRAM, 2 * BLOCK + 1},
    {"FLAS|H512_V", 2 * BLOCK - 4, "FLASH512_V", 0, "", GBASAVE_KIND_FLASH64, LENGTH},
    {"FLASH1M_|V", 2 * BLOCK - 8, "FLASH1M_V", 0, "", GBASAVE_KIND_FLASH128, LENGTH},
    {"FLASRAM_V", 600, "FLASRAM_V", 0, "", GBASAVE_KIND_SRAM, 609},
    {"EEPROM_V at the end", LENGTH - 8, "EEPROM_V", 0, "", GBASAVE_KIND_EEPROM512, LENGTH},
    {"EEPROM_V, then SRAM_V", 600, "EEPROM_V", 3000, "SRAM_V", GBASAVE_KIND_SRAM, 3006},
    {"GB4E, then SRAM_V", CODE_PLACE, "GB4E", 600, "SRAM_V", GBASAVE_KIND_FLASH128, 0},
    {"POKEMON RUBY, no marker", TITLE_PLACE, "POKEMON RUBY", 0, "", GBASAVE_KIND_FLASH128, LENGTH},
    {"no marker", 0, "", 0, "", GBASAVE_KIND_NONE, LENGTH},
};

/* The caller frees it. */
static uint8_t *image_of(const story *s)
{
    uint8_t *image = allocate(LENGTH);
    memset(image, 0, LENGTH);
    memcpy(image + s->place, s->text, strlen(s->text));
    memcpy(image + s->other_place, s->other_text, strlen(s->other_text));
    return image;
}

/* Prints what the blocks and the whole image give, and checks it. */
static void compare_kinds(const story *s)
{
    uint8_t *image = image_of(s);
    card c = {image, LENGTH, 0};
    uint32_t whole, handed;
    const uint32_t in_blocks = kind_in_blocks(&c);
    accepted("search", gbasave_search(image, LENGTH, &whole, &handed));
    printf("  %-24s %zu of %d blocks: %s; the whole image, %" PRIu32 " bytes handed over: %s\n", s->what,
           (c.read + BLOCK - 1) / BLOCK, BLOCKS, kind_text(in_blocks), handed, kind_text(whole));
    expect("the kind of the blocks", in_blocks == s->kind);
    expect("the kind of the whole image", whole == s->kind && handed == s->handed);
    free(image);
}

static void compare_crcs(const story *s)
{
    uint8_t *image = image_of(s);
    uint32_t crc, kind;
    const identity id = identify_in_blocks(image, LENGTH);
    accepted("CRC", gbasave_rom_crc(image, LENGTH, &crc));
    accepted("kind", gbasave_detect_save_type(image, LENGTH, &kind));
    printf("  %-24s %d of %d blocks: %s, CRC %08" PRIX32 "; the whole image: %s, CRC %08" PRIX32 "\n", "CRC and kind", BLOCKS,
           BLOCKS, kind_text(id.kind), id.image_crc, kind_text(kind), crc);
    expect("kind and CRC are the same", id.kind == kind && id.image_crc == crc);
    free(image);
}

/* ---- The matcher's bytes -------------------------------------------------------------------------------------------- */

enum { LAST_BYTES = 4 /* the last nine bytes fed begin here */ };

/* A matcher may be stored between two blocks, as by a host that is switched off, and taken up again. */
static void store_matcher(const story *s)
{
    uint8_t *image = image_of(s), stored[GBASAVE_MATCHER_SIZE];
    gbasave_matcher matcher, again;
    uint32_t done, kind;
    accepted("matcher, start", gbasave_matcher_start(&matcher));
    accepted("matcher, two blocks", gbasave_matcher_feed(&matcher, image, 2 * BLOCK, &done));
    expect("no marker is complete", !done);
    memcpy(stored, matcher.bytes, sizeof stored);

    memcpy(again.bytes, stored, sizeof stored);
    accepted("matcher, block", gbasave_matcher_feed(&again, image + 2 * BLOCK, BLOCK, &done));
    expect("SRAM_V is complete", done);
    accepted("matcher, finish", gbasave_matcher_finish(&again, image, GBASAVE_HEADER_SIZE, LENGTH, &kind));
    printf("  %-24s stored with the last bytes, newest first, %.5s; taken up again: %s\n", s->what,
           (char *)stored + LAST_BYTES, kind_text(kind));
    expect("the kind", kind == s->kind);
    free(image);
}

/* 13 bytes that are not a matcher are refused, and nothing changes. */
static void refuse_matcher(void)
{
    const uint32_t untouched = 0xA5A5A5A5;
    uint8_t header[GBASAVE_HEADER_SIZE] = {0};
    gbasave_matcher foreign, before;
    uint32_t done = untouched, kind = untouched;
    memset(&foreign, 0xEE, sizeof foreign);
    before = foreign;
    const uint32_t answer = gbasave_matcher_feed(&foreign, (const uint8_t *)"SRAM_V", 6, &done);
    printf("  %-24s refused, %" PRIu32 ": %s\n", "13 foreign bytes", answer, gbasave_refusal_text(answer));
    expect("a block for foreign bytes", answer == GBASAVE_REFUSED_RECORD);
    expect("the kind of foreign bytes",
           gbasave_matcher_finish(&foreign, header, sizeof header, LENGTH, &kind) == GBASAVE_REFUSED_RECORD);
    expect("the lengths are asked about first",
           gbasave_matcher_finish(&foreign, header, sizeof header - 1, LENGTH, &kind) == GBASAVE_REFUSED_IMAGE_LENGTH &&
               gbasave_matcher_finish(&foreign, header, sizeof header, GBASAVE_IMAGE_MAX + 1, &kind) ==
                   GBASAVE_REFUSED_IMAGE_LENGTH);
    expect("a refused call writes no value", done == untouched && kind == untouched);
    same("a refused call does not change the matcher", foreign.bytes, before.bytes, sizeof foreign.bytes);
    accepted("matcher, start", gbasave_matcher_start(&foreign));
    accepted("matcher, block", gbasave_matcher_feed(&foreign, (const uint8_t *)"SRAM_V", 6, &done));
    expect("a start makes a matcher of any bytes", done == 1);
}

void piece_story(void)
{
    printf("Images on a card, read in blocks of %d bytes; a block ends at |\n", BLOCK);
    for (size_t i = 0; i < sizeof STORIES / sizeof *STORIES; i++)
        compare_kinds(&STORIES[i]);
    compare_crcs(&STORIES[0]);
    store_matcher(&STORIES[2]);
    refuse_matcher();
}
