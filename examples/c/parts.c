#include "parts.h"

#include "check.h"
#include "game.h"
#include "states.h"

#include <inttypes.h>
#include <stdio.h>
#include <stdlib.h>

/* A game that saves only on one chip: what a host keeps in its list of such games, and the ID word that the game knows. */
typedef struct picky_game {
    const char *title;
    const char *marker;
    uint32_t part;
    uint32_t word;
} picky_game;

static const picky_game GAMES[] = {
    {"PICKY 64K", "FLASH512_V", GBASAVE_PART_MACRONIX_64K, 0x1CC2},
    {"PICKY 128K", "FLASH1M_V", GBASAVE_PART_MACRONIX_128K, 0x09C2},
};

enum { SAVE_PLACE = 0x0E000010, SAVED = 0x5A };

/* Starts a line about a part. */
static void print_with(const char *what, uint32_t part)
{
    char text[64];
    snprintf(text, sizeof text, "%s %s", what, gbasave_part_text(part));
    printf("  %-24s ", text);
}

/* What the game does: it looks at the chip, and saves if it knows it. */
static void play(cartridge *cart, const picky_game *game)
{
    const uint32_t found = flash_id_word(cart);
    uint32_t word;
    accepted("ID word", gbasave_id_word(cart->id.part, cart->id.kind, &word));
    expect("the game reads the part's word", found == word);
    print_with("with", cart->id.part);
    if (found == game->word)
        flash_program(cart, SAVE_PLACE, SAVED);
    printf("it finds %04" PRIX32 " and %s\n", found, found == game->word ? "saves" : "does not save");
    expect("it saves or not", cartridge_take_changed(cart) == (found == game->word));
}

/* A part that does not fit: the host says why it does not open the cartridge. */
static void not_opened(const uint8_t *image, uint32_t part)
{
    cartridge cart;
    uint32_t answer = cartridge_open(&cart, image, IMAGE_LENGTH, part);
    expect("a part of another size", answer == GBASAVE_REFUSED_PART);
    print_with("with", part);
    printf("not opened, %" PRIu32 ": %s\n", answer, answer_text(answer));
}

/* A state, taken in ID mode. The word is not in it: whoever resumes it opens the cartridge with the same part. */
static void resume(const uint8_t *image, const picky_game *game, const saved_state *state)
{
    cartridge cart;
    uint32_t changed;
    accepted("opening", cartridge_open(&cart, image, IMAGE_LENGTH, state->id.part));
    accepted("resuming", cartridge_resume(&cart, state, SAVE_FILE_AS_IT_WAS, &changed));
    const uint32_t found = read_id_word(&cart);
    expect("it is in ID mode, and the chip is the same", found == game->word);
    flash_id_mode(&cart, 0);
    expect("what it saved is there", read_byte(&cart, SAVE_PLACE) == SAVED);
    printf("  resumed, same part       still in ID mode; it finds %04" PRIX32 " and what it saved\n", found);
    cartridge_close(&cart);

    accepted("opening", cartridge_open(&cart, image, IMAGE_LENGTH, GBASAVE_PART_USUAL));
    not_resumed("resumed, usual part", &cart, state, OTHER_PART);
    cartridge_close(&cart);
}

static void picky_story(const picky_game *game, uint32_t other_part)
{
    uint8_t *image = make_image(game->title, game->marker);
    cartridge cart;
    accepted("opening", cartridge_open(&cart, image, IMAGE_LENGTH, GBASAVE_PART_USUAL));
    printf("  %-24s the game looks for %04" PRIX32 "\n", kind_text(cart.id.kind), game->word);
    play(&cart, game);
    cartridge_close(&cart);

    not_opened(image, other_part);
    accepted("opening", cartridge_open(&cart, image, IMAGE_LENGTH, game->part));
    play(&cart, game);
    flash_id_mode(&cart, 1);
    saved_state state = take_state(&cart);
    cartridge_close(&cart);
    resume(image, game, &state);
    drop_state(&state);
    free(image);
}

void part_story(void)
{
    printf("Parts: games that save only on a Macronix chip\n");
    picky_story(&GAMES[0], GAMES[1].part);
    picky_story(&GAMES[1], GAMES[0].part);
}
