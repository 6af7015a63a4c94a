/* Where a state can be resumed, whether its file is then written out, and states of an older host. */
#ifndef STATES_H
#define STATES_H

#include "cartridge.h"

void state_story(void);

/* Checks that two states of one cartridge have the same file, chip and changed flag. */
void same_states(const saved_state *a, const saved_state *b);

/* Tries to resume a state that this cartridge must not take, and checks that it is refused with this number. */
void not_resumed(const char *what, cartridge *cart, const saved_state *state, uint32_t number);

#endif
