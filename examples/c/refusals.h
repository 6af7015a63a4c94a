/* Every refusal once, and buffers of length 0. */
#ifndef REFUSALS_H
#define REFUSALS_H

void refusals(void);
void empty_slices(void);

#endif
