/* Games that save only on one maker's flash chip. */
#ifndef PARTS_H
#define PARTS_H

void part_story(void);

#endif
