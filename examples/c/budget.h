/* How many bytes a store changed, and a host that writes the file out when enough of them have. */
#ifndef BUDGET_H
#define BUDGET_H

void budget_story(void);

#endif
