/* A save menu that shows which cartridges are empty, without a reading of their memories. */
#ifndef MENU_H
#define MENU_H

void menu_story(void);

#endif
