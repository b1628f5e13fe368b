/* Buffers to lend, each between two pages that nobody may touch. A buffer stands directly behind the one or directly
   before the other, so that a read or write past that end is a fault; on the other side octets stand beside it that
   must stay as they are. A buffer that is lent to be read stands in pages that can't be written. */
#ifndef LENT_H
#define LENT_H

#include <stddef.h>
#include <stdint.h>

enum { LENT_AREAS = 3, LENT_MOST = 48 * 4096 };
enum lent_place { LENT_BEHIND, LENT_BEFORE }; /* the page that is not to be touched */

/* Makes the areas; ends the program where it can't. */
void lent_set_up(void);

/* A copy of octets in an area, lent to be read or to be written. */
uint8_t *lend(int area, const uint8_t *octets, size_t len, enum lent_place place, int to_write);

/* The octets of an area as they are now. */
const uint8_t *lent_now(int area);

/* Whether the octets beside the buffer are as they were. */
int lent_kept_apart(int area);

#endif
