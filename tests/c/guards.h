/* Random guards, sound and damaged, the same for the same seed. */
#ifndef GUARDS_H
#define GUARDS_H

#include <stddef.h>
#include <stdint.h>

enum { MOST_MADE = 12288 };

extern uint64_t seed;

/* The text that was made last. */
extern uint8_t text[MOST_MADE];
extern size_t len;

unsigned draw(unsigned below);

/* A guard of at most so many flags (1 to 24) with that many two-sided signs. */
void random_text(unsigned flags, unsigned signs);

/* One to three bytes changed, taken out or put in. */
void damage(void);

#endif
