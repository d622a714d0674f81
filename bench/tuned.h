/* What bench/tuned.c has: a soundness test written for speed. */
#ifndef TUNED_H
#define TUNED_H

#include "lhrs.h"

/* Whether a block of bytes holds a sound store. */
int tuned_sound(const uint8_t *store, size_t len);

#endif
