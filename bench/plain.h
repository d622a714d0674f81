/* What bench/plain.c has: a soundness test, and linear hashing of a key's digit sum. */
#ifndef PLAIN_H
#define PLAIN_H

#include "lhrs.h"

/* Whether a block of bytes holds a sound store. */
int plain_sound(const uint8_t *store, size_t len);

/* The data unit of a key among so many units. */
uint32_t plain_unit(uint32_t units, uint32_t key);

#endif
