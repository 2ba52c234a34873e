/* Holds two implementations of the three jobs against each other. */
#ifndef SAME_H
#define SAME_H

#include "../include/gir.h"
#include "areas.h"

/* One implementation. */
typedef struct desk {
    const char *name;
    gir_answer (*read)(const uint8_t *, size_t, uint32_t, uint32_t, uint8_t *, size_t);
    gir_answer (*check)(const uint8_t *, size_t, uint32_t, uint32_t, uint32_t *, size_t);
    gir_answer (*write)(const uint8_t *, size_t, uint8_t *, size_t);
} desk;

/* Asks both the three jobs of the area, with each kind and flags, ample and small rooms, and
 * damaged sheets; answers and whole buffers must be the same. How many questions were asked,
 * or 0 where an answer differs, which is then said. */
unsigned long same_answers(const desk *one, const desk *other, const area *of);

#endif
