/* The areas that are measured: realistic messages of the six kinds, and two extremes. */
#ifndef AREAS_H
#define AREAS_H

#include <stddef.h>
#include <stdint.h>

enum { MESSAGES = 96, ATTRIBUTES = 23 };

typedef struct area {
    uint32_t kind, flags;
    size_t length;
    uint8_t octets[4076];
} area;

typedef struct area_set {
    const char *name;
    size_t count;
    area *areas;
} area_set;

/* 96 different messages of 23 attributes and about 280 octets, 16 of each kind, that break no
 * rule. */
area_set messages(void);

/* One area of 2,038 attributes of two octets, all plain numbers but 26 in turn. */
area_set shortest_attributes(void);

/* One area of 16 attributes of 254 octets. */
area_set longest_attributes(void);

#endif
