#include "areas.h"

#include <string.h>

/* Which numbers a kind's messages carry, in order: plain ones as they are, 3GPP ones with 256
 * added, 26 for another vendor's attribute. */
#define CONTEXT 257, 258, 259, 260, 261, 262, 263, 264, 265, 266, 268, 274
static const uint16_t carried[][ATTRIBUTES] = {
    /* Access-Request with PAP */
    {1, 2, 4, 6, 7, 8, 9, 30, 31, 32, 61, CONTEXT},
    /* START */
    {1, 4, 6, 7, 8, 25, 30, 31, 40, 44, 45, CONTEXT},
    /* STOP, with 3GPP 11 */
    {4, 8, 30, 31, 40, 42, 43, 44, 46, 49, CONTEXT, 267},
    /* ON and OFF: their tables list 4, 30 and 32 only; the others are permitted */
    {4, 30, 32, 40, 44, 45, 1, 6, 7, 8, 9, 25, 31, 41, 42, 43, 46, 47, 48, 49, 60, 61, 26},
    {4, 30, 32, 40, 44, 45, 1, 6, 7, 8, 9, 25, 31, 41, 42, 43, 46, 47, 48, 49, 60, 61, 26},
    /* Interim-Update */
    {4, 8, 25, 30, 31, 40, 42, 43, 44, 46, 47, CONTEXT},
    /* Access-Request with CHAP */
    {1, 3, 4, 6, 7, 8, 30, 31, 32, 60, 61, CONTEXT},
};

static uint64_t state = 1;

/* A number below a bound, the same in every run. */
static uint32_t below(uint32_t bound)
{
    state = state * 6364136223846793005u + 1442695040888963407u;
    return (uint32_t)(state >> 33) % bound;
}

static size_t text_of(uint8_t *to, const char *from, size_t count)
{
    for (size_t k = 0; k < count; k++)
        to[k] = (uint8_t)from[below((uint32_t)strlen(from))];
    return count;
}

static size_t digits(uint8_t *to, size_t count)
{
    return text_of(to, "0123456789", count);
}

static size_t hexadecimal(uint8_t *to, size_t count)
{
    return text_of(to, "0123456789ABCDEF", count);
}

static size_t letters(uint8_t *to, size_t count)
{
    return text_of(to, "abcdefghijklmnopqrstuvwxyz0123456789.-", count);
}

static size_t any_octets(uint8_t *to, size_t count)
{
    for (size_t k = 0; k < count; k++)
        to[k] = (uint8_t)below(256);
    return count;
}

/* A number in four octets. */
static size_t number(uint8_t *to, uint32_t value)
{
    for (int k = 0; k < 4; k++)
        to[k] = (uint8_t)(value >> (24 - 8 * k));
    return 4;
}

static size_t qos(uint8_t *to)
{
    int later = below(4) != 0;
    memcpy(to, later ? "99-" : "98-", 3);
    return 3 + hexadecimal(to + 3, later ? 22 : 6);
}

static size_t plain_value(uint8_t *to, uint32_t of, uint32_t kind)
{
    static const uint8_t status[7] = {0, 1, 1, 2, 7, 8, 3};
    switch (of) {
    case 1:
        return letters(to, 8 + below(6));
    case 2:
        return any_octets(to, 16);
    case 3:
        return any_octets(to, 17);
    case 6:
        return number(to, 2);
    case 7:
        return number(to, 7);
    case 25:
        return any_octets(to, 8);
    case 26:
        number(to, 9);
        return 4 + any_octets(to + 4, 80);
    case 30:
        return letters(to, 12 + below(12));
    case 31:
        return digits(to, 11 + below(4));
    case 32:
        return letters(to, 6 + below(6));
    case 40:
        return number(to, status[kind]);
    case 44:
        return hexadecimal(to, 16);
    case 45:
        return number(to, 1 + below(2));
    case 49:
        return number(to, 1 + below(18));
    case 60:
        return any_octets(to, 16);
    case 61:
        return number(to, 5);
    default: /* addresses and counters */
        return any_octets(to, 4);
    }
}

static size_t three_gpp_value(uint8_t *to, uint32_t of)
{
    switch (of) {
    case 1:
        return digits(to, 15);
    case 3:
        return number(to, 0);
    case 5:
        return qos(to);
    case 8:
    case 9:
    case 18:
        return digits(to, 5 + below(2));
    case 10:
        return hexadecimal(to, 1);
    case 11:
        to[0] = 255;
        return 1;
    case 12:
        return text_of(to, "012", 1);
    default: /* addresses and the Charging-ID */
        return any_octets(to, 4);
    }
}

static void add(area *to, uint32_t carries)
{
    uint8_t *at = to->octets + to->length;
    size_t length;
    if (carries < 256) {
        at[0] = (uint8_t)carries;
        length = 2 + plain_value(at + 2, carries, to->kind);
    } else {
        at[0] = 26;
        number(at + 2, 10415);
        at[6] = (uint8_t)carries;
        length = 8 + three_gpp_value(at + 8, carries - 256);
        at[7] = (uint8_t)(length - 6);
    }
    at[1] = (uint8_t)length;
    to->length += length;
}

area_set messages(void)
{
    static area made[MESSAGES];
    for (uint32_t k = 0; k < MESSAGES; k++) {
        area *to = &made[k];
        to->kind = 1 + k % 6;
        int chap = to->kind == 1 && k % 4 == 0;
        to->flags = chap ? 2 : to->kind == 1 ? 1 : 4;
        for (size_t n = 0; n < ATTRIBUTES; n++)
            add(to, carried[chap ? 6 : to->kind - 1][n]);
    }
    return (area_set){"messages of 23 attributes", MESSAGES, made};
}

area_set shortest_attributes(void)
{
    static area made = {.kind = 1, .length = 4076};
    for (size_t k = 0; k < 2038; k++) {
        uint8_t of = (uint8_t)(k % 255);
        made.octets[2 * k] = (uint8_t)(of < 26 ? of : of + 1);
        made.octets[2 * k + 1] = 2;
    }
    return (area_set){"2,038 attributes of 2 octets", 1, &made};
}

area_set longest_attributes(void)
{
    static area made = {.kind = 1, .length = 4064};
    for (size_t k = 0; k < 16; k++) {
        made.octets[254 * k] = 25;
        made.octets[254 * k + 1] = 254;
        any_octets(made.octets + 254 * k + 2, 252);
    }
    return (area_set){"16 attributes of 254 octets", 1, &made};
}
