#include "same.h"

#include <stdio.h>
#include <string.h>

enum { ROOM = 32768, FILL = 0x5A };

static uint32_t first[ROOM / 4], second[ROOM / 4];

static int same_fields(const gir_answer *x, const gir_answer *y)
{
    return x->refused == y->refused && x->number == y->number && x->second == y->second &&
           x->length == y->length && x->kind == y->kind && x->flags == y->flags;
}

static void clear(void)
{
    memset(first, FILL, ROOM);
    memset(second, FILL, ROOM);
}

/* Whether both answered alike and left the same buffer; else says for which job. */
static int same(const char *job, const gir_answer *x, const gir_answer *y)
{
    if (same_fields(x, y) && memcmp(first, second, ROOM) == 0)
        return 1;
    fprintf(stderr, "%s: refused %u, %u %llu against refused %u, %u %llu; lengths %llu, %llu\n",
            job, x->refused, x->number, (unsigned long long)x->second, y->refused, y->number,
            (unsigned long long)y->second, (unsigned long long)x->length,
            (unsigned long long)y->length);
    return 0;
}

static int same_read(const desk *one, const desk *other, const area *of, uint32_t kind,
                     uint32_t flags, size_t room)
{
    clear();
    gir_answer x = one->read(of->octets, of->length, kind, flags, (uint8_t *)first, room);
    gir_answer y = other->read(of->octets, of->length, kind, flags, (uint8_t *)second, room);
    return same("read", &x, &y);
}

static int same_check(const desk *one, const desk *other, const area *of, uint32_t kind,
                      uint32_t flags, size_t room)
{
    clear();
    gir_answer x = one->check(of->octets, of->length, kind, flags, first, room);
    gir_answer y = other->check(of->octets, of->length, kind, flags, second, room);
    return same("check", &x, &y);
}

static int same_write(const desk *one, const desk *other, const uint8_t *sheet, size_t length,
                      size_t room)
{
    clear();
    gir_answer x = one->write(sheet, length, (uint8_t *)first, room);
    gir_answer y = other->write(sheet, length, (uint8_t *)second, room);
    return same("write", &x, &y);
}

/* The sheet as it is and with small rooms, cut at places and with octets changed. */
static unsigned long same_sheets(const desk *one, const desk *other, const area *of)
{
    static uint8_t sheet[GIR_SHEET_ROOM(GIR_LONGEST_AREA)];
    size_t length =
        one->read(of->octets, of->length, of->kind, of->flags, sheet, sizeof sheet).length;
    const size_t rooms[] = {ROOM, of->length, of->length - 1, 0};
    unsigned long asked = 0;
    for (size_t k = 0; k < sizeof rooms / sizeof *rooms; k++, asked++)
        if (!same_write(one, other, sheet, length, rooms[k]))
            return 0;
    size_t step = 1 + length / 512;
    for (size_t place = 0; place < length; place += step, asked += 2) {
        sheet[place]++;
        int alike = same_write(one, other, sheet, length, ROOM);
        sheet[place]--;
        if (!alike || !same_write(one, other, sheet, place, ROOM))
            return 0;
    }
    return asked;
}

unsigned long same_answers(const desk *one, const desk *other, const area *of)
{
    const size_t rooms[] = {ROOM / 4, 9 + of->length, of->length, 2, 0};
    unsigned long asked = 0;
    for (uint32_t kind = 0; kind <= 7; kind++)
        for (uint32_t flags = 0; flags <= 8; flags++)
            for (size_t k = 0; k < sizeof rooms / sizeof *rooms; k++, asked += 2)
                if (!same_read(one, other, of, kind, flags, rooms[k]) ||
                    !same_check(one, other, of, kind, flags, rooms[k]))
                    return 0;
    unsigned long sheets = same_sheets(one, other, of);
    return sheets ? asked + sheets : 0;
}
