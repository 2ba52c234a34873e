/* Answers a batch (the format stands in second/README.md) by the entries of include/gir.h, so
 * that they can be compared with the second program; -Dgir_read=hand_read and so on compares
 * the hand-written ones. Each input is copied to a block of its own length, so that a checking
 * compiler sees any step outside. A buffer that changes where it must not ends the run. */
#include "hand.h"

#include <stdio.h>
#include <stdlib.h>
#include <string.h>

/* Octets of the buffer: more than any answer needs, so that greater rooms are cut to it. */
enum { BUFFER = 32768, FILL = 0xA5 };

static uint32_t buffer[BUFFER / 4];

static uint32_t load32(const uint8_t *from)
{
    return (uint32_t)from[0] << 24 | (uint32_t)from[1] << 16 | (uint32_t)from[2] << 8 | from[3];
}

static void fail(unsigned long record, const char *what)
{
    fflush(stdout);
    fprintf(stderr, "record %lu: %s\n", record, what);
    exit(1);
}

static void print_octets(const uint8_t *octets, size_t count)
{
    static const char upper[] = "0123456789ABCDEF";
    for (size_t k = 0; k < count; k++) {
        putchar(upper[octets[k] >> 4]);
        putchar(upper[octets[k] & 15]);
    }
}

static gir_answer answer(int job, const uint8_t *payload, size_t length, size_t room)
{
    uint8_t *octets = (uint8_t *)buffer;
    if (job == 'W')
        return gir_write(payload, length, octets, room);
    if (job == 'R')
        return gir_read(payload + 2, length - 2, payload[0], payload[1], octets, room);
    return gir_check(payload + 2, length - 2, payload[0], payload[1], buffer, room);
}

static void print_answer(int job, const gir_answer *said)
{
    if (said->refused) {
        printf("refused %u %llu", said->number, (unsigned long long)said->second);
    } else if (job == 'C') {
        for (size_t k = 0; k < said->length; k++)
            printf(k ? " %08X" : "%08X", buffer[k]);
    } else {
        if (job == 'W')
            printf("%u %u ", said->kind, said->flags);
        print_octets((const uint8_t *)buffer, said->length);
    }
    putchar('\n');
}

/* Whether the answer's numbers are as the header says, and the buffer is as it was after the
 * octets written. */
static const char *fault(int job, const gir_answer *said, size_t room)
{
    size_t size = job == 'C' ? 4 : 1;
    size_t written = said->refused ? 0 : said->length * size;
    const uint8_t *octets = (const uint8_t *)buffer;
    if (said->refused > 1 || said->length > room)
        return "an answer out of range";
    if (said->refused ? said->length || said->kind || said->flags : said->number || said->second)
        return "a number that should be 0";
    if (job != 'W' && (said->kind || said->flags))
        return "a kind or flags that should be 0";
    for (size_t k = written; k < BUFFER; k++)
        if (octets[k] != FILL)
            return "the buffer is changed outside the answer";
    return NULL;
}

int main(void)
{
    uint8_t head[9];
    for (unsigned long record = 0; fread(head, 1, 9, stdin) == 9; record++) {
        int job = head[0];
        size_t room = load32(head + 1), length = load32(head + 5), most = BUFFER - 64;
        uint8_t *payload = malloc(length ? length : 1);
        if (!payload || fread(payload, 1, length, stdin) != length)
            fail(record, "the batch is cut off");
        if (job != 'W' && length < 2) {
            puts("short");
        } else {
            if (job == 'C')
                most /= 4;
            room = room < most ? room : most;
            memset(buffer, FILL, BUFFER);
            gir_answer said = answer(job, payload, length, room);
            print_answer(job, &said);
            const char *wrong = fault(job, &said, room);
            if (wrong)
                fail(record, wrong);
        }
        free(payload);
    }
    return 0;
}
