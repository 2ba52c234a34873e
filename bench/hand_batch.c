/* A batch (the format stands in second/README.md) answered by the hand-written code: what
 * gir_batch is measured against. Payloads are read where they stand in the input buffer, answers
 * are spelt right into the output buffer; that is written out where it is full, and before
 * anything is waited for. */
#include "hand.h"

#include <errno.h>
#include <stdbool.h>
#include <stdio.h>
#include <string.h>
#include <unistd.h>

enum {
    HEAD = 9,
    MOST_KEPT = 1 << 20, /* octets of a payload that are kept */
    AT_ONCE = 1 << 16,   /* octets that are asked for at once */
    SHEET_ROOM = GIR_SHEET_ROOM(GIR_LONGEST_AREA),
    LONGEST_LINE = 9 * GIR_LIST_ROOM + 64,
    OUTPUT = 1 << 18
};

static uint8_t input[HEAD + MOST_KEPT + AT_ONCE];
static size_t start, end;
static char output[OUTPUT];
static size_t used;

static bool failed(const char *what)
{
    perror(what);
    return false;
}

static bool write_out(void)
{
    for (size_t done = 0; done < used;) {
        ssize_t took = write(STDOUT_FILENO, output + done, used - done);
        if (took < 0 && errno != EINTR)
            return failed("hand_batch: standard output");
        done += took < 0 ? 0 : (size_t)took;
    }
    used = 0;
    return true;
}

/* Reads until so many octets stand in the input buffer, or its end is reached. */
static bool need(size_t count)
{
    if (end - start >= count)
        return true;
    memmove(input, input + start, end - start);
    end -= start;
    start = 0;
    while (end < count) {
        size_t most = count - end > AT_ONCE ? count - end : AT_ONCE;
        if (!write_out())
            return false;
        ssize_t got = read(STDIN_FILENO, input + end, most);
        if (got < 0 && errno == EINTR)
            continue;
        if (got < 0)
            return failed("hand_batch: standard input");
        if (got == 0)
            return false;
        end += (size_t)got;
    }
    return true;
}

/* Passes over octets of the input. */
static bool skip(size_t count)
{
    while (count > 0) {
        size_t part = count < AT_ONCE ? count : AT_ONCE;
        if (!need(part))
            return false;
        start += part;
        count -= part;
    }
    return true;
}

static uint32_t load32(const uint8_t *from)
{
    return (uint32_t)from[0] << 24 | (uint32_t)from[1] << 16 | (uint32_t)from[2] << 8 | from[3];
}

/* A digit of each half of an octet: plain arithmetic, which the compiler does on many octets at
 * once. */
static void put_hex(const uint8_t *restrict from, size_t count)
{
    char *restrict to = output + used;
    for (size_t k = 0; k < count; k++) {
        uint8_t high = from[k] >> 4, low = from[k] & 15;
        to[2 * k] = (char)(high + (high > 9 ? 'A' - 10 : '0'));
        to[2 * k + 1] = (char)(low + (low > 9 ? 'A' - 10 : '0'));
    }
    used += 2 * count;
}

static void put_decimal(uint64_t value)
{
    char digits[20];
    size_t from = sizeof digits;
    do
        digits[--from] = (char)('0' + value % 10);
    while (value /= 10);
    memcpy(output + used, digits + from, sizeof digits - from);
    used += sizeof digits - from;
}

static void put_text(const char *text)
{
    size_t length = strlen(text);
    memcpy(output + used, text, length);
    used += length;
}

static void put_char(char one)
{
    output[used++] = one;
}

static void put_list(const uint32_t *list, size_t count)
{
    static const char digits[] = "0123456789ABCDEF";
    for (size_t k = 0; k < count; k++) {
        if (k > 0)
            put_char(' ');
        for (int shift = 28; shift >= 0; shift -= 4)
            put_char(digits[list[k] >> shift & 15]);
    }
}

/* The line of a refusal of a payload of so many octets, of which only a part may be kept. */
static void put_refusal(const gir_answer *said, size_t length)
{
    put_text("refused ");
    put_decimal(said->number);
    put_char(' ');
    put_decimal(said->number == GIR_AREA_TOO_LONG ? length - 2 : said->second);
}

static size_t least(size_t a, size_t b)
{
    return a < b ? a : b;
}

static void put_reading(const uint8_t *payload, size_t kept, size_t length, size_t room)
{
    static uint8_t sheet[SHEET_ROOM];
    gir_answer said = hand_read(payload + 2, kept - 2, payload[0], payload[1], sheet,
                                least(room, sizeof sheet));
    if (said.refused)
        put_refusal(&said, length);
    else
        put_hex(sheet, said.length);
}

static void put_checking(const uint8_t *payload, size_t kept, size_t length, size_t room)
{
    static uint32_t list[GIR_LIST_ROOM];
    gir_answer said = hand_check(payload + 2, kept - 2, payload[0], payload[1], list,
                                 least(room, GIR_LIST_ROOM));
    if (said.refused)
        put_refusal(&said, length);
    else
        put_list(list, said.length);
}

static void put_writing(const uint8_t *sheet, size_t length, size_t room)
{
    static uint8_t area[GIR_LONGEST_AREA];
    gir_answer said = hand_write(sheet, length, area, least(room, sizeof area));
    if (said.refused) {
        put_refusal(&said, length);
        return;
    }
    put_decimal(said.kind);
    put_char(' ');
    put_decimal(said.flags);
    put_char(' ');
    put_hex(area, said.length);
}

static void put_answer(int job, const uint8_t *payload, size_t kept, size_t length, size_t room)
{
    if (job == 'W' && kept < length)
        put_text("over 1048576 octets, not judged");
    else if (job == 'W')
        put_writing(payload, length, room);
    else if (length < 2)
        put_text("short");
    else if (job == 'R')
        put_reading(payload, kept, length, room);
    else
        put_checking(payload, kept, length, room);
    put_char('\n');
}

/* Whether a record has begun that is not answered yet. */
static bool begun;

/* Answers one record; false where there is none, or it is not all there, or its job is none. */
static bool answer(void)
{
    begun = need(1);
    if (!need(HEAD))
        return false;
    int job = input[start];
    size_t room = load32(input + start + 1), length = load32(input + start + 5);
    size_t kept = least(length, MOST_KEPT);
    if ((job != 'R' && job != 'C' && job != 'W') || !need(HEAD + kept))
        return false;
    const uint8_t *payload = input + start + HEAD;
    start += HEAD + kept;
    if (kept < length) {
        static uint8_t first[MOST_KEPT];
        payload = memcpy(first, payload, kept);
        if (!skip(length - kept))
            return false;
    }
    put_answer(job, payload, kept, length, room);
    begun = false;
    return true;
}

int main(void)
{
    uint64_t number = 0;
    for (; answer(); number++)
        if (used > OUTPUT - LONGEST_LINE && !write_out())
            return 2;
    if (begun) {
        put_text("broken ");
        put_decimal(number);
        put_char('\n');
    }
    return write_out() ? 0 : 2;
}
