/* Read, check and write as docs/BOOK.md sets them out, written by hand for speed. Each job is
 * one pass over its input: the answer is made in a buffer on the stack, which is great enough
 * for any, and goes to the caller's buffer only once nothing can be refused any more. */
#include "hand.h"

#include <stdbool.h>
#include <string.h>

enum {
    LONGEST = GIR_LONGEST_AREA,
    SHEET_HEAD = 9,
    VENDOR = 26,
    THREE_GPP = 10415,
    SLACK = 512, /* octets after a stack buffer's end that may be overwritten freely */
};

/* What a value must be to meet its number's shape. */
enum shape {
    FREE,     /* no shape */
    NUMBER,   /* four octets, form 2 */
    ADDRESS,  /* four octets, form 3 */
    DIGITS,   /* 1 to 15 digits, form 4 */
    NETWORK,  /* 5 or 6 digits, form 4 */
    SESSION,  /* 16 hexadecimal digits, form 5 */
    QOS,      /* "98-" and 6 hexadecimal digits or "99-" and 22, form 6 */
    NSAPI,    /* one hexadecimal digit, form 7 */
    STOP,     /* one octet, form 7 */
    MODE,     /* one decimal digit, form 7 */
    SOME,     /* at least one octet; this and what follows is form 0 */
    PASSWORD, /* 16 to 128 octets, a multiple of 16 */
    CHAP,     /* 17 octets */
    CHALLENGE /* at least 5 octets */
};

/* Which values are allowed, where the shape holds. */
enum { ANY, RANGE, STATUS };

/* Kinds in which a number is not permitted, a bit each; and one that depends on flag 4. */
enum { ACCOUNTING = 0x7C, ON_OFF = 0x30, NOT_STOP = 0x76, NO_CLASS = 0x80, USAGE = 0x4C };

struct number {
    uint8_t shape, allowed, low, high, once, barred;
};

/* Plain numbers at 0 to 255, 3GPP numbers at 256 to 511. */
static const struct number numbers[512] = {
    [1] = {SOME, ANY, 0, 0, 1, 0},
    [2] = {PASSWORD, ANY, 0, 0, 1, ACCOUNTING},
    [3] = {CHAP, ANY, 0, 0, 1, ACCOUNTING},
    [4] = {ADDRESS, ANY, 0, 0, 1, 0},
    [6] = {NUMBER, RANGE, 2, 2, 1, 0},
    [7] = {NUMBER, RANGE, 7, 7, 1, 0},
    [8] = {ADDRESS, ANY, 0, 0, 1, 0},
    [9] = {ADDRESS, ANY, 0, 0, 1, 0},
    [18] = {SOME, ANY, 0, 0, 0, ACCOUNTING},
    [24] = {SOME, ANY, 0, 0, 0, ACCOUNTING},
    [25] = {SOME, ANY, 0, 0, 0, NO_CLASS},
    [30] = {SOME, ANY, 0, 0, 1, 0},
    [31] = {DIGITS, ANY, 0, 0, 1, 0},
    [32] = {SOME, ANY, 0, 0, 1, 0},
    [40] = {NUMBER, STATUS, 0, 0, 1, 0},
    [41] = {NUMBER, ANY, 0, 0, 1, 0},
    [42] = {NUMBER, ANY, 0, 0, 1, 0},
    [43] = {NUMBER, ANY, 0, 0, 1, 0},
    [44] = {SESSION, ANY, 0, 0, 1, 0},
    [45] = {NUMBER, RANGE, 1, 2, 1, 0},
    [46] = {NUMBER, ANY, 0, 0, 1, 0},
    [47] = {NUMBER, ANY, 0, 0, 1, 0},
    [48] = {NUMBER, ANY, 0, 0, 1, 0},
    [49] = {NUMBER, RANGE, 1, 18, 1, 0},
    [60] = {CHALLENGE, ANY, 0, 0, 1, 0},
    [61] = {NUMBER, ANY, 0, 0, 1, 0},
    [256 + 1] = {DIGITS, ANY, 0, 0, 1, ON_OFF},
    [256 + 2] = {NUMBER, ANY, 0, 0, 1, ON_OFF},
    [256 + 3] = {NUMBER, RANGE, 0, 0, 1, ON_OFF},
    [256 + 4] = {ADDRESS, ANY, 0, 0, 1, ON_OFF},
    [256 + 5] = {QOS, ANY, 0, 0, 1, ON_OFF},
    [256 + 6] = {ADDRESS, ANY, 0, 0, 1, ON_OFF},
    [256 + 7] = {ADDRESS, ANY, 0, 0, 1, ON_OFF},
    [256 + 8] = {NETWORK, ANY, 0, 0, 1, ON_OFF},
    [256 + 9] = {NETWORK, ANY, 0, 0, 1, ON_OFF},
    [256 + 10] = {NSAPI, ANY, 0, 0, 1, ON_OFF},
    [256 + 11] = {STOP, RANGE, 255, 255, 1, NOT_STOP},
    [256 + 12] = {MODE, RANGE, '0', '2', 1, ON_OFF},
    [256 + 18] = {NETWORK, ANY, 0, 0, 1, ON_OFF},
};

/* 16 and more where an octet is no upper-case hexadecimal digit. */
#define BAD8 16, 16, 16, 16, 16, 16, 16, 16
#define BAD16 BAD8, BAD8
#define BAD64 BAD16, BAD16, BAD16, BAD16
static const uint8_t nibble[256] = {
    BAD16, BAD16, BAD16, 0, 1, 2, 3, 4, 5, 6, 7, 8, 9, 16, 16, 16, 16, 16, 16,
    16, 10, 11, 12, 13, 14, 15, 16, BAD8, BAD16, BAD16, BAD16, BAD64, BAD64,
};
static const char upper[16] = "0123456789ABCDEF";

static inline uint8_t shape_of(uint32_t number)
{
    return numbers[number].shape;
}

static inline uint8_t half_of(uint8_t digit)
{
    return nibble[digit];
}

static inline uint8_t digit_of(uint8_t half)
{
    return (uint8_t)upper[half];
}

/* Copies to a stack buffer, where up to 15 octets after the copy may change as well. */
static inline void copy_value(uint8_t *to, const uint8_t *from, size_t count, const uint8_t *end)
{
    if (count <= 16 && end - from >= 16)
        memcpy(to, from, 16);
    else
        memcpy(to, from, count);
}

/* Packs digits two to an octet; false where one is none. */
static inline bool pack_digits(uint8_t *to, const uint8_t *text, size_t count)
{
    size_t k = 0;
    for (; k + 1 < count; k += 2) {
        uint8_t high = text[k] - '0', low = text[k + 1] - '0';
        if (high > 9 || low > 9)
            return false;
        *to++ = (uint8_t)(high << 4 | low);
    }
    if (k < count) {
        uint8_t high = text[k] - '0';
        if (high > 9)
            return false;
        *to = (uint8_t)(high << 4 | 15);
    }
    return true;
}

static gir_answer refusal(uint32_t number, uint64_t second)
{
    return (gir_answer){.refused = 1, .number = number, .second = second};
}

static inline uint32_t load32(const uint8_t *from)
{
    return (uint32_t)from[0] << 24 | (uint32_t)from[1] << 16 | (uint32_t)from[2] << 8 | from[3];
}

static inline bool are_flags(uint32_t flags)
{
    return flags <= 6 && flags != 3;
}

static inline bool is_kind(uint32_t kind)
{
    return kind - 1 < 6;
}

/* The first of refusals 1 to 3, or 0. */
static inline uint32_t at_once(uint32_t kind, uint32_t flags, size_t area_len)
{
    return !is_kind(kind) ? 1 : !are_flags(flags) ? 2 : area_len > LONGEST ? 3 : 0;
}

/* ---- texts ---- */

/* Unpacks digits; false where a half is none, or the odd last one is not 15. */
static inline bool unpack_digits(uint8_t *to, const uint8_t *stored, size_t count)
{
    for (size_t k = 0; k < count / 2; k++) {
        uint8_t high = stored[k] >> 4, low = stored[k] & 15;
        if (high > 9 || low > 9)
            return false;
        *to++ = '0' + high;
        *to++ = '0' + low;
    }
    if (count % 2) {
        uint8_t last = stored[count / 2];
        *to = '0' + (last >> 4);
        return last >> 4 <= 9 && (last & 15) == 15;
    }
    return true;
}

static inline bool are_digits(const uint8_t *text, size_t count)
{
    size_t k = 0;
    for (; k + 1 < count; k += 2)
        if ((uint8_t)(text[k] - '0') > 9 || (uint8_t)(text[k + 1] - '0') > 9)
            return false;
    return k == count || (uint8_t)(text[k] - '0') <= 9;
}

static inline bool are_hexadecimal(const uint8_t *text, size_t count)
{
    uint8_t bad = 0;
    for (size_t k = 0; k < count; k++)
        bad |= half_of(text[k]);
    return bad < 16;
}

/* Turns hexadecimal text, two digits an octet, into so many octets; false where a digit is
 * none. */
static inline bool pack_hexadecimal(uint8_t *to, const uint8_t *text, size_t octets)
{
    uint8_t bad = 0;
    for (size_t k = 0; k < octets; k++) {
        uint8_t high = half_of(text[2 * k]), low = half_of(text[2 * k + 1]);
        bad |= high | low;
        to[k] = (uint8_t)(high << 4 | low);
    }
    return bad < 16;
}

static inline void unpack_hexadecimal(uint8_t *to, const uint8_t *octets, size_t count)
{
    for (size_t k = 0; k < count; k++) {
        *to++ = digit_of(octets[k] >> 4);
        *to++ = digit_of(octets[k] & 15);
    }
}

/* Whether a text of the right length is a QoS profile of the release, "98" or "99". */
static inline bool is_release(const uint8_t *text, const char *release)
{
    return text[0] == '9' && text[1] == release[1] && text[2] == '-';
}

/* ---- framing ---- */

struct attribute {
    const uint8_t *value;
    size_t count;
    size_t length;
    uint32_t number; /* 256 and more for 3GPP */
    uint32_t key;    /* type x 256 + sub-attribute number */
};

/* The attribute at a place, or the refusal 4 to 8 that it earns; 0 where it is read. */
static inline uint32_t frame(const uint8_t *at, size_t left, struct attribute *it)
{
    if (left < 2)
        return 4;
    size_t length = at[1];
    if (length < 2)
        return 5;
    if (length > left)
        return 6;
    it->length = length;
    it->value = at + 2;
    it->count = length - 2;
    it->number = at[0];
    it->key = (uint32_t)at[0] << 8;
    if (at[0] != VENDOR)
        return 0;
    if (length < 7)
        return 7;
    if (load32(at + 2) != THREE_GPP)
        return 0;
    if (length < 8 || length > 254 || at[7] != length - 6)
        return 8;
    it->value = at + 8;
    it->count = length - 8;
    it->number = 256u + at[6];
    it->key |= at[6];
    return 0;
}

/* ---- read ---- */

/* Writes form, count and stored octets where the value meets a shape that has a form of its
 * own, and gives how many were written; else 0. */
static inline size_t put_shaped(uint8_t *to, uint8_t shape, const uint8_t *value, size_t count)
{
    to[1] = (uint8_t)count;
    switch (shape) {
    case NUMBER:
    case ADDRESS:
        if (count != 4)
            return 0;
        to[0] = (uint8_t)(shape == NUMBER ? 2 : 3);
        memcpy(to + 2, value, 4);
        return 6;
    case DIGITS:
    case NETWORK:
        if (shape == DIGITS ? count - 1 > 14 : count - 5 > 1)
            return 0;
        to[0] = 4;
        return pack_digits(to + 2, value, count) ? 2 + (count + 1) / 2 : 0;
    case SESSION:
        to[0] = 5;
        to[1] = 8;
        return count == 16 && pack_hexadecimal(to + 2, value, 8) ? 10 : 0;
    case QOS:
        to[0] = 6;
        to[1] = count == 9 ? 4 : 12;
        to[2] = count == 9 ? 98 : 99;
        if (count == 9)
            return is_release(value, "98") && pack_hexadecimal(to + 3, value + 3, 3) ? 6 : 0;
        if (count == 25)
            return is_release(value, "99") && pack_hexadecimal(to + 3, value + 3, 11) ? 14 : 0;
        return 0;
    case NSAPI:
        to[0] = 7;
        to[2] = count == 1 ? half_of(value[0]) : 16;
        return to[2] < 16 ? 3 : 0;
    case STOP:
        to[0] = 7;
        to[2] = count == 1 ? value[0] : 0;
        return count == 1 ? 3 : 0;
    case MODE:
        to[0] = 7;
        to[2] = count == 1 ? (uint8_t)(value[0] - '0') : 10;
        return to[2] < 10 ? 3 : 0;
    default:
        return 0;
    }
}

gir_answer hand_read(const uint8_t *area, size_t area_len, uint32_t kind, uint32_t flags,
                     uint8_t *sheet, size_t room)
{
    uint32_t bad = at_once(kind, flags, area_len);
    if (bad)
        return refusal(bad, bad == 3 ? area_len : 0);

    uint8_t made[GIR_SHEET_ROOM(LONGEST) + SLACK];
    const uint8_t *at = area, *end = area + area_len;
    uint8_t *to = made + SHEET_HEAD;
    uint32_t items = 0;
    while (at != end) {
        struct attribute it;
        bad = frame(at, (size_t)(end - at), &it);
        if (bad)
            return refusal(bad, (uint64_t)(at - area));
        to[0] = (uint8_t)(it.key >> 8);
        to[1] = (uint8_t)it.key;
        uint8_t shape = shape_of(it.number);
        size_t put = shape == FREE ? 0 : put_shaped(to + 2, shape, it.value, it.count);
        if (put == 0) {
            to[2] = it.number > 255;
            to[3] = (uint8_t)it.count;
            copy_value(to + 4, it.value, it.count, end);
            put = 2 + it.count;
        }
        to += 2 + put;
        at += it.length;
        items++;
    }
    size_t length = (size_t)(to - made);
    if (length > room)
        return refusal(9, length);
    const uint8_t head[SHEET_HEAD] = {
        'G', 'I', 'R', 0, 1, (uint8_t)kind, (uint8_t)flags, (uint8_t)(items >> 8), (uint8_t)items,
    };
    memcpy(made, head, SHEET_HEAD);
    memcpy(sheet, made, length);
    return (gir_answer){.length = length};
}

/* ---- check ---- */

static inline bool meets(uint8_t shape, const uint8_t *value, size_t count)
{
    switch (shape) {
    case NUMBER:
    case ADDRESS:
        return count == 4;
    case DIGITS:
        return count - 1 <= 14 && are_digits(value, count);
    case NETWORK:
        return count - 5 <= 1 && are_digits(value, count);
    case SESSION:
        return count == 16 && are_hexadecimal(value, 16);
    case QOS:
        if (count == 9)
            return is_release(value, "98") && are_hexadecimal(value + 3, 6);
        return count == 25 && is_release(value, "99") && are_hexadecimal(value + 3, 22);
    case NSAPI:
        return count == 1 && half_of(value[0]) < 16;
    case STOP:
        return count == 1;
    case MODE:
        return count == 1 && (uint8_t)(value[0] - '0') < 10;
    case SOME:
        return count >= 1;
    case PASSWORD:
        return count >= 16 && count <= 128 && count % 16 == 0;
    case CHAP:
        return count == 17;
    case CHALLENGE:
        return count >= 5;
    default:
        return true;
    }
}

/* Whether a value that meets its shape is allowed. */
static inline bool is_allowed(const struct number *of, const uint8_t *value, size_t count,
                              uint32_t kind)
{
    static const uint8_t status[7] = {0, 0, 1, 2, 7, 8, 3};
    if (of->allowed == ANY)
        return true;
    uint32_t read = count == 4 ? load32(value) : value[0];
    if (of->allowed == RANGE)
        return read >= of->low && read <= of->high;
    return kind == 1 || read == status[kind];
}

static inline uint32_t has(const uint8_t *seen, uint32_t number)
{
    return seen[number];
}

static inline uint32_t lacks(const uint8_t *seen, uint32_t number)
{
    return has(seen, number) ^ 1;
}

/* Writes the entries of rules 5 to 7 that stand at the area's end, in rising order. */
static uint32_t *put_ends(uint32_t *to, uint32_t place, const uint8_t *seen, uint32_t kind,
                          uint32_t flags)
{
    uint32_t at = place << 20;
    const uint32_t access = kind == 1, usage = kind != 4 && kind != 5;
    const uint32_t pap = flags & 1, chap = flags >> 1 & 1, class = flags >> 2 & 1;
#define ENTRY(rule, number, when)                                                                 \
    do {                                                                                          \
        *to = at | (uint32_t)(rule) << 16 | (number);                                             \
        to += (when);                                                                             \
    } while (0)
    if (access) {
        ENTRY(5, 3 << 8, has(seen, 2) & has(seen, 3));
        ENTRY(6, 1 << 8, lacks(seen, 1));
        ENTRY(6, 30 << 8, lacks(seen, 30));
        ENTRY(7, 2 << 8, pap & lacks(seen, 2));
        ENTRY(7, 3 << 8, chap & lacks(seen, 3));
    } else if (usage) {
        ENTRY(6, 8 << 8, lacks(seen, 8));
        ENTRY(6, 30 << 8, lacks(seen, 30));
        ENTRY(6, 40 << 8, lacks(seen, 40));
        ENTRY(6, 44 << 8, lacks(seen, 44));
    } else {
        ENTRY(6, 40 << 8, lacks(seen, 40));
    }
    ENTRY(7, 4 << 8, lacks(seen, 4) & lacks(seen, 32));
    ENTRY(7, 25 << 8, (kind == 2) & class & lacks(seen, 25));
    ENTRY(7, 26 << 8 | 3, usage & has(seen, 7) & lacks(seen, 256 + 3));
    ENTRY(7, 60 << 8, access & chap & lacks(seen, 60));
#undef ENTRY
    return to;
}

gir_answer hand_check(const uint8_t *area, size_t area_len, uint32_t kind, uint32_t flags,
                      uint32_t *list, size_t room)
{
    uint32_t bad = at_once(kind, flags, area_len);
    if (bad)
        return refusal(bad, bad == 3 ? area_len : 0);

    uint32_t made[3 * (LONGEST / 2) + 16];
    uint8_t seen[512] = {0}; /* by octets: bits of one word would wait for each other */
    uint32_t *to = made;
    const uint32_t no_class = flags & 4 ? 0 : USAGE;
    size_t place = 0;
    while (place != area_len) {
        struct attribute it;
        bad = frame(area + place, area_len - place, &it);
        if (bad)
            return refusal(bad, place);
        const struct number *of = &numbers[it.number];
        if (of->shape != FREE) {
            uint32_t entry = (uint32_t)place << 20 | it.key;
            if (!meets(of->shape, it.value, it.count))
                *to++ = entry | 1 << 16;
            else if (!is_allowed(of, it.value, it.count, kind))
                *to++ = entry | 2 << 16;
            *to = entry | 3 << 16;
            to += of->once & seen[it.number];
            uint32_t barred = of->barred == NO_CLASS ? no_class : of->barred;
            *to = entry | 4 << 16;
            to += barred >> kind & 1;
        }
        seen[it.number] = 1;
        place += it.length;
    }
    to = put_ends(to, (uint32_t)place, seen, kind, flags);
    size_t length = (size_t)(to - made);
    if (length > room)
        return refusal(10, length);
    memcpy(list, made, length * sizeof *list);
    return (gir_answer){.length = length};
}

/* ---- write ---- */

/* A value that stands as it is, in form 0 or 1: its length, or -1 where no readable attribute
 * gives the item. */
static inline ptrdiff_t put_raw(uint8_t *to, uint8_t form, uint32_t number, const uint8_t *stored,
                                size_t count, const uint8_t *end)
{
    uint8_t shape = shape_of(number);
    if (number == VENDOR) {
        if (count < 5 || count > 253 || load32(stored) == THREE_GPP)
            return -1;
    } else if (form != (number > 255) || count > (number > 255 ? 246u : 253u)) {
        return -1;
    } else if (shape - 1u < SOME - 1u && meets(shape, stored, count)) {
        return -1;
    }
    copy_value(to, stored, count, end);
    return (ptrdiff_t)count;
}

/* Writes the value of an item: its length, or -1 where no readable attribute gives the
 * item. */
static inline ptrdiff_t put_value(uint8_t *to, uint8_t form, uint32_t number,
                                  const uint8_t *stored, size_t count, const uint8_t *end)
{
    uint8_t shape = shape_of(number);
    switch (form) {
    case 0:
    case 1:
        return put_raw(to, form, number, stored, count, end);
    case 2:
    case 3:
        if (count != 4 || shape != (form == 2 ? NUMBER : ADDRESS))
            return -1;
        memcpy(to, stored, 4);
        return 4;
    case 4:
        if (!(shape == DIGITS && count - 1 <= 14) && !(shape == NETWORK && count - 5 <= 1))
            return -1;
        return unpack_digits(to, stored, count) ? (ptrdiff_t)count : -1;
    case 5:
        if (shape != SESSION || count != 8)
            return -1;
        unpack_hexadecimal(to, stored, 8);
        return 16;
    case 6:
        if (shape != QOS || !(count == 4 || count == 12) || stored[0] != (count == 4 ? 98 : 99))
            return -1;
        memcpy(to, count == 4 ? "98-" : "99-", 3);
        unpack_hexadecimal(to + 3, stored + 1, 3);
        if (count == 12)
            unpack_hexadecimal(to + 9, stored + 4, 8);
        return (ptrdiff_t)(1 + 2 * count);
    case 7:
        if (count != 1)
            return -1;
        if (shape == STOP)
            to[0] = stored[0];
        else if ((shape == NSAPI && stored[0] < 16) || (shape == MODE && stored[0] < 10))
            to[0] = digit_of(stored[0]);
        else
            return -1;
        return 1;
    default:
        return -1;
    }
}

gir_answer hand_write(const uint8_t *sheet, size_t sheet_len, uint8_t *area, size_t room)
{
    static const uint8_t mark[5] = {'G', 'I', 'R', 0, 1};
    if (sheet_len < SHEET_HEAD || memcmp(sheet, mark, sizeof mark) != 0)
        return refusal(20, 0);
    uint32_t kind = sheet[5], flags = sheet[6];
    if (!is_kind(kind) || !are_flags(flags))
        return refusal(21, 0);

    /* what no longer fits goes again and again to the same place after the longest area */
    uint8_t made[LONGEST + SLACK];
    size_t length = 0;
    const uint8_t *at = sheet + SHEET_HEAD, *end = sheet + sheet_len;
    uint32_t items = (uint32_t)sheet[7] << 8 | sheet[8];
    for (; items; items--) {
        size_t left = (size_t)(end - at);
        if (left < 4)
            return refusal(22, (uint64_t)(at - sheet));
        uint8_t type = at[0], sub = at[1], form = at[2];
        size_t count = at[3], stored = form == 4 ? (count + 1) / 2 : count;
        if (stored > left - 4)
            return refusal(22, (uint64_t)(at - sheet));
        bool three_gpp = type == VENDOR && form != 0;
        uint32_t number = three_gpp ? 256u + sub : type;
        size_t head = three_gpp ? 8 : 2;
        uint8_t *to = made + (length < LONGEST ? length : LONGEST);
        ptrdiff_t put = sub && !three_gpp
                            ? -1
                            : put_value(to + head, form, number, at + 4, count, end);
        if (put < 0)
            return refusal(23, (uint64_t)(at - sheet));
        to[0] = type;
        to[1] = (uint8_t)(head + (size_t)put);
        if (three_gpp) {
            const uint8_t string[6] = {0, 0, 0x28, 0xAF, sub, (uint8_t)(2 + put)};
            memcpy(to + 2, string, 6);
        }
        length += head + (size_t)put;
        at += 4 + stored;
    }
    if (at != end)
        return refusal(22, (uint64_t)(at - sheet));
    if (length > LONGEST)
        return refusal(24, length);
    if (length > room)
        return refusal(25, length);
    memcpy(area, made, length);
    return (gir_answer){.length = length, .kind = kind, .flags = flags};
}
