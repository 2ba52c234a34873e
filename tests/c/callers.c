/* A caller in C: P1 to P10, every refusal that an entry can give, rooms of one octet or entry
 * less, and the return trips, through include/gir.h and the proved archive. Prints what failed
 * and how much was asked; the status is 1 where something failed. */
#include "gir.h"

/* Declared here, since the kit's own compiler comes without the C library's headers. */
int printf(const char *format, ...);
int memcmp(const void *a, const void *b, size_t n);
void *memcpy(void *to, const void *from, size_t n);
void *memset(void *to, int octet, size_t n);

enum {
    SHEET_ROOM = GIR_SHEET_ROOM(GIR_LONGEST_AREA),
    LIST_ROOM = GIR_LIST_ROOM,
    BEHIND = 16,    /* octets or entries behind the room, which no entry may touch */
    BEFORE = 0xA5,  /* what a lent buffer holds before a call */
    ITEMS = 2039,   /* one item of two octets more than an area has room for */
    TURNS = 20000
};

static uint8_t octets[SHEET_ROOM + BEHIND];
static uint32_t entries[LIST_ROOM + BEHIND];
static unsigned asked, failed;

static void hold(int holds, const char *job, const char *what)
{
    asked++;
    if (!holds) {
        failed++;
        printf("failed: %s: %s\n", job, what);
    }
}

/* Whether the octets from `from` on are as they were lent. */
static int untouched(const void *buffer, size_t from, size_t size)
{
    for (size_t k = from; k < size; k++)
        if (((const uint8_t *)buffer)[k] != BEFORE)
            return 0;
    return 1;
}

static int is_done(gir_answer a, uint64_t length, uint32_t kind, uint32_t flags)
{
    return a.refused == 0 && a.number == 0 && a.second == 0 && a.length == length &&
           a.kind == kind && a.flags == flags;
}

static int is_refused(gir_answer a, uint32_t number, uint64_t second)
{
    return a.refused == 1 && a.number == number && a.second == second && a.length == 0 &&
           a.kind == 0 && a.flags == 0;
}

/* ---- One call each, with the whole lent buffer looked at afterwards */

static gir_answer read_into(const uint8_t *area, size_t n, uint32_t kind, uint32_t flags,
                            size_t room)
{
    memset(octets, BEFORE, sizeof octets);
    return gir_read(area, n, kind, flags, octets, room);
}

static gir_answer check_into(const uint8_t *area, size_t n, uint32_t kind, uint32_t flags,
                             size_t room)
{
    memset(entries, BEFORE, sizeof entries);
    return gir_check(area, n, kind, flags, entries, room);
}

static gir_answer write_into(const uint8_t *sheet, size_t n, size_t room)
{
    memset(octets, BEFORE, sizeof octets);
    return gir_write(sheet, n, octets, room);
}

static void reads(const char *what, const uint8_t *area, size_t n, uint32_t kind, uint32_t flags,
                  size_t room, const uint8_t *sheet, size_t length)
{
    gir_answer a = read_into(area, n, kind, flags, room);
    hold(is_done(a, length, 0, 0) && memcmp(octets, sheet, length) == 0 &&
             untouched(octets, length, sizeof octets),
         "read", what);
}

static void read_refuses(const char *what, const uint8_t *area, size_t n, uint32_t kind,
                         uint32_t flags, size_t room, uint32_t number, uint64_t second)
{
    gir_answer a = read_into(area, n, kind, flags, room);
    hold(is_refused(a, number, second) && untouched(octets, 0, sizeof octets), "read", what);
}

static void lists(const char *what, const uint8_t *area, size_t n, uint32_t kind, uint32_t flags,
                  size_t room, const uint32_t *list, size_t length)
{
    gir_answer a = check_into(area, n, kind, flags, room);
    hold(is_done(a, length, 0, 0) && memcmp(entries, list, length * sizeof *list) == 0 &&
             untouched(entries, length * sizeof *list, sizeof entries),
         "check", what);
}

static void check_refuses(const char *what, const uint8_t *area, size_t n, uint32_t kind,
                          uint32_t flags, size_t room, uint32_t number, uint64_t second)
{
    gir_answer a = check_into(area, n, kind, flags, room);
    hold(is_refused(a, number, second) && untouched(entries, 0, sizeof entries), "check", what);
}

static void writes(const char *what, const uint8_t *sheet, size_t n, size_t room,
                   const uint8_t *area, size_t length, uint32_t kind, uint32_t flags)
{
    gir_answer a = write_into(sheet, n, room);
    hold(is_done(a, length, kind, flags) && memcmp(octets, area, length) == 0 &&
             untouched(octets, length, sizeof octets),
         "write", what);
}

static void write_refuses(const char *what, const uint8_t *sheet, size_t n, size_t room,
                          uint32_t number, uint64_t second)
{
    gir_answer a = write_into(sheet, n, room);
    hold(is_refused(a, number, second) && untouched(octets, 0, sizeof octets), "write", what);
}

/* Read and check refuse alike, up to 8. */
static void refuse(const char *what, const uint8_t *area, size_t n, uint32_t kind, uint32_t flags,
                   uint32_t number, uint64_t second)
{
    read_refuses(what, area, n, kind, flags, SHEET_ROOM, number, second);
    check_refuses(what, area, n, kind, flags, LIST_ROOM, number, second);
    /* a refusal of the area comes before one of the room */
    read_refuses(what, area, n, kind, flags, 0, number, second);
    check_refuses(what, area, n, kind, flags, 0, number, second);
}

/* ---- Seen at the desk */

static const uint8_t none[1] = {0};
static const uint8_t a[] = {0x04, 0x06, 0x0A, 0x00, 0x00, 0x01, 0x1A, 0x0D, 0x00, 0x00,
                            0x28, 0xAF, 0x08, 0x07, 0x30, 0x30, 0x31, 0x30, 0x31};
static const uint8_t a_sheet[] = {0x47, 0x49, 0x52, 0x00, 0x01, 0x04, 0x00, 0x00,
                                  0x02, 0x04, 0x00, 0x03, 0x04, 0x0A, 0x00, 0x00,
                                  0x01, 0x1A, 0x08, 0x04, 0x05, 0x00, 0x10, 0x1F};

static void seen_at_the_desk(void)
{
    static const uint32_t p2[] = {0x00641A08, 0x01362800};
    static const uint32_t p3[] = {0x01360800, 0x01361E00, 0x01362800, 0x01362C00};
    static const uint32_t p4[] = {0x00060100, 0x00061E00, 0x00070400};
    static const uint32_t p5[] = {0x00062800, 0x00070400};
    static const uint8_t p6[] = {0x04}, p7[] = {0x04, 0x01}, p8[] = {0x1A, 0x07};
    static const uint8_t p9[] = {0x1A, 0x06, 0x00, 0x00, 0x28, 0xAF};

    reads("P1", a, sizeof a, 4, 0, SHEET_ROOM, a_sheet, sizeof a_sheet);
    lists("P2", a, sizeof a, 4, 0, LIST_ROOM, p2, 2);
    lists("P3", a, sizeof a, 3, 0, LIST_ROOM, p3, 4);
    lists("P4", none, 0, 1, 0, LIST_ROOM, p4, 3);
    lists("P5", none, 0, 4, 0, LIST_ROOM, p5, 2);
    refuse("P6", p6, sizeof p6, 1, 0, GIR_LONE_OCTET, 0);
    refuse("P7", p7, sizeof p7, 1, 0, GIR_LENGTH_BELOW_2, 0);
    refuse("P8", p8, sizeof p8, 1, 0, GIR_PASSES_THE_END, 0);
    refuse("P9", p9, sizeof p9, 1, 0, GIR_SHORT_VENDOR, 0);
    refuse("P10", none, 0, 1, 3, GIR_BAD_FLAGS, 0);

    read_refuses("P1, one octet less", a, sizeof a, 4, 0, 23, GIR_SHEET_ROOM_SMALL, 24);
    read_refuses("P1, no room", a, sizeof a, 4, 0, 0, GIR_SHEET_ROOM_SMALL, 24);
    reads("P1, just the room", a, sizeof a, 4, 0, 24, a_sheet, sizeof a_sheet);
    check_refuses("P3, one entry less", a, sizeof a, 3, 0, 3, GIR_LIST_ROOM_SMALL, 4);
    check_refuses("P3, no room", a, sizeof a, 3, 0, 0, GIR_LIST_ROOM_SMALL, 4);
    lists("P3, just the room", a, sizeof a, 3, 0, 4, p3, 4);
    writes("P1's sheet", a_sheet, sizeof a_sheet, GIR_LONGEST_AREA, a, sizeof a, 4, 0);
    writes("P1's sheet, just the room", a_sheet, sizeof a_sheet, sizeof a, a, sizeof a, 4, 0);
    write_refuses("P1's sheet, one octet less", a_sheet, sizeof a_sheet, sizeof a - 1,
                  GIR_AREA_ROOM_SMALL, sizeof a);
    write_refuses("P1's sheet, no room", a_sheet, sizeof a_sheet, 0, GIR_AREA_ROOM_SMALL, sizeof a);
}

/* ---- Kinds, flags and lengths, also those that an octet would not hold */

static void numbers_and_lengths(void)
{
    static const uint32_t kinds[] = {0, 7, 255, 256, 257, 0x80000001u, 0xFFFFFFFFu};
    static const uint32_t flags[] = {3, 7, 8, 255, 256, 260, 0xFFFFFFFFu};
    static uint8_t longer[70000];

    for (size_t k = 0; k < sizeof kinds / sizeof *kinds; k++)
        refuse("kind", a, sizeof a, kinds[k], 0, GIR_BAD_KIND, 0);
    for (size_t k = 0; k < sizeof flags / sizeof *flags; k++)
        refuse("flags", a, sizeof a, 1, flags[k], GIR_BAD_FLAGS, 0);
    refuse("kind before flags", longer, sizeof longer, 0, 3, GIR_BAD_KIND, 0);
    refuse("flags before length", longer, sizeof longer, 1, 3, GIR_BAD_FLAGS, 0);
    refuse("4,077 octets", longer, 4077, 1, 0, GIR_AREA_TOO_LONG, 4077);
    refuse("70,000 octets", longer, sizeof longer, 1, 0, GIR_AREA_TOO_LONG, sizeof longer);
    refuse("4,076 octets of zeros", longer, 4076, 1, 0, GIR_LENGTH_BELOW_2, 0);
}

/* ---- Framing: the same faults behind a good attribute, and vendor 10415 */

static void framing(void)
{
    static const uint8_t lone[] = {5, 2, 4}, below[] = {5, 2, 4, 1}, past[] = {5, 2, 4, 3};
    static const uint8_t brief[] = {5, 2, 26, 6, 0, 0, 40, 175};
    static const uint8_t bare[] = {5, 2, 26, 7, 0, 0, 40, 175, 8};
    static const uint8_t wrong[] = {5, 2, 26, 9, 0, 0, 40, 175, 8, 4, 0};
    static uint8_t longest[255] = {26, 254, 0, 0, 40, 175, 13, 248};
    static uint8_t sheet[9 + 4 + 246] = {0x47, 0x49, 0x52, 0, 1, 1, 0, 0, 1, 26, 13, 1, 246};

    refuse("one octet left", lone, sizeof lone, 1, 0, GIR_LONE_OCTET, 2);
    refuse("length 1", below, sizeof below, 1, 0, GIR_LENGTH_BELOW_2, 2);
    refuse("past the end", past, sizeof past, 1, 0, GIR_PASSES_THE_END, 2);
    refuse("type 26 of 6", brief, sizeof brief, 1, 0, GIR_SHORT_VENDOR, 2);
    refuse("no room for m", bare, sizeof bare, 1, 0, GIR_BROKEN_SUB, 2);
    refuse("m not n - 6", wrong, sizeof wrong, 1, 0, GIR_BROKEN_SUB, 2);
    reads("m = 248", longest, 254, 1, 0, SHEET_ROOM, sheet, sizeof sheet);
    longest[1] = 255;
    longest[7] = 249;
    refuse("m = 249", longest, 255, 1, 0, GIR_BROKEN_SUB, 0);
}

/* ---- Sheets */

static void sheets(void)
{
    static const uint8_t empty[] = {0x47, 0x49, 0x52, 0, 1, 1, 0, 0, 0};
    static const uint8_t raw[] = {0x47, 0x49, 0x52, 0, 1, 4, 0, 0, 1, 26, 8, 1, 5, 48, 48, 49, 48, 49};
    static uint8_t many[9 + 4 * ITEMS] = {0x47, 0x49, 0x52, 0, 1, 1, 0, ITEMS / 256, ITEMS % 256};
    uint8_t s[sizeof a_sheet + 1];
    size_t n = sizeof a_sheet;

    writes("the empty sheet", empty, sizeof empty, 0, none, 0, 1, 0);
    write_refuses("no octet", none, 0, 4076, GIR_BAD_HEAD, 0);
    write_refuses("8 octets", a_sheet, 8, 4076, GIR_BAD_HEAD, 0);
    for (size_t k = 0; k < 5; k++) {
        memcpy(s, a_sheet, n);
        s[k] ^= 1;
        write_refuses("mark or version", s, n, 4076, GIR_BAD_HEAD, 0);
    }
    memcpy(s, a_sheet, n);
    s[5] = 7;
    write_refuses("kind", s, n, 4076, GIR_BAD_SHEET_KIND, 0);
    s[5] = 1;
    s[6] = 3;
    write_refuses("flags", s, n, 4076, GIR_BAD_SHEET_KIND, 0);
    write_refuses("an item's head cut", a_sheet, 19, 4076, GIR_SHEET_END, 17);
    write_refuses("stored octets cut", a_sheet, n - 1, 4076, GIR_SHEET_END, 17);
    memcpy(s, a_sheet, n);
    s[n] = 0;
    write_refuses("an octet left", s, n + 1, 4076, GIR_SHEET_END, n);
    s[8] = 3;
    write_refuses("an item announced", s, n, 4076, GIR_SHEET_END, n);
    s[8] = 2;
    s[11] = 8;
    write_refuses("an unknown form", s, n, 4076, GIR_BAD_ITEM, 9);
    write_refuses("digits kept raw", raw, sizeof raw, 4076, GIR_BAD_ITEM, 9);
    for (size_t k = 0; k < ITEMS; k++)
        many[9 + 4 * k] = 5;
    write_refuses("4,078 octets", many, sizeof many, 4076, GIR_WRITTEN_TOO_LONG, 4078);
    write_refuses("4,078 octets, no room", many, sizeof many, 0, GIR_WRITTEN_TOO_LONG, 4078);
}

/* ---- Return trips, on made-up areas and on the longest ones */

static uint64_t state = 7;

static uint32_t random_below(uint32_t bound)
{
    state ^= state << 13;
    state ^= state >> 7;
    state ^= state << 17;
    return (uint32_t)(state >> 32) % bound;
}

/* Puts an attribute at the area's end, of another vendor, of vendor 10415 or plain, with a value of
 * digits, text or any octets; the area's length then. */
static size_t put_attribute(uint8_t *area, size_t n)
{
    static const uint8_t vendor[] = {26, 0, 0, 0, 40, 175};
    static const uint8_t text[] = {'0', '1', '5', '8', '9', 'A', 'B', 'E', 'F', 'G', 'a', 'f', '-'};
    uint32_t sort = random_below(3), of = random_below(3), length = random_below(28);
    size_t start = n;

    if (sort == 0) {
        memcpy(area + n, vendor, 6);
        area[n + 5] = (uint8_t)(175 - random_below(8) / 7);
        area[n + 6] = (uint8_t)random_below(20);
        area[n + 7] = (uint8_t)(length + 2);
        n += 8;
    } else {
        area[n] = (uint8_t)(sort == 1 ? random_below(62) : random_below(256));
        if (area[n] == 26)
            area[n] = 25;
        n += 2;
    }
    for (uint32_t k = 0; k < length; k++) {
        if (of == 0)
            area[n++] = (uint8_t)(48 + random_below(10));
        else if (of == 1)
            area[n++] = text[random_below(sizeof text)];
        else
            area[n++] = (uint8_t)random_below(256);
    }
    area[start + 1] = (uint8_t)(n - start);
    return n;
}

/* Reads an area that is readable, writes its sheet and reads that again, with just the room and with
 * one octet less; checks it with just the room and with one entry less. */
static void trip(const char *what, const uint8_t *area, size_t n, uint32_t kind, uint32_t flags)
{
    static uint8_t sheet[SHEET_ROOM];
    static uint32_t list[LIST_ROOM];
    gir_answer r = read_into(area, n, kind, flags, SHEET_ROOM);
    gir_answer c;

    hold(r.refused == 0 && r.length <= GIR_SHEET_ROOM(n), "read", what);
    if (r.refused != 0)
        return;
    memcpy(sheet, octets, r.length);
    reads(what, area, n, kind, flags, r.length, sheet, r.length);
    read_refuses(what, area, n, kind, flags, r.length - 1, GIR_SHEET_ROOM_SMALL, r.length);
    writes(what, sheet, r.length, n, area, n, kind, flags);
    if (n > 0)
        write_refuses(what, sheet, r.length, n - 1, GIR_AREA_ROOM_SMALL, n);

    c = check_into(area, n, kind, flags, LIST_ROOM);
    hold(c.refused == 0, "check", what);
    memcpy(list, entries, c.length * sizeof *list);
    lists(what, area, n, kind, flags, c.length, list, c.length);
    if (c.length > 0)
        check_refuses(what, area, n, kind, flags, c.length - 1, GIR_LIST_ROOM_SMALL, c.length);
}

/* A sheet with one octet changed or cut off is refused, or reading what it gives gives it back. */
static void write_and_read(const uint8_t *area, size_t n)
{
    static uint8_t sheet[SHEET_ROOM], given[GIR_LONGEST_AREA];
    gir_answer r = gir_read(area, n, 2, 4, sheet, SHEET_ROOM), w;

    if (random_below(4) == 0)
        r.length -= random_below((uint32_t)r.length);
    else
        sheet[random_below((uint32_t)r.length)] = (uint8_t)random_below(256);
    w = write_into(sheet, r.length, GIR_LONGEST_AREA);
    hold(w.refused == 0 || untouched(octets, 0, sizeof octets), "write", "a changed sheet");
    if (w.refused != 0)
        return;
    memcpy(given, octets, w.length);
    reads("what a changed sheet gave", given, w.length, w.kind, w.flags, SHEET_ROOM, sheet,
          r.length);
}

static void return_trips(void)
{
    static const uint32_t flags[] = {0, 1, 2, 4, 5, 6};
    static uint8_t area[GIR_LONGEST_AREA];

    for (uint32_t kind = 1; kind <= 6; kind++)
        for (size_t k = 0; k < 6; k++) {
            trip("A", a, sizeof a, kind, flags[k]);
            trip("the empty area", none, 0, kind, flags[k]);
        }
    for (size_t k = 0; k < sizeof area; k += 2) {
        area[k] = (uint8_t)(k % 7);
        area[k + 1] = 2;
    }
    trip("2,038 attributes", area, sizeof area, 3, 0);
    for (unsigned turn = 0; turn < TURNS; turn++) {
        uint32_t kind = 1 + random_below(6);
        size_t n = 0;
        for (uint32_t left = random_below(9); left > 0; left--)
            n = put_attribute(area, n);
        trip("a made-up area", area, n, kind, flags[random_below(6)]);
        write_and_read(area, n);
    }
}

int main(void)
{
    seen_at_the_desk();
    numbers_and_lengths();
    framing();
    sheets();
    return_trips();
    printf("%u answers in C, %u failed\n", asked, failed);
    return failed != 0;
}
