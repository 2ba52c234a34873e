/* The desk's three jobs for callers in C: read an attribute area into a sheet, check it, and
 * write a sheet back. docs/BOOK.md says what each does, what every refusal means, and has the
 * attributes by number and name.
 *
 * The library behind these entries is proved: every input is answered, none stops the
 * program, and each answer is the one that the book gives.
 *
 * Buffers. The caller owns all of them. Nothing is kept after an entry returns, nothing is
 * allocated, and there is no state between calls, so calls from several threads do not
 * disturb each other. A pointer must be good for as many octets (or entries) as the number
 * beside it says; where that number is 0 the pointer is not followed but must not be null.
 * What is read (area, sheet) must not overlap the buffer that is written.
 *
 * Answers. Where an entry is done, the first `length` octets or entries of the buffer are the
 * answer and the rest of it is as it was. Where it refuses, the whole buffer is as it was.
 */
#ifndef GIR_H
#define GIR_H

#include <stddef.h>
#include <stdint.h>

#ifdef __cplusplus
extern "C" {
#endif

/* The longest area that is read, checked or written. */
#define GIR_LONGEST_AREA 4076

/* Room that is enough for the sheet of an area of n octets. */
#define GIR_SHEET_ROOM(n) (9 + 2 * (n))

/* Room that is enough for the list of any area, in entries. */
#define GIR_LIST_ROOM 6126

/* Kinds of message. */
#define GIR_ACCESS_REQUEST 1
#define GIR_START 2
#define GIR_STOP 3
#define GIR_ON 4
#define GIR_OFF 5
#define GIR_INTERIM_UPDATE 6

/* Flags, added together. PAP and CHAP together are not allowed. */
#define GIR_PAP_USED 1
#define GIR_CHAP_USED 2
#define GIR_CLASS_RECEIVED 4

/* The refusals, when each is given, and its second number behind the colon. Places are offsets
 * from 0: in the area for 4 to 8, in the sheet for 22 and 23. The book has them at length. */
#define GIR_BAD_KIND 1          /* a kind that there is not: 0 */
#define GIR_BAD_FLAGS 2         /* flags other than 0, 1, 2, 4, 5 and 6: 0 */
#define GIR_AREA_TOO_LONG 3     /* more than GIR_LONGEST_AREA octets: the area's length */
#define GIR_LONE_OCTET 4        /* no room for a length octet: the attribute's place */
#define GIR_LENGTH_BELOW_2 5    /* an attribute's length octet is 0 or 1: its place */
#define GIR_PASSES_THE_END 6    /* an attribute goes on behind the area: its place */
#define GIR_SHORT_VENDOR 7      /* type 26 has no octet behind the vendor id: its place */
#define GIR_BROKEN_SUB 8        /* no sub-attribute fills a 3GPP attribute: its place */
#define GIR_SHEET_ROOM_SMALL 9  /* the buffer cannot hold the sheet: octets needed */
#define GIR_LIST_ROOM_SMALL 10  /* the buffer cannot hold the list: entries needed */
#define GIR_BAD_HEAD 20         /* too short for a sheet, or another mark or version: 0 */
#define GIR_BAD_SHEET_KIND 21   /* the sheet has a kind or flags that there are not: 0 */
#define GIR_SHEET_END 22        /* an item goes on behind the sheet: its place; or octets are
                                   left over behind the last item: the first one's place */
#define GIR_BAD_ITEM 23         /* reading cannot have made the item: its place */
#define GIR_WRITTEN_TOO_LONG 24 /* an area of more than GIR_LONGEST_AREA octets: its length */
#define GIR_AREA_ROOM_SMALL 25  /* the buffer cannot hold the area: octets needed */

/* What an entry answers. */
typedef struct gir_answer {
    uint32_t refused; /* 0 done, 1 refused */
    uint32_t number;  /* the refusal's number in the book, 0 where done */
    uint64_t second;  /* its second number, 0 where done */
    uint64_t length;  /* octets or entries written, 0 where refused */
    uint32_t kind;    /* gir_write, done: the sheet's kind, else 0 */
    uint32_t flags;   /* gir_write, done: the sheet's flags, else 0 */
} gir_answer;

/* Reads the area into the sheet, a buffer of `room` octets; `length` is the sheet's. Refuses
 * by 1, by 2, by 3, then attribute by attribute by 4 to 8, then by 9. A room of
 * GIR_SHEET_ROOM(area_len) is always enough. */
gir_answer gir_read(const uint8_t *area, size_t area_len, uint32_t kind, uint32_t flags,
                    uint8_t *sheet, size_t room);

/* Checks the area; its breaches go to the list, a buffer of `room` entries, in rising order,
 * and `length` is their number. An entry, in the machine's own 32-bit numbers, has the place in
 * its highest 12 bits, then 4 of the rule, 8 of the type and 8 of the sub-attribute's number.
 * Refuses as gir_read does, with 10 for 9. A room of GIR_LIST_ROOM is always enough. */
gir_answer gir_check(const uint8_t *area, size_t area_len, uint32_t kind, uint32_t flags,
                     uint32_t *list, size_t room);

/* Writes the area that the sheet was read from into a buffer of `room` octets; `length` is
 * the area's, `kind` and `flags` are the sheet's. Refuses by 20, 21, then items from the left
 * by 22 or 23, then octets that remain by 22, then 24, 25. */
gir_answer gir_write(const uint8_t *sheet, size_t sheet_len, uint8_t *area, size_t room);

#ifdef __cplusplus
}
#endif

#endif
