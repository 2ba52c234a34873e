/* make JOB TIMES: a batch of the realistic messages, so many times over, for one job, to
 * standard output: R and C with the areas, W with their sheets.
 * make files FOLDER COUNT: so many files of a kind octet, a flags octet and an area in a folder,
 * named by their numbers, the messages over and over. */
#include "areas.h"
#include "hand.h"

#include <stdio.h>
#include <stdlib.h>
#include <string.h>

enum { SHEET_ROOM = GIR_SHEET_ROOM(GIR_LONGEST_AREA) };

static void put32(uint32_t value)
{
    for (int shift = 24; shift >= 0; shift -= 8)
        putchar((int)(value >> shift & 255));
}

static void put_head(const area *of, FILE *to)
{
    putc((int)of->kind, to);
    putc((int)of->flags, to);
}

/* A record with ample room. */
static void put_record(int job, const area *of)
{
    static uint8_t sheet[SHEET_ROOM];
    putchar(job);
    put32(job == 'C' ? GIR_LIST_ROOM : SHEET_ROOM);
    if (job == 'W') {
        gir_answer read =
            hand_read(of->octets, of->length, of->kind, of->flags, sheet, SHEET_ROOM);
        put32((uint32_t)read.length);
        fwrite(sheet, 1, read.length, stdout);
        return;
    }
    put32((uint32_t)of->length + 2);
    put_head(of, stdout);
    fwrite(of->octets, 1, of->length, stdout);
}

static int put_file(const char *folder, unsigned long number, const area *of)
{
    char name[4096];
    snprintf(name, sizeof name, "%s/%lu", folder, number);
    FILE *file = fopen(name, "wb");
    if (!file)
        return 0;
    put_head(of, file);
    fwrite(of->octets, 1, of->length, file);
    return fclose(file) == 0;
}

int main(int argc, char **argv)
{
    area_set set = messages();
    if (argc == 4 && strcmp(argv[1], "files") == 0) {
        unsigned long count = strtoul(argv[3], NULL, 10);
        for (unsigned long k = 0; k < count; k++)
            if (!put_file(argv[2], k, &set.areas[k % set.count]))
                return 1;
        return 0;
    }
    if (argc != 3)
        return 1;
    for (unsigned long turn = strtoul(argv[2], NULL, 10); turn > 0; turn--)
        for (size_t k = 0; k < set.count; k++)
            put_record(argv[1][0], &set.areas[k]);
    return ferror(stdout) || fflush(stdout) != 0;
}
