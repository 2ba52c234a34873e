/* The entries of gir.h on a machine that is not x86-64, over those of the module made for x86-64:
 * they take the place of the answer as their first argument. Used by bench/native. */
#include "../include/gir.h"

void by_pointer_read(gir_answer *to, const uint8_t *area, size_t area_len, uint32_t kind,
                     uint32_t flags, uint8_t *sheet, size_t room);
void by_pointer_check(gir_answer *to, const uint8_t *area, size_t area_len, uint32_t kind,
                      uint32_t flags, uint32_t *list, size_t room);
void by_pointer_write(gir_answer *to, const uint8_t *sheet, size_t sheet_len, uint8_t *area,
                      size_t room);

gir_answer gir_read(const uint8_t *area, size_t area_len, uint32_t kind, uint32_t flags,
                    uint8_t *sheet, size_t room)
{
    gir_answer answer;
    by_pointer_read(&answer, area, area_len, kind, flags, sheet, room);
    return answer;
}

gir_answer gir_check(const uint8_t *area, size_t area_len, uint32_t kind, uint32_t flags,
                     uint32_t *list, size_t room)
{
    gir_answer answer;
    by_pointer_check(&answer, area, area_len, kind, flags, list, room);
    return answer;
}

gir_answer gir_write(const uint8_t *sheet, size_t sheet_len, uint8_t *area, size_t room)
{
    gir_answer answer;
    by_pointer_write(&answer, sheet, sheet_len, area, room);
    return answer;
}
