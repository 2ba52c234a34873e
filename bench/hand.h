/* The desk's three jobs, written by hand in C: what the proved library is measured
 * against. The entries are those of include/gir.h under other names. */
#ifndef HAND_H
#define HAND_H

#include "../include/gir.h"

gir_answer hand_read(const uint8_t *area, size_t area_len, uint32_t kind, uint32_t flags,
                     uint8_t *sheet, size_t room);
gir_answer hand_check(const uint8_t *area, size_t area_len, uint32_t kind, uint32_t flags,
                      uint32_t *list, size_t room);
gir_answer hand_write(const uint8_t *sheet, size_t sheet_len, uint8_t *area, size_t room);

#endif
