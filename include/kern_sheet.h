/* A walk over the records of a sheet (docs/SHEET.md), in C99 and C++, without the library.
 *
 *     kern_record r = KERN_FIRST;
 *     while (kern_next(sheet, length, &r))
 *         if (r.at[0] == KERN_NOTE) printf("bar %u\n", (unsigned)kern_u32(r.at + 4));
 *
 * It reads no byte outside the sheet, whatever bytes these are, and ends at the first that is no record. Behind a whole walk kern_is_end is 1.
 */
#ifndef KERN_SHEET_H
#define KERN_SHEET_H

#include "kern.h"

/* A record: its bytes, and how many they are. Before the first record `at` is NULL. */
typedef struct {
    const uint8_t *at;
    size_t length;
} kern_record;

#define KERN_FIRST {NULL, 0}

/* The little-endian numbers at an address. */
static inline uint16_t kern_u16(const uint8_t *b) { return (uint16_t)(b[0] | b[1] << 8); }
static inline uint32_t kern_u32(const uint8_t *b) {
    return (uint32_t)b[0] | (uint32_t)b[1] << 8 | (uint32_t)b[2] << 16 | (uint32_t)b[3] << 24;
}

/* The length that the head of a sheet counts; 0 where the bytes have no head of version 1, or count more than there are. */
static inline size_t kern_sheet_length(const uint8_t *sheet, size_t length) {
    if (length < 16 || sheet[0] != 'K' || sheet[1] != 'R' || sheet[2] != 'N' || sheet[3] != 0) return 0;
    if (kern_u16(sheet + 4) != KERN_SHEET_VERSION || kern_u32(sheet + 8) > length) return 0;
    return kern_u32(sheet + 8);
}

/* The length of the record at the start of so many bytes; 0 where there is none. */
static inline size_t kern_record_length(const uint8_t *b, size_t left) {
    uint64_t length = 0;
    if (left == 0) return 0;
    switch (b[0]) {
    case KERN_NOTE:
        if (left >= 28) length = 28 + 3 * (uint64_t)kern_u32(b + 20) + kern_u32(b + 24);
        break;
    case KERN_BAR:
    case KERN_PART:
        length = 20;
        break;
    case KERN_END:
        length = 32;
        break;
    case KERN_NOTICE:
        if (left >= 24) length = 24 + (b[1] == KERN_UNSUPPORTED_SIGNIFIER ? (uint64_t)kern_u32(b + 12) : 0);
        break;
    }
    return length <= left ? (size_t)length : 0;
}

/* Goes to the next record; 0 where there is none. */
static inline int kern_next(const uint8_t *sheet, size_t length, kern_record *r) {
    size_t end = kern_sheet_length(sheet, length);
    size_t at = r->at == NULL ? 16 : (size_t)(r->at - sheet) + r->length;
    if (at >= end) return 0;
    r->length = kern_record_length(sheet + at, end - at);
    if (r->length == 0) return 0;
    r->at = sheet + at;
    return 1;
}

/* Whether a record is the last of a whole sheet. */
static inline int kern_is_end(const uint8_t *sheet, size_t length, kern_record r) {
    return r.at != NULL && (size_t)(r.at - sheet) + r.length == kern_sheet_length(sheet, length);
}

#endif
