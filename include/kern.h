/* Ruevault: a verified reader of Humdrum **kern, with the C calling convention of x86-64 Linux.
 *
 * A slice is two arguments, its address and then its length in elements. An address is never NULL; where the length is 0 any other address
 * will do, as no byte there is read or written: KERN_EMPTY is such a slice. The bytes of a text stay as they are during the call. No buffer
 * overlaps another. The functions allocate nothing and keep nothing, and may be called from several threads at once on buffers of their
 * own. A call needs about 64 KiB of stack.
 *
 * kern_sheet.h walks the records of a sheet. The sheet's format is in docs/SHEET.md.
 */
#ifndef KERN_H
#define KERN_H

#include <stddef.h>
#include <stdint.h>

/* The version of the library, and that of the sheets that it writes. */
#define KERN_VERSION_MAJOR 0
#define KERN_VERSION_MINOR 1
#define KERN_VERSION_PATCH 0
#define KERN_VERSION "0.1.0"
#define KERN_SHEET_VERSION 1

/* The most bytes of a text, the most notes of it, and the most notices that a sheet keeps. */
#define KERN_MOST_BYTES 67108864
#define KERN_MOST_NOTES 100000
#define KERN_MOST_NOTICES 1024

/* An empty slice, both arguments of it: kern_read(text, text_len, KERN_EMPTY, answer) measures. */
#define KERN_EMPTY ((uint8_t *)(uintptr_t)1), ((size_t)0)

/* The kinds of records, the first byte of each. */
enum kern_kind { KERN_NOTE = 1, KERN_BAR = 2, KERN_PART = 3, KERN_END = 4, KERN_NOTICE = 5 };

/* The flags of a NOTE, its byte 15. */
enum kern_flag {
    KERN_REST = 1,
    KERN_TIE_START = 2,
    KERN_TIE_END = 4,
    KERN_SLUR_START = 8,
    KERN_SLUR_END = 16,
    KERN_GRACE = 32,
    KERN_SLASH = 64,
    KERN_HIDDEN = 128
};

/* Why a text is refused, or a hole not filled; behind each what its figure is, where it has one. */
enum kern_refusal {
    KERN_TOO_LONG = 1,       /* the text's bytes */
    KERN_NOT_UTF8 = 2,       /* how many bytes from the start are UTF-8 */
    KERN_NOT_EXCLUSIVE = 3,  /* a token of the header doesn't begin with ** */
    KERN_MANY_COLUMNS = 4,   /* the header's tokens */
    KERN_NO_KERN = 5,        /* no token of the header is **kern */
    KERN_UNEVEN = 6,         /* the record's tokens */
    KERN_MIXED = 7,          /* the record begins with *, but not all of its tokens do */
    KERN_STAFF_FULL = 8,     /* the part, from 0; kern_read_lines says more */
    KERN_MANY_SPINES = 9,    /* the spines behind the record */
    KERN_MANY_NOTES = 10,    /* a note past the 100,000th */
    KERN_NO_HEADER = 11,
    KERN_NO_NOTE = 12,
    KERN_SHORT_BUFFER = 13,  /* the length that the buffer needs */
    KERN_NO_VALUE = 14,      /* of a hole: no value fits the ticks that remain */
    KERN_FULL_VOICE = 15,    /* of a hole: the voice would pass 50,000 notes */
    KERN_MIXED_JOIN = 17     /* the column, from 1, of the first *v of a run over two parts, or over kern and another kind */
};

/* The notices, byte 1 of a NOTICE; kern_notice_reason has the words. */
enum kern_notice {
    KERN_UNSUPPORTED_REFERENCE = 1,
    KERN_UNSUPPORTED_SPINE = 2,
    KERN_UNSUPPORTED_SEGMENT = 3,
    KERN_TRAILING_EMPTY_FIELD = 4,
    KERN_MISSING_NULL_INTERPRETATION = 5,
    KERN_MISSING_BARLINE_FIELD = 6,
    KERN_UNSUPPORTED_SPINE_ADD = 7,
    KERN_UNSUPPORTED_MID_MEASURE_CHANGE = 8,
    KERN_UNSUPPORTED_CLEF = 9,
    KERN_MALFORMED_KEY_SIGNATURE = 10,
    KERN_NON_STANDARD_KEY_SIGNATURE = 11,
    KERN_UNSUPPORTED_METER = 12,
    KERN_UNSUPPORTED_MENSURATION_SIGN = 13,
    KERN_UNSUPPORTED_TEMPO = 14,
    KERN_UNSUPPORTED_INTERPRETATION = 15,
    KERN_RATIONAL_DURATION = 16,
    KERN_UNSUPPORTED_SIGNIFIER = 17,
    KERN_UNSUPPORTED_TOKEN = 18,
    KERN_UNSUPPORTED_DURATION = 19,
    KERN_INFERRED_DURATION = 20,
    KERN_MISSING_DURATION = 21
};

#ifdef __cplusplus
extern "C" {
#endif

/* Reads a text into a buffer. Answers 0 for an acceptance, else the number of the refusal, 1 to 13 or 17. `answer` is then 0, 0 and
 * the sheet's length, or the refusal's number, line and figure; the figure of 13 is the length that the buffer needs, under 2^32: a call with
 * KERN_EMPTY measures, as no sheet is empty. After an acceptance the buffer holds the sheet first and its old bytes behind; after a refusal it is unchanged. */
uint32_t kern_read(const uint8_t *text, size_t text_len, uint8_t *out, size_t out_len, uint64_t answer[3]);

/* Reads a text as kern_read does. Where it is refused with 8, `lines` holds what fills the staff of the part that the figure names, five times
 * column, voice and header column, columns from 1: first the columns of the row before the record that carry a line of the part on through it,
 * by rising column, then its branches from left to right, each with the column of its `*^`, up to the one that finds no voice, whose voice is 4.
 * The first four voices are 0 to 3, each once. On any other outcome `lines` is unchanged. */
uint32_t kern_read_lines(const uint8_t *text, size_t text_len, uint8_t *out, size_t out_len, uint64_t answer[3], uint64_t lines[15]);

/* Fills a hole of so many ticks, at so many divisions to the quarter, with hidden rests: NOTE records with part, voice, bar, line and column
 * 0, for a voice that has so many notes. Answers 0, else 14 where some ticks remain and no value fits them, 15 where the voice would pass
 * 50,000 notes, 13 where the buffer is too short. `answer` and the buffer are as after kern_read. The rests' lengths add up to the hole. */
uint32_t kern_gap_rests(uint32_t ticks, uint32_t divisions, uint32_t notes, uint8_t *out, size_t out_len, uint64_t answer[3]);

/* The code and the reason of a notice, 1 to 21, at the start of a buffer where they fit, else the buffer is unchanged. Their length in
 * bytes, 0 for a number that is no notice. No 0 byte ends them. */
size_t kern_notice_code(uint8_t number, uint8_t *out, size_t out_len);
size_t kern_notice_reason(uint8_t number, uint8_t *out, size_t out_len);

/* The name of a part, likewise: `given`, `at` and `len` are the PART record's. Where `given` is 0 the name is `Spine 1` for part 0 and
 * so on, and else that piece of the text, cut where it runs past the end. */
size_t kern_part_name(const uint8_t *text, size_t text_len, uint8_t given, uint32_t at, uint32_t len, uint8_t part, uint8_t *out,
                      size_t out_len);

#ifdef __cplusplus
}
#endif

#endif
