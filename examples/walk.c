/* Reads a file of any length, measures its sheet first, and prints the notes:
 *
 *     cc -Iinclude examples/walk.c crates/kern_ffi/out/libkern_ffi.a -o walk && ./walk examples/song.krn
 */
#include "kern_sheet.h"
#include <inttypes.h>
#include <stdio.h>
#include <stdlib.h>

/* The bytes of a file, one more than a text may have at most; NULL where it can't be read. */
static uint8_t *bytes_of(const char *name, size_t *length) {
    FILE *file = fopen(name, "rb");
    size_t room = 1 << 16;
    uint8_t *bytes = file ? malloc(room) : NULL;
    *length = 0;
    while (bytes) {
        *length += fread(bytes + *length, 1, room - *length, file);
        if (*length < room || *length > KERN_MOST_BYTES) break;
        uint8_t *more = realloc(bytes, room *= 2);
        if (!more) free(bytes);
        bytes = more;
    }
    if (bytes && ferror(file)) {
        free(bytes);
        bytes = NULL;
    }
    if (file) fclose(file);
    return bytes;
}

static void print_note(const uint8_t *note) {
    uint32_t pitches = kern_u32(note + 20);
    printf("bar %" PRIu32 " part %d voice %d line %" PRIu32 ":", kern_u32(note + 4), note[1], note[2], kern_u32(note + 8));
    for (uint32_t i = 0; i < pitches; i++) {
        const uint8_t *pitch = note + 28 + 3 * (size_t)i;
        printf(" %c%d", "CDEFGAB"[pitch[0] % 7], pitch[1]);
        for (int alter = (int8_t)pitch[2]; alter != 0; alter += alter < 0 ? 1 : -1) putchar(alter < 0 ? '-' : '#');
    }
    puts(note[15] & KERN_REST ? " rest" : "");
}

static void print_notice(const uint8_t *notice) {
    uint8_t reason[256];
    size_t length = kern_notice_reason(notice[1], reason, sizeof reason);
    printf("line %" PRIu32 ": %.*s\n", kern_u32(notice + 4), (int)(length <= sizeof reason ? length : 0), (const char *)reason);
}

int main(int count, char **words) {
    size_t length;
    uint8_t *text = count == 2 ? bytes_of(words[1], &length) : NULL;
    if (!text) {
        fprintf(stderr, "usage: walk FILE\n");
        return 2;
    }
    uint64_t answer[3];
    uint32_t refused = kern_read(text, length, KERN_EMPTY, answer);
    if (refused != KERN_SHORT_BUFFER) {
        fprintf(stderr, "%s:%" PRIu64 ": refused with %" PRIu32 ", figure %" PRIu64 "\n", words[1], answer[1], refused, answer[2]);
        free(text);
        return 1;
    }
    size_t needed = (size_t)answer[2];
    uint8_t *sheet = malloc(needed);
    if (!sheet || kern_read(text, length, sheet, needed, answer) != 0) {
        fprintf(stderr, "no memory for %zu bytes\n", needed);
        free(sheet);
        free(text);
        return 2;
    }
    kern_record r = KERN_FIRST;
    while (kern_next(sheet, needed, &r)) {
        if (r.at[0] == KERN_NOTE) print_note(r.at);
        if (r.at[0] == KERN_NOTICE) print_notice(r.at);
    }
    int whole = kern_is_end(sheet, needed, r);
    free(sheet);
    free(text);
    return whole ? 0 : 2;
}
