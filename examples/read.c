/* Reads a short text: cc -Iinclude examples/read.c crates/kern_ffi/out/libkern_ffi.a -o read */
#include "kern.h"
#include <stdio.h>
#include <string.h>

int main(void) {
    const char *text = "**kern\n4c\n*-\n";
    uint8_t sheet[4096];
    uint64_t answer[3];
    uint32_t refused = kern_read((const uint8_t *)text, strlen(text), sheet, sizeof sheet, answer);
    printf(refused ? "refused with %lu, line %lu, figure %lu\n" : "%lu %lu, a sheet of %lu bytes\n", answer[0], answer[1], answer[2]);
    return refused != 0;
}
