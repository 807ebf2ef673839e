/* What the C tests share. */
#include <stdio.h>
#include <string.h>

#include "onerom.h"

static int failed;

static void expect(int ok, const char *what) {
    if (!ok) {
        printf("failed: %s\n", what);
        failed = 1;
    }
}

#define FLASH 0x08000000u
#define CS0 0x10000000u

/* the words of a row */
#define SET_ROW ONEROM_SET_WORDS
#define ROM_ROW ONEROM_ROM_WORDS

static void put16(uint8_t *at, uint32_t v) {
    at[0] = (uint8_t)v;
    at[1] = (uint8_t)(v >> 8);
}

static void put32(uint8_t *at, uint32_t v) {
    put16(at, v);
    put16(at + 2, v >> 16);
}
