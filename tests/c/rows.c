/* Opens each board that comes by standard input and writes what the call left to standard output; tests/c/rows.py runs it and compares.
 *
 * In:  flash base, CS0 base, info offset, set words, ROM words, image length, the image.
 * Out: the number; the sets item's number, set count and sets served; the words lent for set rows, then those lent for ROM rows.
 * All but the image are words, their lowest byte first. */
#include <stdio.h>
#include <stdlib.h>
#include <string.h>

#include "onerom.h"

enum { IMAGE = 65536, MORE = 64, SETS = ONEROM_MAX_SETS * ONEROM_SET_WORDS, ROMS = ONEROM_MAX_ROMS * ONEROM_ROM_WORDS };

static uint8_t image[IMAGE], as_read[IMAGE];
/* as long as the largest board needs, longer lent ones, and words past them that are not lent */
static uint32_t sets[SETS + 2 * MORE], roms[ROMS + 2 * MORE];

static void stop(const char *why) {
    fprintf(stderr, "%s\n", why);
    exit(1);
}

/* A word of the input; 0 where the input ends before it. */
static int take(uint32_t *word) {
    uint8_t b[4];
    size_t n = fread(b, 1, 4, stdin);
    if (n != 0 && n != 4) stop("the input ends within a word");
    *word = n == 0 ? 0 : b[0] | (uint32_t)b[1] << 8 | (uint32_t)b[2] << 16 | (uint32_t)b[3] << 24;
    return n == 4;
}

static void give(uint32_t word) {
    const uint8_t b[4] = {(uint8_t)word, (uint8_t)(word >> 8), (uint8_t)(word >> 16), (uint8_t)(word >> 24)};
    fwrite(b, 1, 4, stdout);
}

/* What word i holds before the call: no two words of a buffer hold the same. */
static uint32_t before(uint32_t i) {
    return 0x9E3779B1u * i + 0xC5A3F00Du;
}

static void fill(uint32_t *rows, uint32_t lent) {
    for (uint32_t i = 0; i < lent + MORE; i++) rows[i] = before(i);
}

static void give_rows(const uint32_t *rows, uint32_t lent) {
    for (uint32_t i = lent; i < lent + MORE; i++)
        if (rows[i] != before(i)) stop("a word past those lent is written");
    for (uint32_t i = 0; i < lent; i++) give(rows[i]);
}

static void open_one(const uint32_t in[6]) {
    const uint32_t set_words = in[3], rom_words = in[4], length = in[5];
    if (set_words > SETS + MORE || rom_words > ROMS + MORE || length > IMAGE) stop("there is no room for so much");
    if (fread(image, 1, length, stdin) != length) stop("the input ends within an image");
    memcpy(as_read, image, length);
    fill(sets, set_words);
    fill(roms, rom_words);
    struct onerom_opening o = onerom_open(image, length, in[0], in[1], in[2], sets, set_words, roms, rom_words);
    if (memcmp(image, as_read, length) != 0) stop("the image is written");
    give(o.number);
    give(o.report.rom_sets.number);
    give(o.report.rom_sets.rom_set_count);
    give(o.report.rom_sets.served);
    give_rows(sets, set_words);
    give_rows(roms, rom_words);
    /* out before the next call: where one dies, the answers that came tell which */
    if (fflush(stdout) != 0 || ferror(stdout)) stop("the answer could not be written");
}

int main(void) {
    uint32_t in[6];
    while (take(&in[0])) {
        for (int i = 1; i < 6; i++)
            if (!take(&in[i])) stop("the input ends within a record");
        open_one(in);
    }
    return 0;
}
