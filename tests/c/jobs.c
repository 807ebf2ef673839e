/* Runs histories of reads that come by standard input and writes every reply to standard output; tests/c/jobs.py sends them and compares.
 *
 * In:  how many images; each as its length and its bytes. Then boards, and with each the histories on it.
 *      A board: 1 to be opened, 0 as lent; the number of its image, and how many bytes of the image's front it has; flash base, CS0 base, info
 *      offset; how many words are lent for set rows, and how many for ROM rows. As lent also the line, the sets served, the pins item's number,
 *      ROM pins, eight data pins, sixteen address pins, seven control pins; the words of the set rows and those of the ROM rows.
 *      How many histories. A history: the eight counts that it begins at, how many calls, and these: which read, as in enum read; job, set, offset
 *      or address, five levels, the length of the lent buffer.
 * Out: for each board the number of its opening, 0 as lent; for each call its number, the eight counts, and the lent buffer as it is left.
 * All but the images and the buffers are words, their lowest byte first. */
#include <stdio.h>
#include <stdlib.h>
#include <string.h>

#include "onerom.h"

enum { IMAGES = 64, BUFFER = 4096, BEHIND = 16, ROWS = 65536, UNREAD = 0xC5 };
/* size is no read: its buffer is the value's four bytes */
enum read { DATA, RAW_RAW, RAW, LOGICAL_RAW, LOGICAL, OWN, SIZE };

static struct {
    uint8_t *bytes;
    uint32_t length;
} images[IMAGES];

/* The board. Image and rows are as long as what is lent, so that a tool sees a read past them. */
static uint8_t *image;
static uint32_t *sets, *roms, length, flash_base, cs0_base, set_words, rom_words;
static struct onerom_report report;

static void stop(const char *why) {
    fprintf(stderr, "%s\n", why);
    exit(1);
}

/* A word of the input; 0 where the input ends before it. */
static int take(uint32_t *word) {
    uint8_t b[4];
    size_t n = fread(b, 1, 4, stdin);
    if (n != 0 && n != 4) stop("the input ends within a word");
    *word = n == 0 ? 0 : b[0] | (uint32_t)b[1] << 8 | (uint32_t)b[2] << 16 | (uint32_t)b[3] << 24;
    return n == 4;
}

static uint32_t word(void) {
    uint32_t w;
    if (!take(&w)) stop("the input ends within a record");
    return w;
}

static void words(uint32_t *to, uint32_t n) {
    for (uint32_t i = 0; i < n; i++) to[i] = word();
}

static void bytes(uint8_t *to, uint32_t n) {
    for (uint32_t i = 0; i < n; i++) to[i] = (uint8_t)word();
}

static void give(uint32_t word) {
    const uint8_t b[4] = {(uint8_t)word, (uint8_t)(word >> 8), (uint8_t)(word >> 16), (uint8_t)(word >> 24)};
    fwrite(b, 1, 4, stdout);
}

/* Room for n bytes, and for none. */
static void *room(size_t n) {
    void *p = malloc(n == 0 ? 1 : n);
    if (p == NULL) stop("there is no memory");
    return memset(p, UNREAD, n);
}

static void take_images(void) {
    const uint32_t n = word();
    if (n > IMAGES) stop("there is no room for so many images");
    for (uint32_t i = 0; i < n; i++) {
        images[i].length = word();
        images[i].bytes = room(images[i].length);
        if (fread(images[i].bytes, 1, images[i].length, stdin) != images[i].length) stop("the input ends within an image");
    }
}

/* A report of which calls may look at what is taken here, and at nothing else: the rest of it is anything. */
static void take_report(void) {
    uint8_t control[ONEROM_CONTROLS];
    for (size_t i = 0; i < sizeof report; i++) ((uint8_t *)&report)[i] = (uint8_t)(89 * i + 53);
    report.header.line = (uint8_t)word();
    report.rom_sets.served = word();
    report.pins.number = (uint8_t)word();
    report.pins.rom_pins = (uint8_t)word();
    bytes(report.pins.data, 8);
    bytes(report.pins.addr, 16);
    bytes(control, ONEROM_CONTROLS);
    report.pins.cs1 = control[ONEROM_CONTROL_CS1];
    report.pins.cs2 = control[ONEROM_CONTROL_CS2];
    report.pins.cs3 = control[ONEROM_CONTROL_CS3];
    report.pins.x1 = control[ONEROM_CONTROL_X1];
    report.pins.x2 = control[ONEROM_CONTROL_X2];
    report.pins.ce = control[ONEROM_CONTROL_CE];
    report.pins.oe = control[ONEROM_CONTROL_OE];
}

/* The call, which leaves what it reads in the buffer. */
static uint32_t call(uint32_t read, uint32_t job, uint32_t set, uint32_t address, const uint8_t levels[ONEROM_LEVELS], uint8_t *buffer, uint32_t n,
                     uint32_t counts[ONEROM_JOBS]) {
    uint32_t number, size = UNREAD * 0x1010101u;
    switch (read) {
    case DATA:
        return onerom_read_rom_set_data(image, length, flash_base, cs0_base, report, sets, set_words, set, address, buffer, n, job, counts);
    case RAW_RAW:
    case LOGICAL_RAW:
        return onerom_read_rom_byte_raw(image, length, flash_base, cs0_base, report, sets, set_words, roms, rom_words, set, read == LOGICAL_RAW,
                                        address, levels, job, counts, buffer);
    case RAW:
    case LOGICAL:
        return onerom_read_rom_byte_demangled(image, length, flash_base, cs0_base, report, sets, set_words, roms, rom_words, set, read == LOGICAL,
                                              address, levels, job, counts, buffer);
    case OWN:
        return onerom_read_rom_byte_own(image, length, flash_base, cs0_base, report, sets, set_words, roms, rom_words, set, address, levels, job,
                                        counts, buffer);
    case SIZE:
        number = onerom_get_rom_set_size(report.rom_sets.served, sets, set_words, set, &size);
        for (int i = 0; i < 4; i++) buffer[i] = (uint8_t)(size >> 8 * i);
        return number;
    }
    stop("there is no such read");
    return 0;
}

static void run_call(uint32_t counts[ONEROM_JOBS]) {
    uint8_t buffer[BUFFER + BEHIND], levels[ONEROM_LEVELS];
    const uint32_t read = word(), job = word(), set = word(), address = word();
    bytes(levels, ONEROM_LEVELS);
    const uint32_t n = word();
    if (n > BUFFER) stop("there is no room for so many bytes");
    memset(buffer, UNREAD, sizeof buffer);
    give(call(read, job, set, address, levels, buffer, n, counts));
    for (int i = 0; i < ONEROM_JOBS; i++) give(counts[i]);
    fwrite(buffer, 1, n, stdout);
    for (int i = 0; i < BEHIND; i++)
        if (buffer[n + i] != UNREAD) stop("a byte behind the buffer is written");
}

static void run_histories(void) {
    for (uint32_t histories = word(); histories != 0; histories--) {
        uint32_t counts[ONEROM_JOBS];
        words(counts, ONEROM_JOBS);
        for (uint32_t calls = word(); calls != 0; calls--) run_call(counts);
    }
}

static void run_board(uint32_t to_be_opened) {
    const uint32_t which = word();
    length = word();
    if (which >= IMAGES || length > images[which].length) stop("there is no such image");
    image = memcpy(room(length), images[which].bytes, length);
    flash_base = word();
    cs0_base = word();
    const uint32_t info_offset = word();
    set_words = word();
    rom_words = word();
    if (set_words > ROWS || rom_words > ROWS) stop("there is no room for so many rows");
    sets = room(4 * (size_t)set_words);
    roms = room(4 * (size_t)rom_words);
    struct onerom_opening o = {0};
    if (to_be_opened) {
        o = onerom_open(image, length, flash_base, cs0_base, info_offset, sets, set_words, roms, rom_words);
        report = o.report;
    } else {
        take_report();
        words(sets, set_words);
        words(roms, rom_words);
    }
    give(o.number);
    run_histories();
    if (memcmp(image, images[which].bytes, length) != 0) stop("the image is written");
    free(image);
    free(sets);
    free(roms);
    /* out before the next board: where a call dies, the answers that came tell which */
    if (fflush(stdout) != 0 || ferror(stdout)) stop("the answer could not be written");
}

int main(void) {
    uint32_t to_be_opened;
    take_images();
    while (take(&to_be_opened)) run_board(to_be_opened);
    for (int i = 0; i < IMAGES; i++) free(images[i].bytes);
    return 0;
}
