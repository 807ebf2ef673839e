/* Calls the library from C: the starred cases, and each refusal. */
#include "counts.h"

static const uint8_t R1[36] = {0x73, 0x64, 0x72, 0x72, 0x24, 0x01, 0x02, 0x01, 0x05, 0, 0, 0, 0, 0, 0, 0x20, 0, 0, 0x01, 0,
                               0, 0, 0, 0, 0x01, 0, 0x02, 0x0B, 0x96, 0, 0x2C, 0x01, 0x2C, 0x01, 0x01, 0x03};
#define BASE 536870912u

static uint32_t run(const uint8_t *record, size_t len, uint32_t base, uint32_t *words) {
    memset(words, 0xA5, 4 * ONEROM_RUNTIME_WORDS);
    return onerom_runtime(record, len, base, words);
}

static int untouched(const uint32_t *words) {
    for (int i = 0; i < ONEROM_RUNTIME_WORDS; i++)
        if (words[i] != 0xA5A5A5A5u) return 0;
    return 1;
}

static void runtime_record(void) {
    uint32_t w[ONEROM_RUNTIME_WORDS];
    uint8_t r[36];
    static const uint32_t r1[ONEROM_RUNTIME_WORDS] = {1, 2, 1, 5, 536870920, 536870912, 65536, 1, 1, 0, 1, 11, 150, 300, 300};

    expect(run(R1, 36, BASE, w) == 0 && memcmp(w, r1, sizeof w) == 0, "R1");
    expect(run(R1, 33, BASE, w) == 0 && w[ONEROM_RUNTIME_060] == 0 && memcmp(w, r1, 28) == 0, "R2");
    memcpy(r, R1, 36);
    r[4] = 19;
    expect(run(r, 36, BASE, w) == 61 && untouched(w), "R3");
    memcpy(r, R1, 36);
    r[27] = 32;
    expect(run(r, 36, BASE, w) == 0 && w[ONEROM_RUNTIME_060] == 0 && w[ONEROM_RUNTIME_060_SYSCLK_MHZ] == 0, "R4");
    expect(run(NULL, 0, BASE, w) == 2 && untouched(w), "no record");
    expect(run(R1, 19, BASE, w) == 2 && untouched(w), "19 bytes");
    expect(run(R1, 36, 4294967288u, w) == 62 && untouched(w), "62");
    expect(run(R1, 36, 4294967287u, w) == 0 && w[ONEROM_RUNTIME_ACCESS_COUNT_ADDRESS] == 4294967295u, "below 62");
    memcpy(r, R1, 36);
    r[3] = 's';
    expect(run(r, 36, 4294967295u, w) == 60 && untouched(w), "60 before 62");
}

/* The string's part, with a word behind it that is not lent. */
static uint32_t part[ONEROM_PART_WORDS + 1];

static uint32_t string_at(const void *image, size_t len, uint32_t base, uint32_t pointer) {
    for (int i = 0; i <= ONEROM_PART_WORDS; i++) part[i] = 77;
    return onerom_string(image, len, base, pointer, part);
}

static int part_is(uint32_t offset, uint32_t length, uint32_t width) {
    return part[ONEROM_PART_OFFSET] == offset && part[ONEROM_PART_LENGTH] == length && part[ONEROM_PART_WIDTH] == width
        && part[ONEROM_PART_WORDS] == 77;
}

static int is_refused(uint32_t answer, uint32_t number) {
    return answer == number && part_is(77, 77, 77);
}

static void strings(void) {
    uint8_t image[1088];
    memset(image, 0, sizeof image);
    image[0] = 'A';
    expect(string_at(image, 64, BASE, BASE) == 0 && part_is(0, 1, 1), "T1");
    expect(is_refused(string_at(image, 63, BASE, BASE), 2), "T2");
    image[0] = 0xC0;
    image[1] = 0x80;
    expect(is_refused(string_at(image, 64, BASE, BASE), 21), "T3");
    memset(image, 'x', sizeof image);
    expect(is_refused(string_at(image, 1088, BASE, BASE), 20), "20");
    image[1023] = 0;
    expect(string_at(image, 1024, BASE, BASE) == 0 && part_is(0, 1023, 1023), "T4");
    expect(is_refused(string_at(image, 1088, BASE, BASE - 1), 3), "3");
    expect(is_refused(string_at(image, 65, 4294967232u, 4294967232u), 1), "1");
    expect(is_refused(string_at(image, 64, 4294967232u, 4294967232u), 2), "up to 2^32");
    expect(is_refused(string_at(NULL, 0, BASE, BASE), 2), "no image");
    expect(is_refused(string_at(image + 1000, 64, BASE, BASE + 24), 2), "a chunk past the end");
}

/* Texts with their lengths and widths, each behind three other bytes. */
static void widths(void) {
    static const struct {
        const char *text;
        uint32_t length, width;
    } known[] = {
        {"", 0, 0},
        {"A", 1, 1},
        {"\x7F", 1, 1},
        {"\xC2\x80", 2, 1},
        {"\xC3\xA9", 2, 1},
        {"\xE0\xA0\x80", 3, 1},
        {"\xE2\x82\xAC", 3, 1},
        {"\xED\x9F\xBF", 3, 1},
        {"\xF0\x90\x80\x80", 4, 1},
        {"\xF0\x9F\x98\x80", 4, 1},
        {"\xF4\x8F\xBF\xBF", 4, 1},
        {"e\xCC\x81", 3, 2}, /* a combining mark counts by itself */
        {"A\xC3\xA9\xE2\x82\xAC\xF0\x9F\x98\x80", 10, 4},
    };
    uint8_t image[67];
    for (size_t i = 0; i < sizeof known / sizeof known[0]; i++) {
        char what[32];
        snprintf(what, sizeof what, "the width of text %u", (unsigned)i);
        memset(image, 0, sizeof image);
        memcpy(image, "xyz", 3);
        memcpy(image + 3, known[i].text, known[i].length);
        expect(string_at(image, 67, BASE, BASE + 3) == 0 && part_is(3, known[i].length, known[i].width), what);
        /* cut within the text's chunk it shows nothing */
        expect(is_refused(string_at(image, 66, BASE, BASE + 3), 2), what);
    }
}

/* A character that goes from one chunk into the next, and the longest text. */
static void long_texts(void) {
    uint8_t image[1024];
    memset(image, 'x', sizeof image);
    memcpy(image + 63, "\xE2\x82\xAC", 4);
    expect(string_at(image, 128, BASE, BASE) == 0 && part_is(0, 66, 64), "a character in two chunks");
    memset(image, 0, sizeof image);
    for (int i = 0; i < 511; i++) memcpy(image + 2 * i, "\xC3\xA9", 2);
    image[1022] = 'a';
    expect(string_at(image, 1024, BASE, BASE) == 0 && part_is(0, 1023, 512), "the longest text");
    image[1022] = 0xC3;
    expect(is_refused(string_at(image, 1024, BASE, BASE), 21), "the longest text, its last character lacking a byte");
}

static void boards(void) {
    static const uint8_t addr[16] = {0, 1, 2, 3, 4, 5, 6, 7, 8, 9, 10, 11, 12, 255, 255, 255};
    static const uint8_t control[7] = {13, 255, 255, 255, 255, 255, 255};
    static const uint8_t data[8] = {7, 6, 5, 4, 3, 2, 1, 0};
    static const uint8_t levels[5] = {1, 0, 2, 255, 0};
    static const uint32_t sets[SET_ROW] = {0, 8192, 0, 1, 0, 0, 0, 0};
    static const uint32_t roms[ROM_ROW] = {2, 0, 2, 2, 0, 0, 1, 0};
    static const uint32_t wide[ROM_ROW] = {2, 0, 2, 2, 0, 0, 1, 4294967295u};
    uint8_t bad[8];
    uint32_t v = 77;
    uint8_t b = 77;
    expect(onerom_mangle(0, 24, addr, control, 1, sets, SET_ROW, roms, ROM_ROW, 5, levels, &v) == 0 && v == 8197, "M1");
    v = 77;
    expect(onerom_mangle(0, 24, addr, control, 1, sets, SET_ROW, roms, ROM_ROW, 8192, levels, &v) == 77 && v == 77, "M3");
    expect(onerom_mangle(2, 24, addr, control, 1, sets, SET_ROW, roms, ROM_ROW, 5, levels, &v) == 70 && v == 77, "70");
    expect(onerom_mangle(0, 24, addr, control, 0, sets, SET_ROW, roms, ROM_ROW, 5, levels, &v) == 71 && v == 77, "71");
    expect(onerom_mangle(0, 24, addr, control, 1, NULL, 0, NULL, 0, 5, levels, &v) == 4 && v == 77, "4");
    expect(onerom_mangle(0, 24, addr, control, 1, sets, SET_ROW, roms, ROM_ROW - 1, 5, levels, &v) == 4 && v == 77, "4, ROM row");
    expect(onerom_mangle(0, 24, addr, control, 1, sets, SET_ROW, wide, ROM_ROW, 5, levels, &v) == 0 && v == 8197, "whatever the width");
    expect(onerom_demangle(0, data, 1, &b) == 0 && b == 128, "D1");
    memcpy(bad, data, 8);
    bad[3] = 8;
    b = 77;
    expect(onerom_demangle(0, bad, 1, &b) == 79 && b == 77, "D2");
    expect(onerom_demangle(3, data, 1, &b) == 70 && b == 77, "70, demangle");
}

static uint32_t rows[2][16];

static struct onerom_opening open_board(const uint8_t *image, size_t len, size_t set_words, size_t rom_words) {
    memset(rows, 0xA5, sizeof rows);
    return onerom_open(image, len, FLASH, CS0, 512, rows[0], set_words, rows[1], rom_words);
}

static int rows_untouched(void) {
    for (int i = 0; i < 16; i++)
        if (rows[0][i] != 0xA5A5A5A5u || rows[1][i] != 0xA5A5A5A5u) return 0;
    return 1;
}

static void opening(void) {
    uint8_t image[1552];
    small_board(image, 1, FLASH);
    struct onerom_opening o = open_board(image, sizeof image, 16, 16);
    static const uint32_t set[9] = {FLASH + 1536, 16, 0, 1, 0, 0, 0, 0, 0xA5A5A5A5u};
    static const uint32_t rom[9] = {2, 0, 0, 0, 0, 0, 1, 0, 0xA5A5A5A5u};
    const struct onerom_report *r = &o.report;
    expect(o.number == 0, "opened");
    expect(memcmp(rows[0], set, sizeof set) == 0 && memcmp(rows[1], rom, sizeof rom) == 0, "rows, and no word after them");
    expect(r->header.minor == 4 && r->header.line == 1 && r->header.storage == 1 && r->header.freq == 168, "header");
    expect(r->header.overclock == 1 && r->header.swd_enabled == 0, "flags");
    expect(r->build_date.number == 0 && r->build_date.offset == 1200, "build date");
    expect(r->build_date.length == 10 && r->build_date.width == 10, "build date's length and width");
    expect(r->hw_rev.number == 0 && r->hw_rev.offset == 1216 && r->hw_rev.length == 8 && r->hw_rev.width == 8, "revision");
    expect(r->extra_info.number == 0 && r->extra_info.fire_pio_default == 2, "extra info");
    expect(r->metadata.looked_for == 0 && r->metadata.number == 0, "metadata is not looked for");
    expect(r->rom_sets.number == 0 && r->rom_sets.rom_set_count == 1 && r->rom_sets.served == 1, "sets");
    expect(r->pins.number == 0 && r->pins.rom_pins == 24 && r->pins.data[0] == 7 && r->pins.cs1 == 13, "pins");

    o = open_board(image, sizeof image, SET_ROW - 1, 16);
    expect(o.number == 44 && o.report.rom_sets.served == 0 && rows_untouched(), "44");
    expect(open_board(image, sizeof image, SET_ROW, ROM_ROW - 1).number == 45 && rows_untouched(), "45");
    expect(open_board(image, sizeof image, SET_ROW, ROM_ROW).number == 0, "rows that just fit");
    image[768 + 12] = 0;
    expect(open_board(image, sizeof image, SET_ROW, 0).number == 0 && rows[1][0] == 0xA5A5A5A5u, "no ROM needs no word");
    image[768 + 12] = 1;
    expect(open_board(image, 575, 16, 16).number == 2 && rows_untouched(), "header ended");
    expect(open_board(NULL, 0, 16, 16).number == 2 && rows_untouched(), "no image");
    o = onerom_open(image, sizeof image, FLASH, 4294967295u, 512, rows[0], 16, rows[1], 16);
    expect(o.number == 1 && o.report.extra_info.runtime_info_ptr == 4294967295u && rows_untouched(), "1 looks at both bases");
    image[512] = 0;
    expect(open_board(image, sizeof image, 16, 16).number == 10 && rows_untouched(), "10");
}

static int is_empty(struct onerom_text t) {
    return t.offset == 0 && t.length == 0 && t.width == 0;
}

static int has_no_name(const uint32_t *rom) {
    return rom[ONEROM_ROM_NAME_OFFSET] == 0 && rom[ONEROM_ROM_NAME_LENGTH] == 0 && rom[ONEROM_ROM_NAME_WIDTH] == 0;
}

/* A ROM's name and the report's texts, with widths other than their lengths; and refused, with none. */
static void names(void) {
    uint8_t image[1552];
    small_board(image, 1, FLASH);
    image[512 + 39] = 1; /* boot logging: at 0.4 ROM infos have names with it */
    put32(image + 908, FLASH + 1232);
    memcpy(image + 1200, "5 ao\xC3\xBBt 2026", 13);
    memcpy(image + 1216, "\xE2\x82\xAC", 4);
    memcpy(image + 1232, "foc \xF0\x9F\x98\x80", 9);
    struct onerom_report r = open_board(image, sizeof image, 16, 16).report;
    const uint32_t *rom = rows[1];
    expect(r.build_date.number == 0 && r.build_date.length == 12 && r.build_date.width == 11, "a build date's width");
    expect(r.hw_rev.number == 0 && r.hw_rev.length == 3 && r.hw_rev.width == 1, "a revision's width");
    expect(rom[ONEROM_ROM_NAME_OFFSET] == 1232 && rom[ONEROM_ROM_NAME_LENGTH] == 8 && rom[ONEROM_ROM_NAME_WIDTH] == 5, "a name's width");
    expect(rom[ONEROM_ROM_NAME_REASON] == 0 && rom[ROM_ROW] == 0xA5A5A5A5u, "and no word after the row");

    image[1200] = image[1216] = image[1232] = 0xC0;
    r = open_board(image, sizeof image, 16, 16).report;
    expect(r.build_date.number == 21 && is_empty(r.build_date), "a refused build date");
    expect(r.hw_rev.number == 21 && is_empty(r.hw_rev), "a refused revision");
    expect(rom[ONEROM_ROM_NAME_REASON] == 21 && has_no_name(rom), "a refused name");

    /* a chunk that ends within the image is a name, cut by a byte it is none */
    put32(image + 908, FLASH + 1552 - 64);
    memset(image + 1552 - 64, 0, 64);
    memcpy(image + 1552 - 64, "\xC3\xA9", 2);
    expect(open_board(image, 1552, 16, 16).number == 0 && rom[ONEROM_ROM_NAME_REASON] == 0, "a name in the last chunk");
    expect(rom[ONEROM_ROM_NAME_LENGTH] == 2 && rom[ONEROM_ROM_NAME_WIDTH] == 1, "its length and width");
    expect(open_board(image, 1551, 16, 16).number == 0 && rom[ONEROM_ROM_NAME_REASON] == 2 && has_no_name(rom), "a name that is cut off");
}

/* One byte by its address. */
static uint32_t byte(const uint8_t *image, struct onerom_report r, int demangled, uint32_t set, uint8_t logical, uint32_t address,
                     uint8_t *value) {
    static const uint8_t low[5];
    *value = 77;
    return (demangled ? onerom_read_rom_byte_demangled : onerom_read_rom_byte_raw)(
        image, 1552, FLASH, CS0, r, rows[0], SET_ROW, rows[1], ROM_ROW, set, logical, address, low, job, counts, value);
}

/* ROM data, the byte reads, size and same set on a board that stands at base. */
static void reads(uint32_t line, uint32_t base) {
    uint8_t image[1552], buffer[5], b;
    uint32_t v = 77;
    count_from(0);
    small_board(image, line, base);
    struct onerom_report r = open_board(image, sizeof image, 16, 16).report;
    memset(buffer, 0xA5, 5);
#define DATA(image_len, set_words, set, offset, buffer, length) \
    onerom_read_rom_set_data(image, image_len, FLASH, CS0, r, rows[0], set_words, set, offset, buffer, length, job, counts)
    expect(DATA(1552, SET_ROW, 0, 3, buffer, 4) == 0 && counted(4), "ROM data");
    expect(buffer[0] == 51 && buffer[3] == 102 && buffer[4] == 0xA5, "its bytes, and no byte after them");
    memset(buffer, 0xA5, 5);
    expect(DATA(1552, SET_ROW, 0, 13, buffer, 4) == 81 && counted(4), "81");
    expect(DATA(1552, SET_ROW, 1, 0, buffer, 4) == 80 && counted(4), "80");
    expect(DATA(1552, SET_ROW - 1, 0, 0, buffer, 4) == 4 && counted(4), "4, read");
    expect(DATA(1551, SET_ROW, 0, 12, buffer, 4) == 2 && counted(4), "2, read");
    count_from(4294967292u);
    expect(DATA(1552, SET_ROW, 0, 0, buffer, 4) == 82, "82");
    expect(counted(4294967292u) && buffer[0] == 0xA5, "82 counts and writes nothing");
    expect(DATA(1552, SET_ROW, 0, 0, buffer, 3) == 0 && counted(4294967295u), "up to 82");
    expect(DATA(1552, SET_ROW, 0, 16, NULL, 0) == 0 && counted(4294967295u), "no bytes");
    count_from(0);
    expect(byte(image, r, 0, 0, 0, 5, &b) == 0 && b == 85 && counted(1), "a raw byte");
    expect(byte(image, r, 1, 0, 0, 5, &b) == 0 && b == 170 && counted(2), "a byte, demangled");
    expect(byte(image, r, 1, 0, 1, 5, &b) == 0 && b == 170 && counted(3), "a logical address");
    expect(byte(image, r, 1, 0, 1, 8192, &b) == 77 && b == 77 && counted(3), "77 counts nothing");
    r.pins.data[0] = 8;
    expect(byte(image, r, 1, 0, 0, 5, &b) == 79 && b == 77 && counted(3), "79 counts nothing");
    expect(byte(image, r, 0, 0, 0, 5, &b) == 0 && counted(4), "a raw byte skips demangling");
    expect(onerom_get_rom_set_size(1, rows[0], SET_ROW, 0, &v) == 0 && v == 16, "size");
    v = 77;
    expect(onerom_get_rom_set_size(1, rows[0], SET_ROW, 1, &v) == 80 && v == 77, "80, size");
    expect(onerom_same_set(1, rows[0], SET_ROW, rows[1], ROM_ROW, 0, 0, &v) == 0 && v == 1, "same set");
    rows[1][ONEROM_ROM_NAME_WIDTH] = 4294967295u;
    expect(onerom_same_set(1, rows[0], SET_ROW, rows[1], ROM_ROW, 0, 0, &v) == 0 && v == 1, "same set, whatever the name's width");
    expect(byte(image, r, 0, 0, 1, 5, &b) == 0 && b == 85, "a byte, whatever the name's width");
    v = 77;
    expect(onerom_same_set(1, rows[0], SET_ROW, rows[1], ROM_ROW - 1, 0, 0, &v) == 4 && v == 77, "4, same set");
}

static struct onerom_report own_report;
static uint8_t own_image[1552];

/* The byte that a set's socket sees at an address, with rows for two sets of a ROM each. */
static uint32_t own(uint32_t set, uint32_t address, uint8_t *value) {
    static const uint8_t low[ONEROM_LEVELS];
    *value = 77;
    return onerom_read_rom_byte_own(own_image, 1552, FLASH, CS0, own_report, rows[0], 2 * SET_ROW, rows[1], 2 * ROM_ROW, set, address,
                                    low, job, counts, value);
}

/* Refused with the number, counts and value as they were. */
static void own_refused(uint32_t number, uint32_t set, uint32_t address, const char *what) {
    uint8_t b;
    count_from(3);
    expect(own(set, address, &b) == number && counted(3) && b == 77, what);
}

/* Two sets with the same 16 bytes; set 0's ROM is of a type that logical reads do not cover. */
static void own_board(uint32_t line, uint32_t base) {
    small_board(own_image, line, base);
    own_report = open_board(own_image, sizeof own_image, 16, 16).report;
    own_report.rom_sets.served = 2;
    memcpy(rows[0] + SET_ROW, rows[0], 4 * SET_ROW);
    memcpy(rows[1] + ROM_ROW, rows[1], 4 * ROM_ROW);
    rows[0][SET_ROW + ONEROM_SET_FIRST_ROM] = 1;
    rows[1][ONEROM_ROM_TYPE] = ONEROM_TYPE_ROM2704;
}

static void own_reads(uint32_t line, uint32_t base) {
    static const uint8_t cs1[ONEROM_LEVELS] = {ONEROM_HIGH};
    uint32_t *set = rows[0] + SET_ROW, *rom = rows[1] + ROM_ROW, kept[SET_ROW];
    uint8_t b;
    own_board(line, base);
    count_from(0);
    expect(own(1, 5, &b) == 0 && b == 170 && counted(1), "a byte by the set's own ROMs");
    count_from(4294967294u);
    expect(own(1, 15, &b) == 0 && b == 255 && counted(4294967295u), "the last byte, up to 82");
    expect(own(1, 15, &b) == 82 && b == 77 && counted(4294967295u), "82, own");
    own_refused(75, 0, 5, "set 0 by its own");
    own_refused(80, 2, 5, "80, own");
    own_refused(80, 4294967295u, 5, "80, own, the last number");
    own_refused(77, 1, 8192, "77, own");
    own_refused(81, 1, 16, "81, own");

    memcpy(kept, set, sizeof kept);
    set[ONEROM_SET_ROM_COUNT] = 0;
    own_refused(74, 1, 5, "74, own");
    set[ONEROM_SET_ROM_COUNT] = 2;
    own_refused(72, 1, 5, "72, own");
    own_report.pins.x1 = 14;
    own_report.pins.x2 = 3;
    own_refused(73, 1, 5, "73, own");
    memcpy(set, kept, sizeof kept);
    set[ONEROM_SET_FIRST_ROM] = 2;
    own_refused(4, 1, 5, "4, own: the first ROM's row");
    memcpy(set, kept, sizeof kept);
    set[ONEROM_SET_DATA_POINTER] = base + 1552 - 5;
    own_refused(2, 1, 5, "2, own");
    memcpy(set, kept, sizeof kept);

    rom[ONEROM_ROM_TYPE] = 34;
    own_refused(4, 1, 5, "4, own: the type");
    rom[ONEROM_ROM_TYPE] = ONEROM_TYPE_ROM2704;
    own_refused(75, 1, 5, "75, own");
    rom[ONEROM_ROM_TYPE] = ONEROM_TYPE_ROM28C16;
    own_refused(76, 1, 5, "76, own");
    own_report.pins.ce = own_report.pins.oe = 15;
    own_refused(78, 1, 5, "78, own");
    rom[ONEROM_ROM_TYPE] = ONEROM_TYPE_ROM2364;

    own_report.pins.data[0] = 8;
    own_refused(79, 1, 5, "79, own");
    own_report.pins.number = 50;
    own_refused(70, 1, 5, "70, own");
    own_report.rom_sets.served = 0;
    own_refused(80, 0, 5, "80, own: nothing is served");

    own_board(line, base);
    count_from(3);
    b = 77;
#define OWN(image_len, flash_base, cs0_base, set_words, rom_words)                                                                     \
    onerom_read_rom_byte_own(own_image, image_len, flash_base, cs0_base, own_report, rows[0], set_words, rows[1], rom_words, 1, 5, cs1, job, \
                             counts, &b)
    const size_t both_sets = 2 * SET_ROW, both_roms = 2 * ROM_ROW;
    expect(OWN(1552, 4294967295u, CS0, both_sets, both_roms) == 1 && OWN(1552, FLASH, 4294967295u, both_sets, both_roms) == 1,
           "1, own, looks at both bases");
    expect(OWN(1552, FLASH, CS0, both_sets - 1, both_roms) == 4, "4, own: a set row that is not lent");
    expect(OWN(1552, FLASH, CS0, both_sets, both_roms - 1) == 4, "4, own: a ROM row that is not lent");
    expect(OWN(1552, FLASH, CS0, both_sets, both_roms) == 81, "CS1 raises its pin");
    rom[ONEROM_ROM_NAME_WIDTH] = 4294967295u;
    expect(OWN(1552, FLASH, CS0, both_sets, both_roms) == 81, "whatever the name's width");
    set[ONEROM_SET_SIZE] = 65536;
    expect(OWN(1552, FLASH, CS0, both_sets, both_roms) == 2 && counted(3) && b == 77, "2, own, and nothing was written by any of these");
    set[ONEROM_SET_ROM_COUNT] = 0;
    expect(onerom_read_rom_byte_own(NULL, 0, FLASH, CS0, own_report, rows[0], both_sets, NULL, 0, 1, 5, cs1, job, counts, &b) == 74,
           "74, own, needs no ROM row");
    expect(onerom_read_rom_byte_own(NULL, 0, FLASH, CS0, own_report, NULL, 0, NULL, 0, 1, 5, cs1, job, counts, &b) == 4, "4, own, no row at all");
    expect(counted(3) && b == 77, "nor by these");
}

int main(void) {
    runtime_record();
    boards();
    strings();
    widths();
    long_texts();
    opening();
    names();
    for (job = 0; job < ONEROM_JOBS; job++) {
        reads(1, FLASH);
        reads(5, CS0);
        own_reads(1, FLASH);
        own_reads(5, CS0);
    }
    if (!failed) printf("ok\n");
    return failed;
}
