/* The structs and the rows of include/onerom.h, field by field: by name, by offset, and by the place in its record that document 01 gives. The board
 * holds a different value in each field, so that two fields which change places are seen. With a path as argument the board is written to
 * it, for the same test in Rust. */
#include "expect.h"

/* A struct of another size, or with a field elsewhere, does not compile. */
#define HOLDS(name, fact) typedef char name[(fact) ? 1 : -1]

HOLDS(header_size, sizeof(struct onerom_header) == 32);
HOLDS(text_size, sizeof(struct onerom_text) == 16);
HOLDS(extra_info_size, sizeof(struct onerom_extra_info) == 16);
HOLDS(metadata_size, sizeof(struct onerom_metadata) == 2);
HOLDS(sets_size, sizeof(struct onerom_sets) == 8);
HOLDS(pins_size, sizeof(struct onerom_pins) == 78);
HOLDS(report_size, sizeof(struct onerom_report) == 172);
HOLDS(opening_size, sizeof(struct onerom_opening) == 176);
HOLDS(report_at, offsetof(struct onerom_opening, report) == 4);

enum {
    HEADER = 512,
    DATE = 640,
    REV = 704,
    EXTRA = 768,
    METADATA = 1024,
    SETS = 1280,
    PINS = 1408,
    TABLES = 1536,
    ROMS = 1600,
    NAME = 1728,
    CONFIG = 1792,
    OVERRIDES = 1856,
    LENGTH = 1920,
    /* behind the image: what is expected where the report does not show a record's bytes */
    NOTES = LENGTH,
    DATE_PART = NOTES,
    REV_PART = NOTES + 16,
    EXTRA_NUMBER = NOTES + 32,
    PIO = NOTES + 33,
    LOOKED_FOR = NOTES + 34,
    METADATA_NUMBER = NOTES + 35,
    SETS_NUMBER = NOTES + 36,
    COUNT = NOTES + 37,
    SERVED = NOTES + 40,
    PINS_NUMBER = NOTES + 44,
    DATA2 = NOTES + 45,
    ADDR2 = NOTES + 53,
    END = NOTES + 72
};

static uint8_t board[END];

/* a field; its offset in the report and its size; where in `board` its value stands */
#define FIELD(member, at, size, from) \
    {#member, offsetof(struct onerom_report, member), sizeof(((struct onerom_report *)0)->member), at, size, from}

static const struct field {
    const char *name;
    size_t held_at, held_size, at, size, from;
} fields[] = {
    FIELD(header.major, 0, 2, HEADER + 4),
    FIELD(header.minor, 2, 2, HEADER + 6),
    FIELD(header.patch, 4, 2, HEADER + 8),
    FIELD(header.build, 6, 2, HEADER + 10),
    FIELD(header.freq, 8, 2, HEADER + 32),
    FIELD(header.commit, 10, 8, HEADER + 16),
    FIELD(header.line, 18, 1, HEADER + 28),
    FIELD(header.storage, 19, 1, HEADER + 30),
    FIELD(header.overclock, 20, 1, HEADER + 34),
    FIELD(header.swd_enabled, 21, 1, HEADER + 35),
    FIELD(header.preload_image_to_ram, 22, 1, HEADER + 36),
    FIELD(header.bootloader_capable, 23, 1, HEADER + 37),
    FIELD(header.status_led_enabled, 24, 1, HEADER + 38),
    FIELD(header.boot_logging_enabled, 25, 1, HEADER + 39),
    FIELD(header.mco_enabled, 26, 1, HEADER + 40),
    FIELD(header.count_rom_access, 27, 1, HEADER + 42),
    FIELD(header.boot_config, 28, 4, HEADER + 52),
    FIELD(build_date.number, 32, 1, DATE_PART),
    FIELD(build_date.offset, 36, 4, DATE_PART + 4),
    FIELD(build_date.length, 40, 4, DATE_PART + 8),
    FIELD(build_date.width, 44, 4, DATE_PART + 12),
    FIELD(hw_rev.number, 48, 1, REV_PART),
    FIELD(hw_rev.offset, 52, 4, REV_PART + 4),
    FIELD(hw_rev.length, 56, 4, REV_PART + 8),
    FIELD(hw_rev.width, 60, 4, REV_PART + 12),
    FIELD(extra_info.number, 64, 1, EXTRA_NUMBER),
    FIELD(extra_info.usb_dfu, 65, 1, EXTRA + 4),
    FIELD(extra_info.usb_port, 66, 1, EXTRA + 5),
    FIELD(extra_info.vbus_pin, 67, 1, EXTRA + 6),
    FIELD(extra_info.fire_pio_default, 68, 1, PIO),
    FIELD(extra_info.rtt_ptr, 72, 4, EXTRA + 0),
    FIELD(extra_info.runtime_info_ptr, 76, 4, EXTRA + 8),
    FIELD(metadata.looked_for, 80, 1, LOOKED_FOR),
    FIELD(metadata.number, 81, 1, METADATA_NUMBER),
    FIELD(rom_sets.number, 84, 1, SETS_NUMBER),
    FIELD(rom_sets.rom_set_count, 85, 1, COUNT),
    FIELD(rom_sets.served, 88, 4, SERVED),
    FIELD(pins.number, 92, 1, PINS_NUMBER),
    FIELD(pins.data_port, 93, 1, PINS + 0),
    FIELD(pins.addr_port, 94, 1, PINS + 1),
    FIELD(pins.cs_port, 95, 1, PINS + 2),
    FIELD(pins.sel_port, 96, 1, PINS + 3),
    FIELD(pins.status_port, 97, 1, PINS + 4),
    FIELD(pins.rom_pins, 98, 1, PINS + 5),
    FIELD(pins.data, 99, 8, PINS + 8),
    FIELD(pins.addr, 107, 16, PINS + 16),
    FIELD(pins.cs1, 123, 1, PINS + 36),
    FIELD(pins.cs2, 124, 1, PINS + 37),
    FIELD(pins.cs3, 125, 1, PINS + 38),
    FIELD(pins.reserved2a, 126, 1, PINS + 39),
    FIELD(pins.reserved2b, 127, 1, PINS + 40),
    FIELD(pins.reserved2c, 128, 1, PINS + 41),
    FIELD(pins.x1, 129, 1, PINS + 42),
    FIELD(pins.x2, 130, 1, PINS + 43),
    FIELD(pins.ce, 131, 1, PINS + 44),
    FIELD(pins.oe, 132, 1, PINS + 45),
    FIELD(pins.x_jumper_pull, 133, 1, PINS + 46),
    FIELD(pins.swclk_sel, 134, 1, PINS + 50),
    FIELD(pins.swdio_sel, 135, 1, PINS + 51),
    FIELD(pins.sel0, 136, 1, PINS + 52),
    FIELD(pins.sel1, 137, 1, PINS + 53),
    FIELD(pins.sel2, 138, 1, PINS + 54),
    FIELD(pins.sel3, 139, 1, PINS + 55),
    FIELD(pins.sel4, 140, 1, PINS + 56),
    FIELD(pins.sel5, 141, 1, PINS + 57),
    FIELD(pins.sel6, 142, 1, PINS + 58),
    FIELD(pins.sel_jumper_pull, 143, 1, PINS + 59),
    FIELD(pins.status, 144, 1, PINS + 60),
    FIELD(pins.extended, 145, 1, PINS + 63),
    FIELD(pins.data2, 146, 8, DATA2),
    FIELD(pins.addr2, 154, 16, ADDR2),
};
#define FIELDS (sizeof fields / sizeof fields[0])
#define PADDING 15

static void layout(void) {
    size_t i, sum = 0;
    for (i = 0; i < FIELDS; i++) {
        expect(fields[i].held_at == fields[i].at && fields[i].held_size == fields[i].size, fields[i].name);
        sum += fields[i].size;
    }
    expect(sum == sizeof(struct onerom_report) - PADDING, "every field of the report is in the table");
}

/* Each field by its name (where the compiler has it) and by its offset. */
static void same(const struct onerom_report *r, const uint8_t *expected, const char *what) {
    const uint8_t *held = (const uint8_t *)r;
    char text[128];
    for (size_t i = 0; i < FIELDS; i++) {
        const struct field *f = &fields[i];
        snprintf(text, sizeof text, "%s: %s", what, f->name);
        expect(memcmp(held + f->held_at, expected + f->from, f->size) == 0, text);
        expect(memcmp(held + f->at, expected + f->from, f->size) == 0, text);
    }
}

static void note_part(uint32_t at, uint32_t number, uint32_t offset, uint32_t length, uint32_t width) {
    put32(board + at, number);
    put32(board + at + 4, offset);
    put32(board + at + 8, length);
    put32(board + at + 12, width);
}

/* Two sets, of 2 and of 3 ROMs, at stride 64. */
static void put_sets(void) {
    uint8_t *s = board + SETS;
    for (uint32_t i = 0; i < 2; i++, s += 64) {
        put32(s, FLASH + 0x10203 + i);
        put32(s + 4, 0x40506 + i);
        put32(s + 8, FLASH + TABLES + 8 * i);
        s[12] = (uint8_t)(2 + i);
        s[13] = (uint8_t)(2 - i);
        s[14] = (uint8_t)i;
        s[15] = 1;
        put32(s + 16, FLASH + CONFIG);
        put32(s + 20, FLASH + OVERRIDES);
    }
    for (uint32_t i = 0; i < 5; i++) {
        uint8_t *rom = board + ROMS + 8 * i;
        put32(board + TABLES + 4 * i, FLASH + ROMS + 8 * i);
        rom[0] = (uint8_t)(29 + i);
        rom[1] = (uint8_t)((2 + i) % 3);
        rom[2] = (uint8_t)(i % 3);
        rom[3] = (uint8_t)((1 + i) % 3);
        put32(rom + 4, i == 3 ? ONEROM_NO_POINTER : FLASH + NAME + i);
    }
    memcpy(board + NAME, "mains\xC3\xA9l", 9);
}

/* Firmware 0.6 on an F401BC. The bytes of its records differ, as far as they are free, and its texts have more bytes than characters. */
static void make(void) {
    uint8_t *h = board + HEADER;
    memset(board, 0, END);
    memcpy(h, "SDRR", 4);
    put16(h + 6, 6);
    put16(h + 8, 0x2221);
    put16(h + 10, 0x2423);
    put32(h + 12, FLASH + DATE);
    memcpy(h + 16, "\x31\x32\x33\x34\x35\x36\x37\x38", 8);
    put32(h + 24, FLASH + REV);
    h[28] = 4;
    h[30] = 7;
    put16(h + 32, 0x4241);
    h[41] = 99;
    put32(h + 44, FLASH + METADATA);
    put32(h + 48, FLASH + PINS);
    memcpy(h + 52, "\x51\x52\x53\x54", 4);
    put32(h + 56, FLASH + EXTRA);
    memcpy(board + DATE, "5 ao\xC3\xBBt 2026", 13);
    memcpy(board + REV, "pi\xC3\xA8" "ce", 7);
    put32(board + EXTRA, 0x64636261);
    board[EXTRA + 5] = 3;
    board[EXTRA + 6] = 0x65;
    put32(board + EXTRA + 8, 0x69686766);
    memcpy(board + METADATA, "ONEROM_METADATA", 16);
    board[METADATA + 16] = 1;
    board[METADATA + 20] = 2;
    put32(board + METADATA + 24, FLASH + SETS);
    put_sets();
    for (int i = 0; i < 88; i++) board[PINS + i] = (uint8_t)(100 + i);
    memcpy(board + PINS, "\5\2\4\0\3", 5);
    board[PINS + 63] = 1;

    note_part(DATE_PART, 0, DATE, 12, 11);
    note_part(REV_PART, 0, REV, 6, 5);
    board[LOOKED_FOR] = 1;
    board[COUNT] = 2;
    put32(board + SERVED, 2);
    memcpy(board + DATA2, board + PINS + 64, 24);
}

static uint32_t rows[2][64];

static struct onerom_opening opened(void) {
    struct onerom_opening o;
    o = onerom_open(board, LENGTH, FLASH, CS0, HEADER, rows[0], 64, rows[1], 64);
    expect(o.number == 0, "opened");
    return o;
}

static void whole_board(const char *what) {
    struct onerom_opening o = opened();
    same(&o.report, board, what);
}

static void flags(void) {
    make();
    for (int at = 34; at <= 42; at++) {
        if (at == 41) continue;
        board[HEADER + at] = 1;
        whole_board("one flag");
        board[HEADER + at] = 0;
    }
    board[EXTRA + 4] = 1;
    whole_board("USB DFU");
    board[EXTRA + 4] = 0;
    board[EXTRA + 7] = board[PIO] = ONEROM_PIO_ON;
    whole_board("PIO on");
    make();
    put16(board + HEADER + 6, 5);
    board[SETS + 15] = board[SETS + 64 + 15] = 0; /* at 0.5 the stride is 16 */
    memmove(board + SETS + 16, board + SETS + 64, 16);
    board[EXTRA + 7] = 1;
    board[PIO] = ONEROM_PIO_NOT_GIVEN;
    whole_board("PIO not given below 0.6.0");
}

/* Below 0.5.0 metadata is not looked for, and the header's count and pointer go. */
static void not_looked_for(void) {
    make();
    put16(board + HEADER + 6, 4);
    board[HEADER + 41] = 0;
    board[PIO] = ONEROM_PIO_NOT_GIVEN;
    board[LOOKED_FOR] = board[COUNT] = board[SERVED] = 0;
    whole_board("metadata not looked for");
}

/* Every item is refused, with a number of its own; the fields of each are then fixed. */
static void refused_items(void) {
    static uint8_t expected[END];
    struct onerom_opening o;
    make();
    memcpy(expected, board, END);
    board[DATE] = 0xFF;
    memset(board + REV, 'x', 64);
    put32(board + HEADER + 24, FLASH + LENGTH - 64);
    put32(board + HEADER + 56, FLASH - 1);
    board[ROMS + 8] = 34;
    board[PINS + 4] = 6;
    memset(board + LENGTH - 64, 'x', 64);
    memset(expected + NOTES, 0, END - NOTES);
    memset(expected + EXTRA, 0, 12);
    memset(expected + PINS, 0, 88);
    expected[DATE_PART] = ONEROM_REFUSED_UTF8;
    expected[REV_PART] = ONEROM_REFUSED_ENDED;
    expected[EXTRA_NUMBER] = ONEROM_REFUSED_BELOW_BASE;
    expected[PIO] = ONEROM_PIO_NOT_GIVEN;
    put32(expected + EXTRA + 8, ONEROM_NO_POINTER);
    expected[LOOKED_FOR] = 1;
    expected[SETS_NUMBER] = ONEROM_REFUSED_TYPE;
    expected[COUNT] = 2;
    expected[PINS_NUMBER] = ONEROM_REFUSED_PORT;
    o = opened();
    same(&o.report, expected, "refused items");
    expect(onerom_item_number(&o.report, ONEROM_ITEM_BUILD_DATE) == 21, "item: build date");
    expect(onerom_item_number(&o.report, ONEROM_ITEM_HW_REV) == 2, "item: revision");
    expect(onerom_item_number(&o.report, ONEROM_ITEM_EXTRA_INFO) == 3, "item: extra info");
    expect(onerom_item_number(&o.report, ONEROM_ITEM_METADATA) == 0, "item: metadata");
    expect(onerom_item_number(&o.report, ONEROM_ITEM_ROM_SETS) == 42, "item: sets");
    expect(onerom_item_number(&o.report, ONEROM_ITEM_PINS) == 50, "item: pins");
    /* no sets are found where metadata is refused */
    board[METADATA] = 0;
    expected[METADATA_NUMBER] = ONEROM_REFUSED_METADATA_MAGIC;
    expected[SETS_NUMBER] = expected[COUNT] = 0;
    o = opened();
    same(&o.report, expected, "metadata refused");
    expect(onerom_item_number(&o.report, ONEROM_ITEM_METADATA) == 30, "item: metadata, refused");
    /* but where it is ended the sets are too */
    put32(board + HEADER + 44, FLASH + LENGTH - 255);
    expected[METADATA_NUMBER] = expected[SETS_NUMBER] = ONEROM_REFUSED_ENDED;
    o = opened();
    same(&o.report, expected, "metadata ended");
}

/* Of a refused opening every field is fixed. */
static void refused_openings(void) {
    static uint8_t expected[END];
    static const uint32_t at[4] = {0, 28, 30, 6};
    struct onerom_opening o;
    char text[32];
    expected[PIO] = ONEROM_PIO_NOT_GIVEN;
    put32(expected + EXTRA + 8, ONEROM_NO_POINTER);
    for (uint32_t i = 0; i < 4; i++) {
        make();
        board[HEADER + at[i]] = 9; /* magic, line, storage, minor */
        o = onerom_open(board, LENGTH, FLASH, CS0, HEADER, rows[0], 64, rows[1], 64);
        snprintf(text, sizeof text, "opening refused with %u", 10 + (unsigned)i);
        expect(o.number == 10 + i, text);
        same(&o.report, expected, text);
    }
    make();
    o = onerom_open(board, LENGTH, FLASH, 0xFFFFFFFFu, HEADER, rows[0], 64, rows[1], 64);
    expect(o.number == 1, "opening refused with 1");
    same(&o.report, expected, "opening refused with 1");
    o = onerom_open(board, HEADER + 63, FLASH, CS0, HEADER, rows[0], 64, rows[1], 64);
    expect(o.number == 2, "opening refused with 2");
    same(&o.report, expected, "opening refused with 2");
    o = onerom_open(board, LENGTH, FLASH, CS0, HEADER, rows[0], 2 * SET_ROW - 1, rows[1], 64);
    expect(o.number == 44, "opening refused with 44");
    same(&o.report, expected, "opening refused with 44");
    o = onerom_open(board, LENGTH, FLASH, CS0, HEADER, rows[0], 64, rows[1], 5 * ROM_ROW - 1);
    expect(o.number == 45, "opening refused with 45");
    same(&o.report, expected, "opening refused with 45");
}

/* The second arrays are zeros unless extended is 1, whatever the record holds there. */
static void not_extended(void) {
    make();
    memset(board + DATA2, 0, 24);
    for (unsigned extended = 0; extended < 256; extended++) {
        if (extended == 1) continue;
        board[PINS + 63] = (uint8_t)extended;
        whole_board("not extended");
    }
}

static void row_words(void) {
    make();
    opened();
    for (uint32_t i = 0; i < 2; i++) {
        const uint32_t *s = rows[0] + SET_ROW * i;
        expect(s[ONEROM_SET_DATA_POINTER] == FLASH + 0x10203 + i && s[ONEROM_SET_SIZE] == 0x40506 + i, "set row: data pointer, size");
        expect(s[ONEROM_SET_FIRST_ROM] == 2 * i && s[ONEROM_SET_ROM_COUNT] == 2 + i, "set row: first ROM, ROM count");
        expect(s[ONEROM_SET_SERVE] == 2 - i && s[ONEROM_SET_STATE] == i, "set row: serve, state");
        expect(s[ONEROM_SET_CONFIG] == FLASH + CONFIG && s[ONEROM_SET_OVERRIDES] == FLASH + OVERRIDES, "set row: config, overrides");
    }
    for (uint32_t i = 0; i < 5; i++) {
        const uint32_t *r = rows[1] + ROM_ROW * i;
        expect(r[ONEROM_ROM_TYPE] == 29 + i, "ROM row: type");
        expect(r[ONEROM_ROM_CS1] == (2 + i) % 3 && r[ONEROM_ROM_CS2] == i % 3 && r[ONEROM_ROM_CS3] == (1 + i) % 3, "ROM row: states");
        expect(r[ONEROM_ROM_NAME_OFFSET] == (i == 3 ? 0 : NAME + i), "ROM row: name's offset");
        expect(r[ONEROM_ROM_NAME_LENGTH] == (i == 3 ? 0 : 8 - i), "ROM row: name's length");
        expect(r[ONEROM_ROM_NAME_REASON] == (i == 3 ? ONEROM_NO_NAME : 0), "ROM row: name's reason");
        expect(r[ONEROM_ROM_NAME_WIDTH] == (i == 3 ? 0 : 7 - i), "ROM row: name's width");
    }
    expect(rows[0][SET_ROW * 2] == 0 && rows[1][ROM_ROW * 5] == 0, "no row more");
}

/* The words of a string's part, by name. */
static void part_words(void) {
    uint32_t part[ONEROM_PART_WORDS];
    make();
    expect(onerom_string(board, LENGTH, FLASH, FLASH + DATE, part) == 0, "a string");
    expect(ONEROM_PART_OFFSET == 0 && part[ONEROM_PART_OFFSET] == DATE, "part: offset");
    expect(ONEROM_PART_LENGTH == 1 && part[ONEROM_PART_LENGTH] == 12, "part: length");
    expect(ONEROM_PART_WIDTH == 2 && part[ONEROM_PART_WIDTH] == 11, "part: width");
}

/* The words of a runtime record, by name. */
static void runtime_words(void) {
    uint8_t r[64];
    uint32_t w[ONEROM_RUNTIME_WORDS];
    for (int i = 0; i < 64; i++) r[i] = (uint8_t)(100 + i);
    memcpy(r, "sdrr\x40", 5);
    r[24] = r[26] = 1; /* overclock, SWD */
    r[25] = 0;         /* LED */
    r[27] = 17;
    r[34] = 0;
    r[35] = 2;
    r[36] = 0;
    r[38] = 1;
    r[56] = 3;
#define WORD(name, place, value) expect(name == place && w[name] == (value), #name)
    expect(onerom_runtime(r, 64, ONEROM_RAM_BASE, w) == 0, "a runtime record");
    WORD(ONEROM_RUNTIME_IMAGE, 0, 105);
    WORD(ONEROM_RUNTIME_SET, 1, 106);
    WORD(ONEROM_RUNTIME_COUNTING, 2, 107);
    WORD(ONEROM_RUNTIME_ACCESS_COUNT, 3, 0x6F6E6D6C);
    WORD(ONEROM_RUNTIME_ACCESS_COUNT_ADDRESS, 4, 0x20000008);
    WORD(ONEROM_RUNTIME_TABLE, 5, 0x73727170);
    WORD(ONEROM_RUNTIME_TABLE_SIZE, 6, 0x77767574);
    WORD(ONEROM_RUNTIME_060, 7, 1);
    WORD(ONEROM_RUNTIME_060_OVERCLOCK, 8, 1);
    WORD(ONEROM_RUNTIME_060_STATUS_LED, 9, 0);
    WORD(ONEROM_RUNTIME_060_SWD, 10, 1);
    WORD(ONEROM_RUNTIME_060_VOLTAGE, 11, 17);
    WORD(ONEROM_RUNTIME_060_ICE_MHZ, 12, 0x8180);
    WORD(ONEROM_RUNTIME_060_FIRE_MHZ, 13, 0x8382);
    WORD(ONEROM_RUNTIME_060_SYSCLK_MHZ, 14, 0x8584);
    WORD(ONEROM_RUNTIME_062, 15, 1);
    WORD(ONEROM_RUNTIME_062_SERVE_MODE, 16, 0);
    WORD(ONEROM_RUNTIME_062_BIT_MODE, 17, 2);
    WORD(ONEROM_RUNTIME_063, 18, 1);
    WORD(ONEROM_RUNTIME_063_DMA_COPY, 19, 0);
    WORD(ONEROM_RUNTIME_063_DATA_PINS, 20, 137);
    WORD(ONEROM_RUNTIME_063_FORCE_16_BIT, 21, 1);
    WORD(ONEROM_RUNTIME_067, 22, 1);
    WORD(ONEROM_RUNTIME_067_PERI, 23, 139);
    WORD(ONEROM_RUNTIME_067_LIMP, 24, 3);
}

int main(int argc, char **argv) {
    layout();
    make();
    if (argc == 2) {
        FILE *f = fopen(argv[1], "wb");
        expect(f != NULL && fwrite(board, 1, LENGTH, f) == LENGTH && fclose(f) == 0, "the board is written");
    }
    whole_board("the board");
    flags();
    not_looked_for();
    refused_items();
    refused_openings();
    not_extended();
    row_words();
    part_words();
    runtime_words();
    if (!failed) printf("ok\n");
    return failed;
}
