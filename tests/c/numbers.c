/* The constants of include/onerom.h, each beside its number in document 01 and, where a call can show it, beside what the call answers. */
#include "counts.h"

#define CONSTANT(name, number) expect(name == (number), #name)
/* A refusal: its name, its number, and a call or an item that is refused with it. */
#define REFUSED(name, number, answer)                      \
    do {                                                   \
        CONSTANT(name, number);                            \
        expect((answer) == (number), "answered: " #name);  \
    } while (0)

static uint8_t image[2048];
static uint32_t set_rows[16], rom_rows[16];

/* The small board anew, with one byte of it changed. */
static const uint8_t *changed(uint32_t at, uint8_t to) {
    small_board(image, ONEROM_LINE_F405, FLASH);
    image[at] = to;
    return image;
}

static struct onerom_opening opening(const uint8_t *board) {
    return onerom_open(board, sizeof image, ONEROM_FLASH_BASE, ONEROM_CS0_BASE, ONEROM_INFO_OFFSET, set_rows, 16, rom_rows, 16);
}

static uint32_t opened(uint32_t at, uint8_t to) {
    return opening(changed(at, to)).number;
}

/* The small board as one of 0.5, with metadata of which one byte is changed. */
static uint32_t metadata(uint32_t at, uint8_t to) {
    changed(512 + 6, 5);
    put32(image + 512 + 44, FLASH + 1600);
    memcpy(image + 1600, "ONEROM_METADATA", 16);
    image[1616] = image[1620] = 1;
    put32(image + 1624, FLASH + 768);
    image[1600 + at] = to;
    return opening(image).report.metadata.number;
}

static void openings(void) {
    CONSTANT(ONEROM_ACCEPTED, 0);
    expect(opened(0, 0) == ONEROM_ACCEPTED && metadata(255, 0) == ONEROM_ACCEPTED, "accepted");
    REFUSED(ONEROM_REFUSED_WINDOW, 1, onerom_open(image, 2048, 0xFFFFFFFFu, CS0, 512, NULL, 0, NULL, 0).number);
    REFUSED(ONEROM_REFUSED_ENDED, 2, onerom_open(image, 575, FLASH, CS0, 512, NULL, 0, NULL, 0).number);
    REFUSED(ONEROM_REFUSED_BELOW_BASE, 3, opening(changed(512 + 27, 7)).report.hw_rev.number);
    REFUSED(ONEROM_REFUSED_MAGIC, 10, opened(512, 0));
    REFUSED(ONEROM_REFUSED_LINE, 11, opened(512 + 28, 6));
    REFUSED(ONEROM_REFUSED_STORAGE, 12, opened(512 + 30, 8));
    REFUSED(ONEROM_REFUSED_VERSION, 13, opened(512 + 6, 7));
    REFUSED(ONEROM_REFUSED_UTF8, 21, opening(changed(1216, 0xFF)).report.hw_rev.number);
    REFUSED(ONEROM_REFUSED_METADATA_MAGIC, 30, metadata(15, 1));
    REFUSED(ONEROM_REFUSED_METADATA_VERSION, 31, metadata(16, 2));
    metadata(0, 'O');
    put32(image + 1624, 0);
    REFUSED(ONEROM_REFUSED_METADATA_POINTER, 32, opening(image).report.metadata.number);
    REFUSED(ONEROM_REFUSED_SERVE, 40, opening(changed(768 + 13, 3)).report.rom_sets.number);
    REFUSED(ONEROM_REFUSED_STATE, 41, opening(changed(768 + 14, 3)).report.rom_sets.number);
    REFUSED(ONEROM_REFUSED_TYPE, 42, opening(changed(904, 34)).report.rom_sets.number);
    REFUSED(ONEROM_REFUSED_CS_STATE, 43, opening(changed(905, 3)).report.rom_sets.number);
    changed(0, 0);
    REFUSED(ONEROM_REFUSED_SET_ROWS, 44, onerom_open(image, 2048, FLASH, CS0, 512, NULL, 0, rom_rows, 16).number);
    REFUSED(ONEROM_REFUSED_ROM_ROWS, 45, onerom_open(image, 2048, FLASH, CS0, 512, set_rows, 16, NULL, 0).number);
    REFUSED(ONEROM_REFUSED_SET_ROWS, 44, onerom_open(image, 2048, FLASH, CS0, 512, set_rows, SET_ROW - 1, rom_rows, ROM_ROW).number);
    REFUSED(ONEROM_REFUSED_ROM_ROWS, 45, onerom_open(image, 2048, FLASH, CS0, 512, set_rows, SET_ROW, rom_rows, ROM_ROW - 1).number);
    expect(onerom_open(image, 2048, FLASH, CS0, 512, set_rows, SET_ROW, rom_rows, ROM_ROW).number == 0, "rows that just fit");
    REFUSED(ONEROM_REFUSED_PORT, 50, opening(changed(1024, 6)).report.pins.number);
    changed(512 + 41, 0);
    expect(onerom_open(image, 2048, FLASH, CS0, 512, NULL, 0, NULL, 0).number == 0, "a board without sets needs no rows");
    expect(onerom_open(NULL, 0, FLASH, CS0, 512, NULL, 0, NULL, 0).number == 2, "no image");
}

static void strings(void) {
    uint8_t text[1024];
    uint32_t part[ONEROM_PART_WORDS];
    memset(text, 'x', sizeof text);
    REFUSED(ONEROM_REFUSED_NO_NUL, 20, onerom_string(text, 1024, FLASH, FLASH, part));
}

static void runtime(void) {
    uint8_t r[20] = "sdrr\x14";
    uint32_t words[ONEROM_RUNTIME_WORDS];
    expect(onerom_runtime(r, 20, ONEROM_RAM_BASE, words) == 0, "the least runtime record");
    REFUSED(ONEROM_REFUSED_RUNTIME_BASE, 62, onerom_runtime(r, 20, 0xFFFFFFF8u, words));
    r[4] = 19;
    REFUSED(ONEROM_REFUSED_RUNTIME_SIZE, 61, onerom_runtime(r, 20, ONEROM_RAM_BASE, words));
    r[0] = 'S';
    REFUSED(ONEROM_REFUSED_RUNTIME_MAGIC, 60, onerom_runtime(r, 20, ONEROM_RAM_BASE, words));
    expect(onerom_runtime(NULL, 0, ONEROM_RAM_BASE, words) == 2, "no runtime record");
}

/* ---- mangling */

static uint8_t addr[16], control[ONEROM_CONTROLS], levels[ONEROM_LEVELS];
static uint32_t one_set[SET_ROW], one_rom[ROM_ROW];
static uint32_t value;

/* Address pins 0 to 10, control pins 11 to 15, all raised; one ROM of the type. */
static void wired(uint32_t type, uint32_t raised) {
    static const uint8_t pins[ONEROM_CONTROLS] = {13, 11, 12, 14, 15, 11, 13};
    for (uint32_t i = 0; i < 16; i++) addr[i] = (uint8_t)(i < 11 ? i + raised : ONEROM_NO_PIN);
    for (int i = 0; i < ONEROM_CONTROLS; i++) control[i] = (uint8_t)(pins[i] + raised);
    memset(levels, ONEROM_LOW, sizeof levels);
    one_set[ONEROM_SET_ROM_COUNT] = 1;
    one_rom[ONEROM_ROM_TYPE] = type;
}

static uint32_t mangled(uint8_t rom_pins, uint32_t address) {
    return onerom_mangle(0, rom_pins, addr, control, 1, one_set, SET_ROW, one_rom, ROM_ROW, address, levels, &value);
}

static void mangles(void) {
    wired(ONEROM_TYPE_ROM2316, 0);
    expect(mangled(24, 0x7FF) == 0 && value == 0x7FF, "an address");
    REFUSED(ONEROM_REFUSED_NO_PINS, 70, onerom_mangle(50, 24, addr, control, 1, one_set, SET_ROW, one_rom, ROM_ROW, 0, levels, &value));
    REFUSED(ONEROM_REFUSED_NO_SETS, 71, onerom_mangle(0, 24, addr, control, 0, one_set, SET_ROW, one_rom, ROM_ROW, 0, levels, &value));
    REFUSED(ONEROM_REFUSED_ROW, 4, onerom_mangle(0, 24, addr, control, 1, NULL, 0, one_rom, ROM_ROW, 0, levels, &value));
    REFUSED(ONEROM_REFUSED_ROW, 4, onerom_mangle(0, 24, addr, control, 1, one_set, SET_ROW - 1, one_rom, ROM_ROW, 0, levels, &value));
    REFUSED(ONEROM_REFUSED_ROW, 4, onerom_mangle(0, 24, addr, control, 1, one_set, SET_ROW, one_rom, ROM_ROW - 1, 0, levels, &value));
    REFUSED(ONEROM_REFUSED_ADDRESS, 77, mangled(24, 0x800));
    one_set[ONEROM_SET_ROM_COUNT] = 2;
    expect(mangled(24, 0) == 0, "several ROMs");
    control[ONEROM_CONTROL_X1] = 16;
    REFUSED(ONEROM_REFUSED_X_PIN, 72, mangled(24, 0));
    control[ONEROM_CONTROL_X1] = 14;
    control[ONEROM_CONTROL_X2] = 3;
    REFUSED(ONEROM_REFUSED_X_MAPPED, 73, mangled(24, 0));
    one_set[ONEROM_SET_ROM_COUNT] = 0;
    REFUSED(ONEROM_REFUSED_NO_ROM, 74, mangled(24, 0));
    wired(ONEROM_TYPE_ROM2704, 0);
    REFUSED(ONEROM_REFUSED_UNSUPPORTED, 75, mangled(24, 0));
    wired(ONEROM_TYPE_ROM2316, 0);
    control[ONEROM_CONTROL_CS2] = 16;
    REFUSED(ONEROM_REFUSED_CONTROL_PIN, 76, mangled(24, 0));
    wired(ONEROM_TYPE_ROM28C16, 0);
    REFUSED(ONEROM_REFUSED_ROM28C16, 78, mangled(24, 0));
}

/* 72, 73 and 76 are judged after base-zero, which goes by the ROM pins byte; 76 only for the pins that the type uses. */
static void base_zero(void) {
    wired(ONEROM_TYPE_ROM2316, 8);
    expect(mangled(24, 5) == 0 && value == 5, "raised pins, 24");
    expect(mangled(28, 5) == 76, "raised pins, 28: the control pins stay where they are");
    one_set[ONEROM_SET_ROM_COUNT] = 2;
    expect(mangled(24, 5) == 0, "raised X1 and X2, 24");
    expect(mangled(28, 5) == 72, "raised X1 and X2, 28");
    control[ONEROM_CONTROL_X1] = 8 + 3;
    expect(mangled(24, 5) == 73, "raised X1 at an address line's pin, 24");

    wired(ONEROM_TYPE_ROM2364, 0); /* uses CS1 */
    memset(control + 1, 200, ONEROM_CONTROLS - 1);
    expect(mangled(24, 5) == 0, "2364: other pins than CS1 may be anywhere");
    control[ONEROM_CONTROL_CS1] = ONEROM_NO_PIN;
    expect(mangled(24, 5) == 76, "2364: CS1");
    wired(ONEROM_TYPE_ROM2716, 0); /* uses CE and OE */
    memset(control, 200, 5);
    expect(mangled(24, 5) == 0, "2716: chip selects may be anywhere");
    control[ONEROM_CONTROL_CE] = 16;
    expect(mangled(24, 5) == 76, "2716: CE");
    control[ONEROM_CONTROL_CE] = 11;
    control[ONEROM_CONTROL_OE] = 16;
    expect(mangled(24, 5) == 76, "2716: OE");
}

/* A level that is high raises its pin; only 1 is high. 2316 crosses CS2 and CS3. X1 and X2 count with several ROMs. */
static void raised_levels(void) {
    static const struct {
        int level;
        uint32_t pin;
    } raise[] = {{ONEROM_LEVEL_CS1, 13}, {ONEROM_LEVEL_CS2, 12}, {ONEROM_LEVEL_CS3, 11}, {ONEROM_LEVEL_X1, 14}, {ONEROM_LEVEL_X2, 15}};
    for (int i = 0; i < ONEROM_LEVELS; i++) {
        wired(ONEROM_TYPE_ROM2316, 0);
        one_set[ONEROM_SET_ROM_COUNT] = 2;
        levels[raise[i].level] = ONEROM_HIGH;
        expect(mangled(24, 0) == 0 && value == 1u << raise[i].pin, "a level raises its pin");
        levels[raise[i].level] = 2;
        expect(mangled(24, 0) == 0 && value == 0, "only 1 is high");
    }
    CONSTANT(ONEROM_LEVELS, 5);
    CONSTANT(ONEROM_LOW, 0);
    CONSTANT(ONEROM_HIGH, 1);
    CONSTANT(ONEROM_CONTROLS, 7);
    CONSTANT(ONEROM_NO_PIN, 255);
    CONSTANT(ONEROM_NO_POINTER, 0xFFFFFFFFu);
    /* the control pins' order is that of the report */
    wired(ONEROM_TYPE_ROM2316, 0);
    control[ONEROM_CONTROL_CS1] = 20;
    expect(mangled(28, 0) == 76, "CS1");
    wired(ONEROM_TYPE_ROM2316, 0);
    control[ONEROM_CONTROL_CS3] = 20;
    expect(mangled(28, 0) == 76, "CS3");
    CONSTANT(ONEROM_CONTROL_CS1, 0);
    CONSTANT(ONEROM_CONTROL_CS2, 1);
    CONSTANT(ONEROM_CONTROL_CS3, 2);
    CONSTANT(ONEROM_CONTROL_X1, 3);
    CONSTANT(ONEROM_CONTROL_X2, 4);
    CONSTANT(ONEROM_CONTROL_CE, 5);
    CONSTANT(ONEROM_CONTROL_OE, 6);
}

/* Each type: its number, and its last address; 0 where mangling does not cover it. */
static void types(void) {
    static const struct {
        uint32_t name, last;
    } known[] = {
        {ONEROM_TYPE_ROM2316, 0x7FF},   {ONEROM_TYPE_ROM2332, 0xFFF},    {ONEROM_TYPE_ROM2364, 0x1FFF},   {ONEROM_TYPE_ROM23128, 0x3FFF},
        {ONEROM_TYPE_ROM23256, 0x7FFF}, {ONEROM_TYPE_ROM23512, 0xFFFF},  {ONEROM_TYPE_ROM2704, 0},        {ONEROM_TYPE_ROM2708, 0},
        {ONEROM_TYPE_ROM2716, 0x7FF},   {ONEROM_TYPE_ROM2732, 0xFFF},    {ONEROM_TYPE_ROM2764, 0x1FFF},   {ONEROM_TYPE_ROM27128, 0x3FFF},
        {ONEROM_TYPE_ROM27256, 0x7FFF}, {ONEROM_TYPE_ROM27512, 0xFFFF},  {ONEROM_TYPE_ROM231024, 0x1FFFF}, {ONEROM_TYPE_ROM27C010, 0},
        {ONEROM_TYPE_ROM27C020, 0},     {ONEROM_TYPE_ROM27C040, 0},      {ONEROM_TYPE_ROM27C080, 0},      {ONEROM_TYPE_ROM27C400, 0},
        {ONEROM_TYPE_RAM6116, 0},       {ONEROM_TYPE_ROM27C301, 0},      {ONEROM_TYPE_SYSTEM_PLUGIN, 0},  {ONEROM_TYPE_USER_PLUGIN, 0},
        {ONEROM_TYPE_PIO_PLUGIN, 0},    {ONEROM_TYPE_ROM_SST39SF040, 0}, {ONEROM_TYPE_ROM28C16, 0x7FF},   {ONEROM_TYPE_ROM28C64, 0x1FFF},
        {ONEROM_TYPE_ROM28C256, 0x7FFF}, {ONEROM_TYPE_ROM28C512, 0},     {ONEROM_TYPE_ROM23QL512, 0},     {ONEROM_TYPE_ROM23QL384, 0},
        {ONEROM_TYPE_ROM23C1001, 0},    {ONEROM_TYPE_ROM27C200, 0},
    };
    expect(sizeof known / sizeof known[0] == 34, "34 types");
    for (uint32_t i = 0; i < 34; i++) {
        char text[32];
        uint32_t last = known[i].last, accepted = i == 26 ? 78 : 0;
        snprintf(text, sizeof text, "type %u", (unsigned)i);
        expect(known[i].name == i, text);
        wired(i, 0);
        expect(mangled(24, last) == (last ? accepted : 75) && mangled(24, last + 1) == (last ? 77 : 75), text);
        expect(opened(904, (uint8_t)i) == 0 && rom_rows[ONEROM_ROM_TYPE] == i, text);
    }
    wired(34, 0);
    expect(mangled(24, 0) == 4, "type 34");
}

/* ---- reads */

static void reads(void) {
    struct onerom_report r = opening(changed(0, 0)).report;
    uint8_t b, buffer[4];
    job = 6;
    count_from(0);
    expect(onerom_get_rom_set_size(1, set_rows, SET_ROW, 0, &value) == 0 && value == 16, "size");
    REFUSED(ONEROM_REFUSED_NO_SUCH_SET, 80, onerom_get_rom_set_size(1, set_rows, SET_ROW, 1, &value));
    REFUSED(ONEROM_REFUSED_ROW, 4, onerom_get_rom_set_size(1, NULL, 0, 0, &value));
#define DATA(offset, buffer, length) \
    onerom_read_rom_set_data(image, 2048, FLASH, CS0, r, set_rows, SET_ROW, 0, offset, buffer, length, job, counts)
    REFUSED(ONEROM_REFUSED_PAST_SET, 81, DATA(13, buffer, 4));
    expect(DATA(16, NULL, 0) == 0 && counted(0), "no bytes, into none");
    count_from(0xFFFFFFFFu);
    REFUSED(ONEROM_REFUSED_COUNT, 82, DATA(0, buffer, 4));
    job = ONEROM_JOBS;
    REFUSED(ONEROM_REFUSED_JOB, 83, DATA(0, buffer, 4));
    job = ONEROM_JOBS - 1;
    count_from(0);
    expect(DATA(0, buffer, 4) == 0 && counted(4), "the last job");
    r.pins.data[5] = 8;
    REFUSED(ONEROM_REFUSED_DATA_PIN, 79, onerom_demangle(r.pins.number, r.pins.data, 0, &b));
}

/* A logical read of set 1 goes by set 0's count and type. */
static void by_set_0(void) {
    struct onerom_report r;
    uint32_t sets[2 * SET_ROW], roms[2 * ROM_ROW];
    uint8_t b = 0;
    static const uint8_t low[ONEROM_LEVELS];
    count_from(0);
    r = opening(changed(0, 0)).report;
    for (int i = 0; i < 2; i++) {
        memcpy(sets + i * SET_ROW, set_rows, 4 * SET_ROW);
        memcpy(roms + i * ROM_ROW, rom_rows, 4 * ROM_ROW);
    }
    sets[SET_ROW + ONEROM_SET_FIRST_ROM] = 1;
    r.rom_sets.served = 2;
    roms[ROM_ROW + ONEROM_ROM_TYPE] = ONEROM_TYPE_ROM2704;
#define READ() onerom_read_rom_byte_raw(image, 2048, FLASH, CS0, r, sets, 2 * SET_ROW, roms, 2 * ROM_ROW, 1, 1, 5, low, job, counts, &b)
    expect(READ() == 0 && b == 85, "set 1's own type is not looked at");
    roms[ROM_ROW + ONEROM_ROM_TYPE] = ONEROM_TYPE_ROM2364;
    roms[ONEROM_ROM_TYPE] = ONEROM_TYPE_ROM2704;
    expect(READ() == 75, "set 0's type is");
    roms[ONEROM_ROM_TYPE] = ONEROM_TYPE_ROM2364;
    sets[ONEROM_SET_ROM_COUNT] = 2;
    expect(READ() == 72, "so is its ROM count");
}

/* A read by the set's own ROMs, wrong in every way at first: each step rights what the last number was for, and shows the next. */
static void by_own_roms(void) {
    struct onerom_report r = opening(changed(0, 0)).report;
    uint32_t sets[2 * SET_ROW], roms[2 * ROM_ROW], set = 2, base = 0xFFFFFFFFu, cs0 = 0xFFFFFFFFu, address = 0x10000;
    size_t set_words = SET_ROW, rom_words = 2 * ROM_ROW - 1, len = 1536;
    uint8_t b = 0;
    static const uint8_t low[ONEROM_LEVELS];
    job = 2;
    count_from(0xFFFFFFFFu);
    job = 10;
    memset(sets, 0xFF, sizeof sets);
    memcpy(sets + SET_ROW, set_rows, 4 * SET_ROW);
    memset(roms, 0xFF, sizeof roms);
    r.rom_sets.served = 2;
    r.pins.number = 50;
    r.pins.x1 = r.pins.data[0] = 200;
    r.pins.x2 = 3;
    sets[SET_ROW + ONEROM_SET_FIRST_ROM] = 1;
    sets[SET_ROW + ONEROM_SET_ROM_COUNT] = 2;
    sets[SET_ROW + ONEROM_SET_SIZE] = 0;
#define OWN() onerom_read_rom_byte_own(image, len, base, cs0, r, sets, set_words, roms, rom_words, set, address, low, job, counts, &b)
    REFUSED(ONEROM_REFUSED_WINDOW, 1, OWN());
    base = FLASH;
    REFUSED(ONEROM_REFUSED_WINDOW, 1, OWN());
    cs0 = CS0;
    REFUSED(ONEROM_REFUSED_JOB, 83, OWN());
    job = 2;
    REFUSED(ONEROM_REFUSED_NO_SUCH_SET, 80, OWN());
    r.rom_sets.served = 0;
    REFUSED(ONEROM_REFUSED_NO_SUCH_SET, 80, OWN());
    set = 0;
    expect(OWN() == 80, "nothing is served: 80, and no 71");
    r.rom_sets.served = 2;
    set = 1;
    REFUSED(ONEROM_REFUSED_ROW, 4, OWN());
    set_words = 2 * SET_ROW;
    roms[ROM_ROW + ONEROM_ROM_TYPE] = ONEROM_TYPE_ROM2364;
    expect(OWN() == 4, "a ROM row that lacks its last word, before 70");
    rom_words = 2 * ROM_ROW;
    roms[ROM_ROW + ONEROM_ROM_TYPE] = 34;
    expect(OWN() == 4, "a type above 33, before 70");
    roms[ROM_ROW + ONEROM_ROM_TYPE] = ONEROM_TYPE_ROM2704;
    REFUSED(ONEROM_REFUSED_NO_PINS, 70, OWN());
    r.pins.number = 0;
    REFUSED(ONEROM_REFUSED_X_PIN, 72, OWN());
    r.pins.x1 = 14;
    REFUSED(ONEROM_REFUSED_X_MAPPED, 73, OWN());
    sets[SET_ROW + ONEROM_SET_ROM_COUNT] = 0;
    REFUSED(ONEROM_REFUSED_NO_ROM, 74, OWN());
    sets[SET_ROW + ONEROM_SET_ROM_COUNT] = 1;
    REFUSED(ONEROM_REFUSED_UNSUPPORTED, 75, OWN());
    roms[ROM_ROW + ONEROM_ROM_TYPE] = ONEROM_TYPE_ROM28C16;
    REFUSED(ONEROM_REFUSED_CONTROL_PIN, 76, OWN());
    r.pins.ce = r.pins.oe = 15;
    REFUSED(ONEROM_REFUSED_ADDRESS, 77, OWN());
    address = 5;
    REFUSED(ONEROM_REFUSED_ROM28C16, 78, OWN());
    roms[ROM_ROW + ONEROM_ROM_TYPE] = ONEROM_TYPE_ROM2364;
    REFUSED(ONEROM_REFUSED_PAST_SET, 81, OWN());
    sets[SET_ROW + ONEROM_SET_SIZE] = 6;
    REFUSED(ONEROM_REFUSED_ENDED, 2, OWN());
    len = 1552;
    REFUSED(ONEROM_REFUSED_COUNT, 82, OWN());
    expect(counted(0xFFFFFFFFu), "no count was changed by any of these");
    count_from(0);
    REFUSED(ONEROM_REFUSED_DATA_PIN, 79, OWN());
    r.pins.data[0] = 7;
    expect(b == 0 && OWN() == 0 && b == 170 && counted(1), "set 0's rows, all of them wrong, are not looked at");
}

/* ---- what an opening shows */

static void shown(void) {
    static const uint32_t lines[6] = {ONEROM_LINE_F401DE, ONEROM_LINE_F405,   ONEROM_LINE_F411,
                                      ONEROM_LINE_F446,   ONEROM_LINE_F401BC, ONEROM_LINE_RP2350};
    static const uint32_t storages[8] = {ONEROM_STORAGE_8, ONEROM_STORAGE_B, ONEROM_STORAGE_C, ONEROM_STORAGE_D,
                                         ONEROM_STORAGE_E, ONEROM_STORAGE_F, ONEROM_STORAGE_G, ONEROM_STORAGE_2MB};
    static const uint32_t ports[6] = {ONEROM_PORT_NONE, ONEROM_PORT_A, ONEROM_PORT_B, ONEROM_PORT_C, ONEROM_PORT_D, ONEROM_PORT_0};
    static const uint32_t serves[3] = {ONEROM_SERVE_TWO_CS_ONE_ADDR, ONEROM_SERVE_ADDR_ON_CS, ONEROM_SERVE_ADDR_ON_ANY_CS};
    static const uint32_t states[3] = {ONEROM_STATE_ACTIVE_LOW, ONEROM_STATE_ACTIVE_HIGH, ONEROM_STATE_NOT_USED};
    for (uint8_t i = 0; i < 6; i++) {
        /* only an Rp2350 goes by the CS0 base behind the header */
        small_board(image, i, i == 5 ? CS0 : FLASH);
        struct onerom_opening o = opening(image);
        expect(lines[i] == i && o.number == 0 && o.report.header.line == i && o.report.rom_sets.served == 1, "line");
        o = opening(changed(1024, i));
        expect(ports[i] == i && o.report.pins.number == 0 && o.report.pins.data_port == i, "port");
    }
    for (uint8_t i = 0; i < 8; i++) expect(storages[i] == i && opening(changed(512 + 30, i)).report.header.storage == i, "storage");
    for (uint8_t i = 0; i < 3; i++) {
        expect(serves[i] == i && opened(768 + 13, i) == 0 && set_rows[ONEROM_SET_SERVE] == i, "serve");
        expect(states[i] == i && opened(768 + 14, i) == 0 && set_rows[ONEROM_SET_STATE] == i, "state");
        expect(opened(906, i) == 0 && rom_rows[ONEROM_ROM_CS2] == i, "chip-select state");
    }
    CONSTANT(ONEROM_PIO_OFF, 0);
    CONSTANT(ONEROM_PIO_ON, 1);
    CONSTANT(ONEROM_PIO_NOT_GIVEN, 2);
    CONSTANT(ONEROM_NO_NAME, 1);
    expect(opened(0, 0) == 0 && rom_rows[ONEROM_ROM_NAME_REASON] == ONEROM_NO_NAME, "no name");
    CONSTANT(ONEROM_FLASH_BASE, 134217728u);
    CONSTANT(ONEROM_CS0_BASE, 268435456u);
    CONSTANT(ONEROM_INFO_OFFSET, 512);
    CONSTANT(ONEROM_RAM_BASE, 536870912u);
    CONSTANT(ONEROM_SET_WORDS, 8);
    CONSTANT(ONEROM_ROM_WORDS, 8);
    CONSTANT(ONEROM_ROM_NAME_WIDTH, 7);
    CONSTANT(ONEROM_PART_OFFSET, 0);
    CONSTANT(ONEROM_PART_LENGTH, 1);
    CONSTANT(ONEROM_PART_WIDTH, 2);
    CONSTANT(ONEROM_PART_WORDS, 3);
    CONSTANT(ONEROM_JOBS, 8);
    CONSTANT(ONEROM_RUNTIME_WORDS, 25);
    CONSTANT(ONEROM_ITEM_BUILD_DATE, 0);
    CONSTANT(ONEROM_ITEM_HW_REV, 1);
    CONSTANT(ONEROM_ITEM_EXTRA_INFO, 2);
    CONSTANT(ONEROM_ITEM_METADATA, 3);
    CONSTANT(ONEROM_ITEM_ROM_SETS, 4);
    CONSTANT(ONEROM_ITEM_PINS, 5);
    CONSTANT(ONEROM_ITEMS, 6);
    CONSTANT(ONEROM_VERSION, ONEROM_VERSION_MAJOR * 1000 + ONEROM_VERSION_MINOR);
}

/* The most rows: 255 sets of 255 ROMs each, all of them one ROM. */
static void most_rows(void) {
    static uint8_t big[16384];
    enum { SETS = ONEROM_MAX_SETS * SET_ROW, ROMS = ONEROM_MAX_ROMS * ROM_ROW };
    static uint32_t sets[SETS], roms[ROMS];
    struct onerom_opening o;
    const uint32_t table = 2048, records = 4096;
    small_board(big, ONEROM_LINE_F405, FLASH);
    big[512 + 41] = 255;
    put32(big + 512 + 44, FLASH + records);
    for (uint32_t i = 0; i < 255; i++) {
        put32(big + table + 4 * i, FLASH + 904);
        put32(big + records + 16 * i + 8, FLASH + table);
        big[records + 16 * i + 12] = 255;
    }
    o = onerom_open(big, sizeof big, FLASH, CS0, 512, sets, SETS, roms, ROMS);
    expect(o.number == 0 && o.report.rom_sets.served == 255, "the most rows");
    expect(roms[ROM_ROW * (ONEROM_MAX_ROMS - 1) + ONEROM_ROM_TYPE] == ONEROM_TYPE_ROM2364, "the last of them");
    o = onerom_open(big, sizeof big, FLASH, CS0, 512, sets, SETS - 1, roms, ROMS);
    expect(o.number == 44, "a word less for sets");
    o = onerom_open(big, sizeof big, FLASH, CS0, 512, sets, SETS, roms, ROMS - 1);
    expect(o.number == 45, "a word less for ROMs");
}

/* With an argument: every number that has words, with them. */
static int words(void) {
    for (uint32_t n = 0; n < 1000; n++)
        if (strcmp(onerom_reason(n), onerom_reason(1000)) != 0) printf("%u %s\n", (unsigned)n, onerom_reason(n));
    return 0;
}

int main(int argc, char **argv) {
    (void)argv;
    if (argc == 2) return words();
    openings();
    strings();
    runtime();
    mangles();
    base_zero();
    raised_levels();
    types();
    reads();
    by_set_0();
    by_own_roms();
    shown();
    most_rows();
    if (!failed) printf("ok\n");
    return failed;
}
