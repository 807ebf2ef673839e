/* The read by the set's own ROMs beside the one by set 0's: the cases on which they part, and set 0, on which they agree. */
#include "counts.h"

enum { DATA = 1536, SIZE = 65536 };

static uint8_t image[DATA + SIZE];
static struct onerom_report report;
static uint32_t sets[2 * SET_ROW], roms[2 * ROM_ROW];
static size_t set_words, rom_words;

/* An answer, with the job's count and the byte as the call left them. */
struct answer {
    uint32_t number, count;
    uint8_t byte;
};

/* The byte that stands at an offset of both sets. */
static uint8_t at(uint32_t offset) {
    return (uint8_t)(7 * offset + (offset >> 8));
}

/* 28 pins, A0 to A14 on 0 to 14, CS1 13, CE and OE 15, data pins in order; set 0 a 2364, set 1 a 27256, one ROM each. */
static void two_sets(void) {
    small_board(image, ONEROM_LINE_F405, FLASH);
    report = onerom_open(image, sizeof image, FLASH, CS0, 512, sets, SET_ROW, roms, ROM_ROW).report;
    for (uint32_t i = 0; i < SIZE; i++) image[DATA + i] = at(i);
    report.rom_sets.served = 2;
    report.pins.rom_pins = 28;
    for (uint8_t i = 0; i < 8; i++) report.pins.data[i] = i;
    for (uint8_t i = 0; i < 16; i++) report.pins.addr[i] = i < 15 ? i : ONEROM_NO_PIN;
    report.pins.cs1 = 13;
    report.pins.ce = report.pins.oe = 15;
    sets[ONEROM_SET_SIZE] = SIZE;
    memcpy(sets + SET_ROW, sets, 4 * SET_ROW);
    memcpy(roms + ROM_ROW, roms, 4 * ROM_ROW);
    sets[SET_ROW + ONEROM_SET_FIRST_ROM] = 1;
    roms[ROM_ROW + ONEROM_ROM_TYPE] = ONEROM_TYPE_ROM27256;
    set_words = 2 * SET_ROW;
    rom_words = 2 * ROM_ROW;
}

static struct answer with_count(struct answer a) {
    a.count = counts[job];
    expect(counted(a.count), "the other jobs' counts stay");
    return a;
}

static struct answer by_set_0(uint32_t set, uint32_t address, uint8_t cs1, uint32_t count) {
    const uint8_t levels[ONEROM_LEVELS] = {cs1};
    struct answer a = {0, 0, 0xA5};
    count_from(count);
    a.number = onerom_read_rom_byte_demangled(image, sizeof image, FLASH, CS0, report, sets, set_words, roms, rom_words, set, 1, address, levels,
                                              job, counts, &a.byte);
    return with_count(a);
}

static struct answer by_own(uint32_t set, uint32_t address, uint8_t cs1, uint32_t count) {
    const uint8_t levels[ONEROM_LEVELS] = {cs1};
    struct answer a = {0, 0, 0xA5};
    count_from(count);
    a.number = onerom_read_rom_byte_own(image, sizeof image, FLASH, CS0, report, sets, set_words, roms, rom_words, set, address, levels, job, counts,
                                        &a.byte);
    return with_count(a);
}

static int reads(struct answer a, uint32_t offset) {
    return a.number == 0 && a.count == 1 && a.byte == at(offset);
}

static int refused(struct answer a, uint32_t number) {
    return a.number == number && a.count == 0 && a.byte == 0xA5;
}

static void cases(void) {
    two_sets();
    expect(refused(by_set_0(1, 8192, 0, 0), 77) && reads(by_own(1, 8192, 0, 0), 8192), "set 1 has more addresses than set 0");
    expect(refused(by_own(1, 32768, 0, 0), 77) && refused(by_own(0, 8192, 0, 0), 77), "each set by its own mask");
    expect(reads(by_set_0(1, 5, 1, 0), 8197) && reads(by_own(1, 5, 1, 0), 5), "CS1 is a line of set 0's type, not of set 1's");
    expect(reads(by_set_0(0, 5, 1, 0), 8197) && reads(by_own(0, 5, 1, 0), 8197), "set 0, CS1 high");

    report.pins.number = 50;
    expect(refused(by_set_0(2, 5, 0, 0), 70) && refused(by_own(2, 5, 0, 0), 80), "no pins, set 2 of two");
    set_words = 2 * SET_ROW - 1;
    expect(refused(by_set_0(1, 5, 0, 0), 70) && refused(by_own(1, 5, 0, 0), 4), "no pins, no row of set 1");
    two_sets();
    report.rom_sets.served = 0;
    expect(refused(by_set_0(0, 5, 0, 0), 71) && refused(by_own(0, 5, 0, 0), 80), "nothing is served");

    two_sets();
    sets[ONEROM_SET_ROM_COUNT] = 0;
    expect(refused(by_set_0(1, 5, 0, 0), 74) && reads(by_own(1, 5, 0, 0), 5), "set 0 has no ROM");
    rom_words = 0;
    expect(refused(by_own(0, 5, 0, 0), 74) && refused(by_own(1, 5, 0, 0), 4), "the named set has none, and needs no ROM row");
    two_sets();
    sets[ONEROM_SET_ROM_COUNT] = 2;
    report.pins.x1 = 3;
    report.pins.x2 = 15;
    expect(refused(by_set_0(1, 5, 0, 0), 73) && reads(by_own(1, 5, 0, 0), 5), "set 0 has several ROMs, and X1 is mapped");
    two_sets();
    roms[ONEROM_ROM_TYPE] = 34;
    expect(refused(by_set_0(0, 5, 0, 0), 4) && refused(by_set_0(1, 5, 0, 0), 4), "type 34 in set 0, by set 0");
    expect(refused(by_own(0, 5, 0, 0), 4) && reads(by_own(1, 5, 0, 0), 5), "type 34 in set 0, by the set's own");
}

/* 4: set 0's row, or unless it has no ROM its first ROM row or that row's type. */
static int lacks_rows(void) {
    return set_words < SET_ROW || (sets[ONEROM_SET_ROM_COUNT] != 0 && (rom_words < ROM_ROW || roms[ONEROM_ROM_TYPE] > 33));
}

/* Both reads of set 0: the same byte and count, accepted or refused; numbers that part only so. Answers the new one's. */
static uint32_t agree(uint32_t address, uint32_t count) {
    struct answer old = by_set_0(0, address, 1, count), own = by_own(0, address, 1, count);
    uint32_t number = old.number;
    if (number == 71 || (number == 70 && report.rom_sets.served == 0))
        number = 80;
    else if (number == 70 && lacks_rows())
        number = 4;
    expect(own.number == number && own.count == old.count && own.byte == old.byte, "set 0 by both");
    return own.number;
}

/* What is left to choose by. */
static uint32_t choice;

static uint32_t one_of(uint32_t n) {
    uint32_t one = choice % n;
    choice /= n;
    return one;
}

/* Every combination of what a number of either read can come from, but for the window check. */
static void on_set_0(void) {
    static const uint32_t types[] = {ONEROM_TYPE_ROM2364, ONEROM_TYPE_ROM27256, ONEROM_TYPE_ROM2704, ONEROM_TYPE_ROM28C16, 34};
    static const uint32_t numbers[] = {0, 80, 4, 70, 72, 73, 74, 75, 76, 77, 78, 81, 2, 82, 79};
    int seen[100] = {0};
    two_sets();
    const struct onerom_report whole = report;
    /* once all were there, something is left of the choice */
    for (uint32_t i = 0; choice == 0 && !failed; i++) {
        choice = i;
        report = whole;
        report.pins.number = one_of(2) ? 50 : 0;
        report.pins.data[0] = one_of(2) ? 8 : 0;
        report.pins.cs1 = one_of(2) ? 16 : 13;
        report.pins.x1 = one_of(2) ? 3 : 15;
        report.pins.x2 = one_of(2) ? 200 : 15;
        report.rom_sets.served = one_of(3);
        sets[ONEROM_SET_ROM_COUNT] = one_of(3);
        sets[ONEROM_SET_SIZE] = one_of(2) ? 4 : SIZE;
        sets[ONEROM_SET_DATA_POINTER] = FLASH + DATA + (one_of(2) ? SIZE : 0);
        set_words = SET_ROW - 2 + one_of(3);
        rom_words = ROM_ROW - 2 + one_of(3);
        roms[ONEROM_ROM_TYPE] = types[one_of(5)];
        job = i % ONEROM_JOBS;
        uint32_t address = one_of(2) ? 0x20000 : 5;
        seen[agree(address, one_of(2) ? 0xFFFFFFFFu : 0) % 100] = 1;
    }
    for (size_t i = 0; i < sizeof numbers / sizeof numbers[0]; i++) expect(seen[numbers[i]], "each number came");
    expect(!seen[71], "71 does not");
}

int main(void) {
    for (job = 0; job < ONEROM_JOBS; job++) cases();
    on_set_0();
    if (!failed) printf("ok\n");
    return failed;
}
