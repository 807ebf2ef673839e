/* A count for each job (document 02, wish 4): every read by every job, with a job that there is not, and beside other jobs. */
#include "counts.h"

enum { SIZE = 16, IMAGE = 1536 + SIZE };

/* The reads. A byte's address may be an offset or a logical one. */
enum read { DATA, RAW_RAW, RAW, LOGICAL_RAW, LOGICAL, OWN, READS };

static const char *const names[READS] = {"ROM data", "raw address, raw byte", "raw address", "logical address, raw byte", "logical address", "own ROMs"};

/* The board, and how it is lent. */
static uint8_t image[IMAGE];
static struct onerom_report report;
static uint32_t sets[SET_ROW], roms[ROM_ROW], flash, cs0;
static size_t image_len, set_words, rom_words;

static void whole_board(void) {
    small_board(image, ONEROM_LINE_F405, FLASH);
    report = onerom_open(image, IMAGE, FLASH, CS0, 512, sets, SET_ROW, roms, ROM_ROW).report;
    flash = FLASH;
    cs0 = CS0;
    image_len = IMAGE;
    set_words = SET_ROW;
    rom_words = ROM_ROW;
}

/* What a read left in the lent buffer or value; behind the buffer nothing may be written. */
enum { UNREAD = 0xA5 };
static uint8_t bytes[SIZE + 1];

/* The read `by` of a set from an address on. `length` is that of ROM data, which alone reads other than one byte. */
static uint32_t ask(enum read by, uint32_t set, uint32_t address, size_t length) {
    static const uint8_t low[ONEROM_LEVELS];
    memset(bytes, UNREAD, sizeof bytes);
    switch (by) {
    case DATA:
        return onerom_read_rom_set_data(image, image_len, flash, cs0, report, sets, set_words, set, address, bytes, length, job, counts);
    case OWN:
        return onerom_read_rom_byte_own(image, image_len, flash, cs0, report, sets, set_words, roms, rom_words, set, address, low, job, counts, bytes);
    default:
        return (by == RAW || by == LOGICAL ? onerom_read_rom_byte_demangled : onerom_read_rom_byte_raw)(
            image, image_len, flash, cs0, report, sets, set_words, roms, rom_words, set, by == LOGICAL || by == LOGICAL_RAW, address, low, job, counts,
            bytes);
    }
}

/* The byte of the small board at an offset; demangled its bits are in reverse. */
static uint8_t at(enum read by, uint32_t offset) {
    uint8_t stored = (uint8_t)(17 * offset), value = 0;
    if (by == DATA || by == RAW_RAW || by == LOGICAL_RAW) return stored;
    for (int i = 0; i < 8; i++) value |= (uint8_t)((stored >> i & 1) << (7 - i));
    return value;
}

static int unread(size_t from) {
    for (size_t i = from; i < sizeof bytes; i++)
        if (bytes[i] != UNREAD) return 0;
    return 1;
}

/* Accepted: the bytes from the offset on, and none behind them. */
static int reads(enum read by, uint32_t offset, size_t length) {
    if (ask(by, 0, offset, length) != ONEROM_ACCEPTED) return 0;
    for (size_t i = 0; i < length; i++)
        if (bytes[i] != at(by, offset + (uint32_t)i)) return 0;
    return unread(length);
}

/* Refused, with no byte written and all counts as they were. */
static int refused(uint32_t number, enum read by, uint32_t set, uint32_t address, size_t length) {
    uint32_t before[ONEROM_JOBS];
    memcpy(before, counts, sizeof before);
    return ask(by, set, address, length) == number && unread(0) && memcmp(counts, before, sizeof before) == 0;
}

/* `expect` on a read, by its name. */
static void expect_of(enum read by, int ok, const char *what) {
    char text[128];
    snprintf(text, sizeof text, "%s: %s", names[by], what);
    expect(ok, text);
}

/* An accepted read adds to its job's count, whichever job it is, and leaves the other seven. */
static void each_job(enum read by) {
    whole_board();
    for (job = 0; job < ONEROM_JOBS; job++) {
        count_from(0);
        expect_of(by, reads(by, 5, 1) && counted(1), "a first byte");
        expect_of(by, reads(by, 15, 1) && counted(2), "another");
        expect_of(by, refused(81, by, 0, 16, 1) && refused(80, by, 1, 5, 1), "refused");
        count_from(4294967294u);
        expect_of(by, reads(by, 5, 1) && counted(4294967295u), "the last that is counted");
        expect_of(by, refused(82, by, 0, 5, 1) && counted(4294967295u), "82");
    }
}

/* What else may be wrong beside the job, from the last that is judged to the first. */
static void spoil(int step) {
    switch (step) {
    case 0: whole_board(); break;
    case 1: report.pins.data[0] = 8; break;
    case 2: memset(counts, 0xFF, sizeof counts); break;
    case 3: image_len = 1536; break;
    case 4: sets[ONEROM_SET_SIZE] = 0; break;
    case 5: roms[ONEROM_ROM_TYPE] = 34; break;
    case 6: rom_words--; break;
    case 7: set_words--; break;
    case 8: report.pins.number = 50; break;
    case 9: report.rom_sets.served = 0; break;
    }
}

/* No such job: 83 whatever else is wrong but 1, and nothing is changed. */
static void no_such_job(enum read by) {
    static const uint32_t known[] = {8, 9, 15, 255, 256, 263, 65536, 65539, 4294967288u, 4294967294u, 4294967295u};
    for (size_t i = 0; i < sizeof known / sizeof known[0] + 29; i++) {
        /* and every power of two above 4 */
        job = i < 29 ? 8u << i : known[i - 29];
        count_from(0);
        for (int step = 0; step < 10; step++) {
            spoil(step);
            expect_of(by, refused(83, by, 0, 5, 1) && refused(83, by, 9, 4294967295u, 1), "83 before all but 1");
        }
        expect_of(by, by != DATA || refused(83, by, 0, 0, 0), "83, reading none");
        cs0 = 4294967295u;
        expect_of(by, refused(1, by, 0, 5, 1), "1 before 83, by the CS0 base");
        cs0 = CS0;
        flash = 4294967295u;
        expect_of(by, refused(1, by, 0, 5, 1), "1 before 83, by the flash base");
    }
}

/* 82 looks at the job's own count alone. */
static void full(enum read by) {
    whole_board();
    memset(counts, 0, sizeof counts);
    counts[3] = 4294967295u;
    job = 4;
    expect_of(by, reads(by, 5, 1) && counts[4] == 1 && counts[3] == 4294967295u, "job 3's count full: job 4 reads");
    job = 3;
    expect_of(by, refused(82, by, 0, 5, 1), "job 3 does not");
    expect_of(by, refused(80, by, 9, 5, 1), "job 3, no such set");
    if (by == DATA) expect_of(by, reads(by, 5, 0) && counts[3] == 4294967295u, "job 3 reads none");

    for (job = 0; job < ONEROM_JOBS; job++) {
        memset(counts, 0xFF, sizeof counts);
        counts[job] = 7;
        expect_of(by, reads(by, 5, 1) && counts[job] == 8, "all others full");
        memset(counts, 0, sizeof counts);
        counts[job] = 4294967295u;
        expect_of(by, refused(82, by, 0, 5, 1), "it alone full");
    }
}

/* The size of a set has no job. */
static void size(void) {
    uint32_t value = 0;
    whole_board();
    memset(counts, 0xFF, sizeof counts);
    for (job = 0; job < ONEROM_JOBS; job++) expect(refused(82, DATA, 0, 0, 1), "every count is full");
    expect(onerom_get_rom_set_size(report.rom_sets.served, sets, set_words, 0, &value) == 0 && value == SIZE, "size while every count is full");
}

/* Job 0 reads 10 bytes, job 1 reads 5, job 0 is refused. */
static void ten_and_five(enum read by) {
    static const uint32_t wanted[ONEROM_JOBS] = {10, 5};
    whole_board();
    memset(counts, 0, sizeof counts);
    for (job = 0; job < 2; job++) {
        const uint32_t n = wanted[job], length = by == DATA ? n : 1;
        for (uint32_t i = 0; i < n; i += length) expect_of(by, reads(by, i, length), "10 or 5");
    }
    job = 0;
    expect_of(by, refused(81, by, 0, 16, 1) && memcmp(counts, wanted, sizeof wanted) == 0, "10 and 5 are counted");
}

/* A byte that cannot be demangled is not counted; as stored it is read. */
static void data_pin(enum read by) {
    const int stored = by == DATA || by == RAW_RAW || by == LOGICAL_RAW;
    whole_board();
    report.pins.data[0] = 8;
    for (job = 0; job < ONEROM_JOBS; job++) {
        count_from(3);
        expect_of(by, stored ? reads(by, 5, 1) && counted(4) : refused(79, by, 0, 5, 1) && counted(3), "79");
    }
}

/* ---- jobs by themselves */

enum { CALLS = 400 };

/* A call of a history, and its reply: the number, the bytes, the job's own count. */
struct call {
    enum read by;
    uint32_t job, set, address;
    size_t length;
    uint32_t number, count;
    uint8_t bytes[SIZE + 1];
};

static struct call history[CALLS];

static uint32_t drawn = 1;

static uint32_t below(uint32_t n) {
    drawn = 1664525u * drawn + 1013904223u;
    return (drawn >> 8) % n;
}

/* Runs the call, with its reply to be kept or compared. */
static int run(struct call *c, int keep) {
    job = c->job;
    uint32_t number = ask(c->by, c->set, c->address, c->length), count = job < ONEROM_JOBS ? counts[job] : 0;
    if (keep) {
        c->number = number;
        c->count = count;
        memcpy(c->bytes, bytes, sizeof bytes);
    }
    return c->number == number && c->count == count && memcmp(c->bytes, bytes, sizeof bytes) == 0;
}

/* A history of all reads by all jobs, and then each job's calls alone: the same replies, and the same count in the end. */
static void alone(uint32_t start) {
    uint32_t left[ONEROM_JOBS], sums[ONEROM_JOBS];
    int seen[100] = {0};
    whole_board();
    for (int i = 0; i < ONEROM_JOBS; i++) counts[i] = sums[i] = start + (uint32_t)i;
    for (int i = 0; i < CALLS; i++) {
        struct call *c = &history[i];
        c->by = below(READS);
        c->job = below(10);
        c->set = below(8) ? 0 : 1;
        c->address = below(SIZE + 2);
        c->length = c->by == DATA ? below(SIZE + 1) : 1;
        run(c, 1);
        seen[c->number % 100] = 1;
        if (c->number == 0) sums[c->job] += (uint32_t)c->length;
    }
    expect(memcmp(counts, sums, sizeof sums) == 0, "each count is the sum of its job's accepted lengths");
    expect(seen[0] && seen[83] && seen[80] && seen[81] && seen[82] == (start != 0), "the numbers of a history");
    memcpy(left, counts, sizeof left);
    for (uint32_t one = 0; one < ONEROM_JOBS; one++) {
        for (int i = 0; i < ONEROM_JOBS; i++) counts[i] = start + (uint32_t)i;
        for (int i = 0; i < CALLS; i++) expect(history[i].job != one || run(&history[i], 0), "a job's replies, alone");
        for (uint32_t i = 0; i < ONEROM_JOBS; i++) expect(counts[i] == (i == one ? left[i] : start + i), "the counts after one job alone");
    }
}

int main(void) {
    for (enum read by = DATA; by < READS; by++) {
        each_job(by);
        no_such_job(by);
        full(by);
        ten_and_five(by);
        data_pin(by);
    }
    size();
    alone(0);
    alone(4294967295u - 24);
    if (!failed) printf("ok\n");
    return failed;
}
