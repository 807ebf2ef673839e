/* Opens a dump of a board's flash, lists its sets, says which are the same, and reads the first bytes of each: as they are stored, and as its socket
 * sees them with every line low. Each of the two is a job, with a count of its own.
 *
 *     (cd crates/onerom_c && rt lib && cp out/libonerom_c.a out/libonerom.a)
 *     cc -Iinclude examples/c/board.c crates/onerom_c/out/libonerom.a -o board && ./board DUMP */
#include <errno.h>
#include <inttypes.h>
#include <stdio.h>
#include <stdlib.h>
#include <string.h>

#include "onerom.h"

/* rows for whatever a board may have */
#define SET_WORDS (ONEROM_MAX_SETS * ONEROM_SET_WORDS)
#define ROM_WORDS (ONEROM_MAX_ROMS * ONEROM_ROM_WORDS)

static uint32_t set_rows[SET_WORDS];
static uint32_t rom_rows[ROM_WORDS];

/* the jobs of this program */
enum { STORED = 0, SEEN = 1 };

/* how many bytes each job has read; all 0 at the opening */
static uint32_t counts[ONEROM_JOBS];

/* The whole file, which the caller frees; or NULL, and errno says why. */
static uint8_t *load(const char *path, size_t *len)
{
    FILE *f = fopen(path, "rb");
    uint8_t *bytes = NULL;
    size_t room = 0;
    int is_read = f != NULL;
    for (*len = 0; is_read && *len == room; ) {
        uint8_t *more = realloc(bytes, room += 65536);
        is_read = more != NULL;
        if (is_read) {
            bytes = more;
            *len += fread(bytes + *len, 1, room - *len, f);
            is_read = !ferror(f);
        }
    }
    int error = errno;
    if (f != NULL)
        fclose(f);
    if (!is_read) {
        free(bytes);
        bytes = NULL;
    }
    errno = error;
    return bytes;
}

/* How many bytes the character has that starts at s, of n bytes, and its number; 0 where what starts there is no UTF-8. */
static size_t character(const uint8_t *s, size_t n, uint32_t *c)
{
    static const uint32_t least[] = {0, 0, 0x80, 0x800, 0x10000};
    size_t k = s[0] < 0x80 ? 1 : s[0] < 0xc0 ? 0 : s[0] < 0xe0 ? 2 : s[0] < 0xf0 ? 3 : s[0] < 0xf8 ? 4 : 0;
    if (k == 0 || k > n)
        return 0;
    *c = k == 1 ? s[0] : s[0] & (0x7fu >> k);
    for (size_t i = 1; i < k; i++) {
        if ((s[i] & 0xc0) != 0x80)
            return 0;
        *c = *c << 6 | (s[i] & 0x3f);
    }
    return *c < least[k] || *c > 0x10ffff || (*c >= 0xd800 && *c < 0xe000) ? 0 : k;
}

/* Characters that a reader does not see, and that can change how the rest of a line looks. */
static int is_hidden(uint32_t c)
{
    return c == 0x061c || (c >= 0x200b && c <= 0x200f) || (c >= 0x2028 && c <= 0x202e) || (c >= 0x2060 && c <= 0x2064)
        || (c >= 0x2066 && c <= 0x2069) || c == 0xfeff;
}

/* Text of the dump or the command line, as the bench shows it: a backslash, a control character and what is no UTF-8 are \x and two digits for
 * each byte, hidden characters \u and four. */
static void print_text(FILE *to, const uint8_t *s, size_t n)
{
    for (size_t i = 0; i < n;) {
        uint32_t c = 0;
        size_t k = character(s + i, n - i, &c);
        size_t end = i + (k == 0 ? 1 : k);
        if (k != 0 && is_hidden(c))
            fprintf(to, "\\u%04" PRIx32, c);
        else if (k == 0 || c < 32 || c == '\\' || (c >= 127 && c < 160))
            for (size_t at = i; at < end; at++)
                fprintf(to, "\\x%02x", s[at]);
        else
            fwrite(s + i, 1, k, to);
        i = end;
    }
}

/* A set's name is that of its first ROM, a part of the image; beside it how many characters it has, as stored. */
static void print_name(const uint8_t *image, const uint32_t *set)
{
    const uint32_t *rom = rom_rows + set[ONEROM_SET_FIRST_ROM] * ONEROM_ROM_WORDS;
    if (set[ONEROM_SET_ROM_COUNT] != 0 && rom[ONEROM_ROM_NAME_REASON] == 0) {
        print_text(stdout, image + rom[ONEROM_ROM_NAME_OFFSET], rom[ONEROM_ROM_NAME_LENGTH]);
        printf(" (%" PRIu32 " character%s)", rom[ONEROM_ROM_NAME_WIDTH], rom[ONEROM_ROM_NAME_WIDTH] == 1 ? "" : "s");
    } else {
        printf("(no name)");
    }
}

static void print_same(uint32_t served)
{
    for (uint32_t a = 0; a < served; a++)
        for (uint32_t b = a + 1; b < served; b++) {
            uint32_t same = 0;
            if (onerom_same_set(served, set_rows, SET_WORDS, rom_rows, ROM_WORDS, a, b, &same) == ONEROM_ACCEPTED && same == 1)
                printf("sets %" PRIu32 " and %" PRIu32 " are the same\n", a, b);
        }
}

/* The first bytes of a set as its socket sees them, by its own ROMs; answers the first refusal, if there is one. */
static uint32_t at_socket(const uint8_t *image, size_t len, const struct onerom_opening *o, uint32_t set, uint8_t front[4])
{
    static const uint8_t low[ONEROM_LEVELS] = {ONEROM_LOW, ONEROM_LOW, ONEROM_LOW, ONEROM_LOW, ONEROM_LOW};
    uint32_t number = ONEROM_ACCEPTED;
    for (uint32_t address = 0; address < 4 && number == ONEROM_ACCEPTED; address++)
        number = onerom_read_rom_byte_own(image, len, ONEROM_FLASH_BASE, ONEROM_CS0_BASE, o->report, set_rows, SET_WORDS, rom_rows, ROM_WORDS, set,
                                          address, low, SEEN, counts, &front[address]);
    return number;
}

/* The bytes, or why there are none. */
static void print_read(uint32_t number, const char *what, const uint8_t front[4])
{
    if (number == ONEROM_ACCEPTED)
        printf("%s%02x %02x %02x %02x", what, front[0], front[1], front[2], front[3]);
    else
        printf("refused %" PRIu32 ": %s", number, onerom_reason(number));
}

/* A line for each set. */
static void print_sets(const uint8_t *image, size_t len, const struct onerom_opening *o)
{
    for (uint32_t i = 0; i < o->report.rom_sets.served; i++) {
        const uint32_t *set = set_rows + i * ONEROM_SET_WORDS;
        const uint32_t roms = set[ONEROM_SET_ROM_COUNT];
        uint8_t front[4], seen[4];
        uint32_t number = onerom_read_rom_set_data(image, len, ONEROM_FLASH_BASE, ONEROM_CS0_BASE, o->report, set_rows, SET_WORDS, i, 0,
                                                   front, sizeof front, STORED, counts);
        uint32_t own = at_socket(image, len, o, i, seen);
        printf("set %" PRIu32 ": %" PRIu32 " bytes, %" PRIu32 " ROM%s, ", i, set[ONEROM_SET_SIZE], roms, roms == 1 ? "" : "s");
        print_name(image, set);
        printf(", ");
        print_read(number, "starts ", front);
        printf(", at its socket ");
        print_read(own, "", seen);
        printf("\n");
    }
}

int main(int argc, char **argv)
{
    if (argc != 2) {
        fprintf(stderr, "usage: board DUMP\n");
        return 2;
    }
    size_t len = 0;
    uint8_t *image = load(argv[1], &len);
    int error = errno;
    if (image == NULL) {
        print_text(stderr, (const uint8_t *)argv[1], strlen(argv[1]));
        fprintf(stderr, ": %s\n", strerror(error));
        return 1;
    }
    struct onerom_opening o = onerom_open(image, len, ONEROM_FLASH_BASE, ONEROM_CS0_BASE, ONEROM_INFO_OFFSET, set_rows, SET_WORDS, rom_rows, ROM_WORDS);
    if (o.number != ONEROM_ACCEPTED) {
        print_text(stderr, (const uint8_t *)argv[1], strlen(argv[1]));
        fprintf(stderr, ": refused %" PRIu32 ": %s\n", o.number, onerom_reason(o.number));
        free(image);
        return 1;
    }
    printf("firmware %u.%u.%u\n", o.report.header.major, o.report.header.minor, o.report.header.patch);
    print_sets(image, len, &o);
    print_same(o.report.rom_sets.served);
    printf("%" PRIu32 " bytes read as stored, %" PRIu32 " at the sockets\n", counts[STORED], counts[SEEN]);
    free(image);
    if (fflush(stdout) != 0 || ferror(stdout)) {
        fprintf(stderr, "the answer could not all be written\n");
        return 1;
    }
    return 0;
}
