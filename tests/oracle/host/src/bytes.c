/* The benchmark's byte reads as a C program makes them: each address of a set once, by a report that is handed back. Rust would copy the report
 * for each call by `rep movs`, which takes longer than the read. */
#include "onerom.h"

/* A raw byte; a demangled one; a demangled one by the set's own ROMs, whose address is always logical. */
enum { RAW = 0, DEMANGLED = 1, OWN = 2 };

uint32_t bytes_read(const uint8_t *image, size_t image_len, uint32_t flash_base, uint32_t cs0_base, const struct onerom_report *report,
                    const uint32_t *set_rows, size_t set_words, const uint32_t *rom_rows, size_t rom_words, uint8_t logical, uint8_t read,
                    uint8_t *to, uint32_t n)
{
    const uint8_t levels[5] = {0, 0, 0, 0, 0};
    enum { JOB = 3 };
    uint32_t counts[ONEROM_JOBS] = {0};
    for (uint32_t at = 0; at < n; at++) {
        if (read == OWN)
            onerom_read_rom_byte_own(image, image_len, flash_base, cs0_base, *report, set_rows, set_words, rom_rows, rom_words, 0, at, levels,
                                     JOB, counts, &to[at]);
        else if (read == DEMANGLED)
            onerom_read_rom_byte_demangled(image, image_len, flash_base, cs0_base, *report, set_rows, set_words, rom_rows, rom_words, 0, logical,
                                           at, levels, JOB, counts, &to[at]);
        else
            onerom_read_rom_byte_raw(image, image_len, flash_base, cs0_base, *report, set_rows, set_words, rom_rows, rom_words, 0, logical, at,
                                     levels, JOB, counts, &to[at]);
    }
    return counts[JOB];
}
