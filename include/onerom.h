/* The proved One ROM board reader: what C and Rust call.
 *
 * Link with libonerom.a (README.md says how it is made, in crates/onerom_c).
 * Every call answers a number, onerom_open in a struct: 0 accepted, otherwise the refusal's number of document 01.
 * A refused call changes no byte and no word of what it is lent.
 *
 * NULL      image, record, buffer, set_rows and rom_rows may be NULL where the length that goes with them is 0, and only there.
 *           words, part, addr, control, data, levels, counts and value may never be NULL, whatever the call answers: levels neither
 *           where the address is not logical, nor counts where there is no such job.
 * Aligned   each pointer as its type wants it: those to uint32_t at a multiple of 4.
 * Overlap   what one call is lent may not overlap.
 * Threads   the library keeps nothing between calls and has no memory of its own. Calls may run at the same time as long as none of
 *           them writes what another is lent: threads may share an image, a report and rows that are no longer written; each has its
 *           own counts, value and buffer. A ROM read writes one of the eight counts: no two threads may lend the same eight at once,
 *           not for different jobs either.
 * Padding   the structs have bytes between their fields, and these hold anything. Compare reports field by field, never by memcmp. */
#ifndef ONEROM_H
#define ONEROM_H

#include <stddef.h>
#include <stdint.h>

/* The header's version. The major number goes up where a program that uses this header may have to change, the minor one where
 * something is added. ONEROM_VERSION puts both in one number, for #if.
 * 2.0: a ROM row has eight words, a string's part three, and a report's text its width.
 * 3.0: a ROM read has a job, and is lent a count for each of the eight jobs in place of the one. */
#define ONEROM_VERSION_MAJOR 3
#define ONEROM_VERSION_MINOR 0
#define ONEROM_VERSION (ONEROM_VERSION_MAJOR * 1000 + ONEROM_VERSION_MINOR)

/* The usual settings of a board: where its flash and its RAM stand, and the header's place in the flash. */
#define ONEROM_FLASH_BASE 0x08000000u
#define ONEROM_CS0_BASE 0x10000000u
#define ONEROM_INFO_OFFSET 512u
#define ONEROM_RAM_BASE 0x20000000u

/* The most rows that a board can need: 255 sets, each of 255 ROMs. With rows for so many no opening is refused with 44 or 45. */
#define ONEROM_MAX_SETS 255
#define ONEROM_MAX_ROMS 65025

#define ONEROM_NO_PIN 255            /* a pin that is none */
#define ONEROM_NO_POINTER 0xFFFFFFFFu /* a pointer that leads nowhere */

#ifdef __cplusplus
extern "C" {
#endif

/* ---- numbers */

/* The answer of every call, and the number of every item. */
enum onerom_number {
    ONEROM_ACCEPTED = 0,

    ONEROM_REFUSED_WINDOW = 1,     /* base plus image length exceeds 2^32 */
    ONEROM_REFUSED_ENDED = 2,      /* a read failed, or the record is too short */
    ONEROM_REFUSED_BELOW_BASE = 3, /* a pointer below the base */
    ONEROM_REFUSED_ROW = 4,        /* a needed row isn't among those lent, or a needed type is above 33 */

    ONEROM_REFUSED_MAGIC = 10,
    ONEROM_REFUSED_LINE = 11,
    ONEROM_REFUSED_STORAGE = 12,
    ONEROM_REFUSED_VERSION = 13, /* at or past 0.7.0 */

    ONEROM_REFUSED_NO_NUL = 20, /* within 1,024 bytes */
    ONEROM_REFUSED_UTF8 = 21,

    ONEROM_REFUSED_METADATA_MAGIC = 30,
    ONEROM_REFUSED_METADATA_VERSION = 31,
    ONEROM_REFUSED_METADATA_POINTER = 32, /* sets without a pointer */

    ONEROM_REFUSED_SERVE = 40,
    ONEROM_REFUSED_STATE = 41,
    ONEROM_REFUSED_TYPE = 42,
    ONEROM_REFUSED_CS_STATE = 43,
    ONEROM_REFUSED_SET_ROWS = 44, /* set rows short */
    ONEROM_REFUSED_ROM_ROWS = 45, /* ROM rows short */

    ONEROM_REFUSED_PORT = 50,

    ONEROM_REFUSED_RUNTIME_MAGIC = 60,
    ONEROM_REFUSED_RUNTIME_SIZE = 61,
    ONEROM_REFUSED_RUNTIME_BASE = 62,

    ONEROM_REFUSED_NO_PINS = 70,
    ONEROM_REFUSED_NO_SETS = 71,
    ONEROM_REFUSED_X_PIN = 72,       /* X1 or X2 at 16 or above */
    ONEROM_REFUSED_X_MAPPED = 73,    /* an address line has the pin of X1 or X2 */
    ONEROM_REFUSED_NO_ROM = 74,      /* in the set that governs: set 0, or for onerom_read_rom_byte_own the named one */
    ONEROM_REFUSED_UNSUPPORTED = 75, /* its first ROM is of a type that mangling does not cover */
    ONEROM_REFUSED_CONTROL_PIN = 76, /* one that the type uses at 16 or above */
    ONEROM_REFUSED_ADDRESS = 77,     /* above the type's last */
    ONEROM_REFUSED_ROM28C16 = 78,
    ONEROM_REFUSED_DATA_PIN = 79, /* at 8 or above */

    ONEROM_REFUSED_NO_SUCH_SET = 80,
    ONEROM_REFUSED_PAST_SET = 81, /* offset plus length above the set's size */
    ONEROM_REFUSED_COUNT = 82,    /* the job's count would pass 4,294,967,295 */
    ONEROM_REFUSED_JOB = 83       /* job number 8 or more */
};

/* A number in plain words. The reason of a ROM's name is such a number too, but for 1, ONEROM_NO_NAME. */
static inline const char *onerom_reason(uint32_t number)
{
    switch (number) {
    case ONEROM_ACCEPTED: return "accepted";
    case ONEROM_REFUSED_WINDOW: return "from its base the image would reach past address 0xffffffff";
    case ONEROM_REFUSED_ENDED: return "not all of it lies within the image";
    case ONEROM_REFUSED_BELOW_BASE: return "its address is below the image's base";
    case ONEROM_REFUSED_ROW: return "a row that is needed is missing, or its type is unknown";
    case ONEROM_REFUSED_MAGIC: return "no info header (SDRR) at the info offset";
    case ONEROM_REFUSED_LINE: return "the microcontroller line is unknown";
    case ONEROM_REFUSED_STORAGE: return "the storage code is unknown";
    case ONEROM_REFUSED_VERSION: return "the firmware is 0.7.0 or later, which is not known here";
    case ONEROM_REFUSED_NO_NUL: return "no end of the text within 1,024 bytes";
    case ONEROM_REFUSED_UTF8: return "the text is not UTF-8";
    case ONEROM_REFUSED_METADATA_MAGIC: return "metadata does not start with ONEROM_METADATA";
    case ONEROM_REFUSED_METADATA_VERSION: return "metadata's version is not 1";
    case ONEROM_REFUSED_METADATA_POINTER: return "metadata counts sets, but gives no address";
    case ONEROM_REFUSED_SERVE: return "a set's serving is unknown";
    case ONEROM_REFUSED_STATE: return "a set's multi-ROM state is unknown";
    case ONEROM_REFUSED_TYPE: return "a ROM's type is unknown";
    case ONEROM_REFUSED_CS_STATE: return "a ROM's chip-select state is unknown";
    case ONEROM_REFUSED_SET_ROWS: return "more sets than there are rows for";
    case ONEROM_REFUSED_ROM_ROWS: return "more ROMs than there are rows for";
    case ONEROM_REFUSED_PORT: return "a port of the pins is unknown";
    case ONEROM_REFUSED_RUNTIME_MAGIC: return "the runtime record does not start with sdrr";
    case ONEROM_REFUSED_RUNTIME_SIZE: return "the runtime record's size byte is under 20";
    case ONEROM_REFUSED_RUNTIME_BASE: return "the access count would stand past address 0xffffffff";
    case ONEROM_REFUSED_NO_PINS: return "the pins are refused, and this read needs them";
    case ONEROM_REFUSED_NO_SETS: return "the board serves no set";
    case ONEROM_REFUSED_X_PIN: return "X1 or X2 is not on one of the sixteen pins that are read";
    case ONEROM_REFUSED_X_MAPPED: return "X1 or X2 is at a pin that an address line has";
    case ONEROM_REFUSED_NO_ROM: return "the set that governs has no ROM";
    case ONEROM_REFUSED_UNSUPPORTED: return "the governing set's first ROM is of a type that logical reads do not cover";
    case ONEROM_REFUSED_CONTROL_PIN: return "a control pin of the type is not on one of the sixteen pins that are read";
    case ONEROM_REFUSED_ADDRESS: return "the address is above the ROM's last";
    case ONEROM_REFUSED_ROM28C16: return "logical reads do not cover a 28C16";
    case ONEROM_REFUSED_DATA_PIN: return "a data pin is at 8 or above";
    case ONEROM_REFUSED_NO_SUCH_SET: return "there is no such set";
    case ONEROM_REFUSED_PAST_SET: return "the read goes past the set's size";
    case ONEROM_REFUSED_COUNT: return "the count of bytes served would pass 4,294,967,295";
    case ONEROM_REFUSED_JOB: return "there is no such job";
    default: return "no refusal has this number";
    }
}

/* ---- the runtime record */

/* The runtime record.
 *
 * record[0 .. record_len)  the record, of any length
 * ram_base                 the address that it was read at
 * words                    ONEROM_RUNTIME_WORDS words, written where the record is accepted
 *
 * 2: under 20 bytes. 60: magic. 61: size byte under 20. 62: RAM base plus 8 above 2^32 - 1.
 *
 * A group's first word is 1 where the group is present. An absent group is all zero.
 * A flag is 0 or 1; counting, data pins and peri are the record's bytes. */
#define ONEROM_RUNTIME_WORDS 25

enum onerom_runtime_word {
    ONEROM_RUNTIME_IMAGE = 0,
    ONEROM_RUNTIME_SET = 1,
    ONEROM_RUNTIME_COUNTING = 2,
    ONEROM_RUNTIME_ACCESS_COUNT = 3,
    ONEROM_RUNTIME_ACCESS_COUNT_ADDRESS = 4,
    ONEROM_RUNTIME_TABLE = 5,
    ONEROM_RUNTIME_TABLE_SIZE = 6,

    ONEROM_RUNTIME_060 = 7, /* present */
    ONEROM_RUNTIME_060_OVERCLOCK = 8,
    ONEROM_RUNTIME_060_STATUS_LED = 9,
    ONEROM_RUNTIME_060_SWD = 10,
    ONEROM_RUNTIME_060_VOLTAGE = 11, /* 0..31, 254, 255 */
    ONEROM_RUNTIME_060_ICE_MHZ = 12,
    ONEROM_RUNTIME_060_FIRE_MHZ = 13,
    ONEROM_RUNTIME_060_SYSCLK_MHZ = 14,

    ONEROM_RUNTIME_062 = 15,            /* present */
    ONEROM_RUNTIME_062_SERVE_MODE = 16, /* 0, 1 */
    ONEROM_RUNTIME_062_BIT_MODE = 17,   /* 1, 2 */

    ONEROM_RUNTIME_063 = 18, /* present */
    ONEROM_RUNTIME_063_DMA_COPY = 19,
    ONEROM_RUNTIME_063_DATA_PINS = 20,
    ONEROM_RUNTIME_063_FORCE_16_BIT = 21,

    ONEROM_RUNTIME_067 = 22, /* present */
    ONEROM_RUNTIME_067_PERI = 23,
    ONEROM_RUNTIME_067_LIMP = 24 /* 0..3 */
};

uint32_t onerom_runtime(const uint8_t *record, size_t record_len, uint32_t ram_base,
                        uint32_t words[ONEROM_RUNTIME_WORDS]);

/* A string of the image: at most 1,024 bytes in chunks of 64, ended by its first NUL.
 *
 * image[0 .. image_len)  the image, which starts at address base
 * pointer                the string's address
 * part                   ONEROM_PART_WORDS words, as in enum onerom_part_word, written where the string is accepted
 *
 * 1: base plus image length exceeds 2^32. 3: pointer below base. 2: a chunk ended before a NUL was found.
 * 20: 1,024 bytes, no NUL. 21: not UTF-8.
 *
 * The width of a string, of a report's text and of a name is its number of code points: the characters as UTF-8 has them, however much room they
 * take when shown. A combining mark counts by itself. The length is in bytes, and never below the width or above four times the width. */
#define ONEROM_PART_WORDS 3

enum onerom_part_word {
    ONEROM_PART_OFFSET = 0, /* in the image */
    ONEROM_PART_LENGTH = 1, /* in bytes, without the NUL */
    ONEROM_PART_WIDTH = 2   /* in code points */
};

uint32_t onerom_string(const uint8_t *image, size_t image_len, uint32_t base, uint32_t pointer, uint32_t part[ONEROM_PART_WORDS]);

/* ---- mangling and demangling */

/* Levels in their order. A level is high at 1, ONEROM_HIGH; every other is low. */
enum onerom_level {
    ONEROM_LEVEL_CS1 = 0,
    ONEROM_LEVEL_CS2 = 1,
    ONEROM_LEVEL_CS3 = 2,
    ONEROM_LEVEL_X1 = 3,
    ONEROM_LEVEL_X2 = 4
};
#define ONEROM_LEVELS 5
#define ONEROM_LOW 0
#define ONEROM_HIGH 1

/* Control pins in their order. */
enum onerom_control {
    ONEROM_CONTROL_CS1 = 0,
    ONEROM_CONTROL_CS2 = 1,
    ONEROM_CONTROL_CS3 = 2,
    ONEROM_CONTROL_X1 = 3,
    ONEROM_CONTROL_X2 = 4,
    ONEROM_CONTROL_CE = 5,
    ONEROM_CONTROL_OE = 6
};
#define ONEROM_CONTROLS 7

/* A logical address becomes the offset of its byte in a set.
 *
 * IT GOES BY SET 0's ROM COUNT AND FIRST ROM TYPE, WHICHEVER SET IS READ AT THE OFFSET. For a byte by the ROMs of the set that is read take
 * onerom_read_rom_byte_own.
 *
 * pins_number    the pins item's number
 * rom_pins       the pins record's ROM pins byte
 * addr           its sixteen address pins
 * control        its control pins, as in enum onerom_control
 * served         the sets served
 * set_rows       lent set rows, ONEROM_SET_WORDS words each; set_words of them in all
 * rom_rows       lent ROM rows, ONEROM_ROM_WORDS words each; rom_words of them in all
 * levels         as in enum onerom_level
 * value          the offset, written where the address is accepted
 *
 * Pins are first counted from zero (base-zero): where rom_pins is 24 all of addr and control from the least of them; otherwise addr from
 * the least of addr, and control stays as it is. 255 stays 255. 72, 73 and 76 are judged after that.
 *
 * 70: no pins. 71: no sets. 4: a needed row isn't among those lent, or its type is above 33. With several ROMs, 72: X1 or X2 at 16
 * or above; 73: an address line has its pin. 74: set 0 has no ROM. 75: unsupported type. 76: a control pin that the type uses is at 16 or
 * above (the others may be anywhere). 77: address above the mask. 78: 28C16. */
uint32_t onerom_mangle(uint8_t pins_number, uint8_t rom_pins, const uint8_t addr[16], const uint8_t control[ONEROM_CONTROLS],
                       uint32_t served, const uint32_t *set_rows, size_t set_words, const uint32_t *rom_rows, size_t rom_words,
                       uint32_t address, const uint8_t levels[ONEROM_LEVELS], uint32_t *value);

/* A stored byte becomes the byte that is served: logic bit i is the byte's bit at data pin i.
 *
 * 70: no pins. 79: a data pin at 8 or above. */
uint32_t onerom_demangle(uint8_t pins_number, const uint8_t data[8], uint8_t byte, uint8_t *value);

/* ---- the opening */

enum onerom_line {
    ONEROM_LINE_F401DE = 0,
    ONEROM_LINE_F405 = 1,
    ONEROM_LINE_F411 = 2,
    ONEROM_LINE_F446 = 3,
    ONEROM_LINE_F401BC = 4,
    ONEROM_LINE_RP2350 = 5
};

enum onerom_storage {
    ONEROM_STORAGE_8 = 0, /* 64 KiB */
    ONEROM_STORAGE_B = 1, /* 128 */
    ONEROM_STORAGE_C = 2, /* 256 */
    ONEROM_STORAGE_D = 3, /* 384 */
    ONEROM_STORAGE_E = 4, /* 512 */
    ONEROM_STORAGE_F = 5, /* 768 */
    ONEROM_STORAGE_G = 6, /* 1,024 */
    ONEROM_STORAGE_2MB = 7
};

enum onerom_port {
    ONEROM_PORT_NONE = 0,
    ONEROM_PORT_A = 1,
    ONEROM_PORT_B = 2,
    ONEROM_PORT_C = 3,
    ONEROM_PORT_D = 4,
    ONEROM_PORT_0 = 5
};

enum onerom_pio {
    ONEROM_PIO_OFF = 0,
    ONEROM_PIO_ON = 1,
    ONEROM_PIO_NOT_GIVEN = 2 /* below 0.6.0 */
};

/* The header's fields. A flag is 0 or 1. */
struct onerom_header {
    uint16_t major, minor, patch, build;
    uint16_t freq; /* MHz */
    uint8_t commit[8];
    uint8_t line;    /* enum onerom_line */
    uint8_t storage; /* enum onerom_storage */
    uint8_t overclock;
    uint8_t swd_enabled;
    uint8_t preload_image_to_ram;
    uint8_t bootloader_capable;
    uint8_t status_led_enabled;
    uint8_t boot_logging_enabled;
    uint8_t mco_enabled;
    uint8_t count_rom_access;
    uint8_t boot_config[4];
};

/* A text, as a part of the image. number: 0 accepted, otherwise the string's number, with offset, length and width 0. */
struct onerom_text {
    uint8_t number;
    uint32_t offset;
    uint32_t length;
    uint32_t width; /* in code points: characters as UTF-8 has them, a combining mark by itself */
};

/* Extra info. number: 0 accepted; 3 below base; 2 ended: then zeros, but PIO is not given (2) and the runtime pointer FFFFFFFF. */
struct onerom_extra_info {
    uint8_t number;
    uint8_t usb_dfu;          /* a flag */
    uint8_t usb_port;         /* enum onerom_port; a port that is unknown is none */
    uint8_t vbus_pin;
    uint8_t fire_pio_default; /* enum onerom_pio */
    uint32_t rtt_ptr;
    uint32_t runtime_info_ptr;
};

/* Metadata. number: 0 accepted; 3, 2, 30 magic, 31 version, 32 sets without a pointer.
 * Below 0.5.0 it is not looked for: then looked_for is 0 and number is 0 too, which says nothing. */
struct onerom_metadata {
    uint8_t looked_for; /* a flag */
    uint8_t number;
};

/* The sets item. number: 0 accepted; 3, 2, 40 serve, 41 state, 42 type, 43 chip-select state: then no rows are written, and none served.
 * Where metadata is refused with 2 this is 2 as well; where it is refused otherwise no sets are found: 0, with a count of 0. */
struct onerom_sets {
    uint8_t number;
    uint8_t rom_set_count; /* kept where the walk is refused */
    uint32_t served;       /* the sets that 71 and 80 go by: the count where number is 0, otherwise 0 */
};

/* The pins item. number: 0 accepted; 3, 2, 50 port: then zeros. */
struct onerom_pins {
    uint8_t number;
    uint8_t data_port, addr_port, cs_port, sel_port, status_port; /* enum onerom_port */
    uint8_t rom_pins;
    uint8_t data[8];
    uint8_t addr[16];
    uint8_t cs1, cs2, cs3;
    uint8_t reserved2a, reserved2b, reserved2c;
    uint8_t x1, x2, ce, oe;
    uint8_t x_jumper_pull;
    uint8_t swclk_sel, swdio_sel;
    uint8_t sel0, sel1, sel2, sel3, sel4, sel5, sel6;
    uint8_t sel_jumper_pull;
    uint8_t status;
    uint8_t extended;  /* the record's byte */
    uint8_t data2[8];  /* zeros unless extended is 1, whatever the record holds there */
    uint8_t addr2[16]; /* the same */
};

struct onerom_report {
    struct onerom_header header;
    struct onerom_text build_date;
    struct onerom_text hw_rev;
    struct onerom_extra_info extra_info;
    struct onerom_metadata metadata;
    struct onerom_sets rom_sets;
    struct onerom_pins pins;
};

/* Look at number first: a refused opening's report is zeros, but extra info's PIO default 2 (not given) and runtime pointer
 * FFFFFFFF. So every item's number in it is 0 though none was accepted, and no set is served. */
struct onerom_opening {
    uint32_t number; /* 0 opened, otherwise the refusal */
    struct onerom_report report;
};

/* The items of a report, each with a number of its own. */
enum onerom_item {
    ONEROM_ITEM_BUILD_DATE = 0,
    ONEROM_ITEM_HW_REV = 1,
    ONEROM_ITEM_EXTRA_INFO = 2,
    ONEROM_ITEM_METADATA = 3,
    ONEROM_ITEM_ROM_SETS = 4,
    ONEROM_ITEM_PINS = 5
};
#define ONEROM_ITEMS 6

/* The number of an item, of an opened board's report. Metadata's is 0 where it was not looked for. */
static inline uint8_t onerom_item_number(const struct onerom_report *report, enum onerom_item item)
{
    switch (item) {
    case ONEROM_ITEM_BUILD_DATE: return report->build_date.number;
    case ONEROM_ITEM_HW_REV: return report->hw_rev.number;
    case ONEROM_ITEM_EXTRA_INFO: return report->extra_info.number;
    case ONEROM_ITEM_METADATA: return report->metadata.number;
    case ONEROM_ITEM_ROM_SETS: return report->rom_sets.number;
    default: return report->pins.number;
    }
}

/* ---- rows */

/* The words of a set row. */
enum onerom_set_word {
    ONEROM_SET_DATA_POINTER = 0,
    ONEROM_SET_SIZE = 1,
    ONEROM_SET_FIRST_ROM = 2, /* the row of its first ROM */
    ONEROM_SET_ROM_COUNT = 3,
    ONEROM_SET_SERVE = 4,    /* enum onerom_serve */
    ONEROM_SET_STATE = 5,    /* enum onerom_state, of a set of several ROMs */
    ONEROM_SET_CONFIG = 6,   /* an address, 0 absent */
    ONEROM_SET_OVERRIDES = 7 /* the same */
};
#define ONEROM_SET_WORDS 8

/* The words of a ROM row. */
enum onerom_rom_word {
    ONEROM_ROM_TYPE = 0, /* enum onerom_type */
    ONEROM_ROM_CS1 = 1,  /* enum onerom_state, so too CS2 and CS3 */
    ONEROM_ROM_CS2 = 2,
    ONEROM_ROM_CS3 = 3,
    ONEROM_ROM_NAME_OFFSET = 4, /* in the image; offset, length and width are 0 where the reason is not */
    ONEROM_ROM_NAME_LENGTH = 5, /* in bytes */
    ONEROM_ROM_NAME_REASON = 6, /* 0 named; ONEROM_NO_NAME; otherwise the string's number: 2, 20, 21 */
    ONEROM_ROM_NAME_WIDTH = 7   /* in code points */
};
#define ONEROM_ROM_WORDS 8

/* A name's reason: no pointer was read, or one below base or FFFFFFFF. */
#define ONEROM_NO_NAME 1

enum onerom_serve {
    ONEROM_SERVE_TWO_CS_ONE_ADDR = 0,
    ONEROM_SERVE_ADDR_ON_CS = 1,
    ONEROM_SERVE_ADDR_ON_ANY_CS = 2
};

enum onerom_state {
    ONEROM_STATE_ACTIVE_LOW = 0,
    ONEROM_STATE_ACTIVE_HIGH = 1,
    ONEROM_STATE_NOT_USED = 2
};

/* Mangling does not cover those marked 75; on a 28C16 it says 78. */
enum onerom_type {
    ONEROM_TYPE_ROM2316 = 0,
    ONEROM_TYPE_ROM2332 = 1,
    ONEROM_TYPE_ROM2364 = 2,
    ONEROM_TYPE_ROM23128 = 3,
    ONEROM_TYPE_ROM23256 = 4,
    ONEROM_TYPE_ROM23512 = 5,
    ONEROM_TYPE_ROM2704 = 6, /* 75 */
    ONEROM_TYPE_ROM2708 = 7, /* 75 */
    ONEROM_TYPE_ROM2716 = 8,
    ONEROM_TYPE_ROM2732 = 9,
    ONEROM_TYPE_ROM2764 = 10,
    ONEROM_TYPE_ROM27128 = 11,
    ONEROM_TYPE_ROM27256 = 12,
    ONEROM_TYPE_ROM27512 = 13,
    ONEROM_TYPE_ROM231024 = 14,
    ONEROM_TYPE_ROM27C010 = 15,      /* 75, and so on to the SST39SF040 */
    ONEROM_TYPE_ROM27C020 = 16,
    ONEROM_TYPE_ROM27C040 = 17,
    ONEROM_TYPE_ROM27C080 = 18,
    ONEROM_TYPE_ROM27C400 = 19,
    ONEROM_TYPE_RAM6116 = 20,
    ONEROM_TYPE_ROM27C301 = 21,
    ONEROM_TYPE_SYSTEM_PLUGIN = 22,
    ONEROM_TYPE_USER_PLUGIN = 23,
    ONEROM_TYPE_PIO_PLUGIN = 24,
    ONEROM_TYPE_ROM_SST39SF040 = 25,
    ONEROM_TYPE_ROM28C16 = 26,       /* 78 */
    ONEROM_TYPE_ROM28C64 = 27,
    ONEROM_TYPE_ROM28C256 = 28,
    ONEROM_TYPE_ROM28C512 = 29,      /* 75, and so on to the end */
    ONEROM_TYPE_ROM23QL512 = 30,
    ONEROM_TYPE_ROM23QL384 = 31,
    ONEROM_TYPE_ROM23C1001 = 32,
    ONEROM_TYPE_ROM27C200 = 33
};

/* Opens an image: the report by value, the rows of its sets and ROMs into the lent buffers.
 *
 * image[0 .. image_len)   the image
 * flash_base              the address of its first byte; the header is read there
 * cs0_base                the same for all that is behind the header of an Rp2350 board
 * info_offset             the header's offset
 * set_rows, rom_rows      lent rows, set_words and rom_words words in all; only words of rows that are listed are written
 *
 * 1: either base plus image length exceeds 2^32. 2: header ended. 10: magic. 11: line. 12: storage. 13: version at or past 0.7.0.
 * 44: set rows short, fewer words than ONEROM_SET_WORDS for each set. 45: ROM rows short, fewer than ONEROM_ROM_WORDS for each ROM. Every other
 * refusal is an item of the report. */
struct onerom_opening onerom_open(const uint8_t *image, size_t image_len, uint32_t flash_base, uint32_t cs0_base,
                                  uint32_t info_offset, uint32_t *set_rows, size_t set_words, uint32_t *rom_rows,
                                  size_t rom_words);

/* ---- calls on an opened board
 *
 * They go by the report and the rows as lent, altered or not: of the report by the line (ONEROM_LINE_RP2350 or any other), the pins
 * item and the sets served, and by nothing else of it. 4: a needed row isn't among those lent, or a needed type is above 33. A row is lent
 * where all its words are; of a ROM row the calls look at the type alone. */

/* The size of a set. It is no ROM read: it has no job, and counts nothing. 80: no such set. 4. */
uint32_t onerom_get_rom_set_size(uint32_t served, const uint32_t *set_rows, size_t set_words, uint32_t set, uint32_t *value);

/* Whether two sets are the same: 1 exactly if size, ROM count, serve and every type in order agree, otherwise 0.
 * 80: either is no set. 4: either set's row, or one of its ROM rows. */
uint32_t onerom_same_set(uint32_t served, const uint32_t *set_rows, size_t set_words, const uint32_t *rom_rows,
                         size_t rom_words, uint32_t a, uint32_t b, uint32_t *value);

/* Jobs. All calls that follow are ROM reads. Each is made for one of eight jobs, 0 to 7, and is lent the counts of all eight.
 *
 * job      the job that reads
 * counts   ONEROM_JOBS words, one for each job: the sum of the lengths of its accepted reads since the opening; the length of a byte is 1. At the
 *          opening all are 0: start them so, and lend the same eight to each read of the board.
 *
 * 83: the job is 8 or more. It comes after 1 and before all else. 82 looks at the job's own count, and at no other.
 *
 * An accepted read adds its length to its job's count; the other seven stay as they are. A refused one, by whatever number, changes no count, no
 * byte of a buffer and no value.
 *
 * Jobs do not disturb each other. Whatever the other jobs read, a job gets the replies and the count that its own calls, in their order, would
 * have had by themselves. */
#define ONEROM_JOBS 8

/* Bytes of a set as stored, from an offset on, as many as the buffer holds.
 *
 * job, counts   as said above: the length is the buffer's
 *
 * 1. 83: no such job. 80: no such set. 4. 81: offset plus length above set size. 2: ended. 82: the job's count would pass 4,294,967,295; a read
 * of no bytes is never refused with it. Refused, it leaves the buffer and all counts as they were. */
uint32_t onerom_read_rom_set_data(const uint8_t *image, size_t image_len, uint32_t flash_base, uint32_t cs0_base,
                                  struct onerom_report report, const uint32_t *set_rows, size_t set_words, uint32_t set,
                                  uint32_t offset, uint8_t *buffer, size_t buffer_len, uint32_t job, uint32_t counts[ONEROM_JOBS]);

/* One byte of a set as stored (raw), or as it is served (demangled).
 *
 * A LOGICAL READ GOES BY SET 0's ROM COUNT AND FIRST ROM TYPE, WHICHEVER SET IS NAMED. Where those of the named set differ, the byte may be
 * another than the one that the set serves at the address. So the Rust reads, and so were tables made that are already sold: for those take
 * this one. For what a set's socket sees take onerom_read_rom_byte_own.
 *
 * logical       1: address is logical and is mangled with its levels, as by onerom_mangle. Any other: address is the byte's offset.
 * levels        as in enum onerom_level; lent for every address, looked at for a logical one
 * job, counts   as said above: one more where the byte is accepted
 * value         the byte, written where it is accepted
 *
 * 1. 83: no such job. A logical address: 70, 71, 4, 72 to 78. Then 80, 4, 81, 2, 82. Demangled: 70, 79. Refused, by 79 too, it leaves the value
 * and all counts as they were. */
uint32_t onerom_read_rom_byte_raw(const uint8_t *image, size_t image_len, uint32_t flash_base, uint32_t cs0_base,
                                  struct onerom_report report, const uint32_t *set_rows, size_t set_words,
                                  const uint32_t *rom_rows, size_t rom_words, uint32_t set, uint8_t logical, uint32_t address,
                                  const uint8_t levels[ONEROM_LEVELS], uint32_t job, uint32_t counts[ONEROM_JOBS], uint8_t *value);

uint32_t onerom_read_rom_byte_demangled(const uint8_t *image, size_t image_len, uint32_t flash_base, uint32_t cs0_base,
                                        struct onerom_report report, const uint32_t *set_rows, size_t set_words,
                                        const uint32_t *rom_rows, size_t rom_words, uint32_t set, uint8_t logical,
                                        uint32_t address, const uint8_t levels[ONEROM_LEVELS], uint32_t job,
                                        uint32_t counts[ONEROM_JOBS], uint8_t *value);

/* One byte of a set as its socket sees it: at a logical address, demangled.
 *
 * IT GOES BY THE NAMED SET's OWN ROM COUNT AND FIRST ROM TYPE. Take it for what a set's socket sees; take the two reads above for what must
 * be as the Rust reads it, or as it stands in tables already sold.
 *
 * set           the set that is read, and that governs
 * address       a logical one, mangled with its levels as by onerom_mangle, but by the set's own ROMs
 * levels        as in enum onerom_level; X1 and X2 count where the set has several ROMs
 * job, counts   as said above: one more where the byte is accepted
 * value         the byte, written where it is accepted
 *
 * In this order:
 *  1   either base plus image length exceeds 2^32
 * 83   no such job: its number is 8 or more
 * 80   no such set
 *  4   the set's row isn't among those lent; or, unless the set has no ROM, its first ROM row isn't, or that row's type is above 33
 * 70   no pins
 * 72   the set has several ROMs, and X1 or X2 is at 16 or above
 * 73   it has several ROMs, and an address line has the pin of X1 or X2
 * 74   it has no ROM
 * 75   its first ROM is of an unsupported type
 * 76   a control pin that the type uses is at 16 or above
 * 77   the address is above the type's mask
 * 78   28C16
 * 81   the byte's offset is not below the set's size
 *  2   the byte is not within the image
 * 82   the job's count would pass 4,294,967,295
 * 79   a data pin is at 8 or above
 * 72, 73 and 76 are judged after base-zero. 71 cannot come: without sets there is no such set. Rows of other sets, set 0's among them, are
 * not looked at. Refused, it leaves the value and all counts as they were.
 *
 * On set 0 it accepts exactly where onerom_read_rom_byte_demangled accepts the same logical address for the same job, with the same byte and
 * counts. Where that one answers 71, this one answers 80; where that one answers 70, this one answers 80 if no set is served, otherwise 4 if 4
 * applies, otherwise 70. All other numbers are the same. */
uint32_t onerom_read_rom_byte_own(const uint8_t *image, size_t image_len, uint32_t flash_base, uint32_t cs0_base,
                                  struct onerom_report report, const uint32_t *set_rows, size_t set_words,
                                  const uint32_t *rom_rows, size_t rom_words, uint32_t set, uint32_t address,
                                  const uint8_t levels[ONEROM_LEVELS], uint32_t job, uint32_t counts[ONEROM_JOBS], uint8_t *value);

#ifdef __cplusplus
}
#endif

#endif
