/* A small board, for tests that change it. */
#include "expect.h"

/* A board of 0.4.0 with one set of one 2364 and 16 bytes, data pins in reverse; pointers go by base. */
static void small_board(uint8_t image[1552], uint32_t line, uint32_t base) {
    memset(image, 0, 1552);
    uint8_t *h = image + 512, *set = image + 768, *pins = image + 1024;
    memcpy(h, "SDRR", 4);
    put16(h + 6, 4);
    put32(h + 12, base + 1200);
    put32(h + 24, base + 1216);
    put16(h + 28, line);
    put16(h + 30, 1);
    put16(h + 32, 168);
    h[34] = 9;
    h[41] = 1;
    put32(h + 44, base + 768);
    put32(h + 48, base + 1024);
    put32(h + 56, base + 1280);
    put32(set, base + 1536);
    put32(set + 4, 16);
    put32(set + 8, base + 900);
    set[12] = 1;
    put32(image + 900, base + 904);
    image[904] = 2;
    memset(pins + 16, 255, 30);
    pins[5] = 24;
    for (int i = 0; i < 8; i++) pins[8 + i] = (uint8_t)(7 - i);
    for (int i = 0; i < 13; i++) pins[16 + i] = (uint8_t)i;
    pins[36] = 13;
    strcpy((char *)image + 1200, "2026-01-02");
    strcpy((char *)image + 1216, "ice-24-d");
    for (int i = 0; i < 16; i++) image[1536 + i] = (uint8_t)(17 * i);
}
