/* Some bench values of document 01 through the linked library: parameters are read from octets, and a batch is read on them.

       tools/build exports && cc -o target/carriage c/carriage.c target/staticlib/libexports.a && target/carriage */
#include <stdio.h>

#include "encoder.h"

enum { CLASS2 = 0, CLASS4 = 1 };

/* Nameplate and parameters of a carriage. */
struct carriage {
    uint32_t steps, turns;
    uint8_t class4, operating;
    uint32_t units, range;
    uint8_t life, speed;
};

/* Starts the carriage at `first`, reads so many raw numbers, and prints each position, or the refusal and the list as it was left. */
static void show(const char *what, struct carriage k, uint32_t first, const uint32_t *raws, size_t length) {
    uint32_t positions[4] = {7, 7, 7, 7};
    uint8_t refusal = encoder_batch(k.steps, k.turns, k.class4, k.operating, k.units, k.range, k.life, k.speed, first, raws, length,
                                    positions, length);
    printf("%s:", what);
    if (refusal != 0)
        printf(" refused %u, list", (unsigned)refusal);
    for (size_t i = 0; i < length; i++)
        printf(" %lu", (unsigned long)positions[i]);
    printf("\n");
}

/* Prints the numbers that a reader has filled in, or its refusal and the list as it was left. */
static void numbers(const char *what, uint8_t refusal, const uint32_t *parameters, size_t length) {
    printf("%s:", what);
    if (refusal != 0)
        printf(" refused %u, list", (unsigned)refusal);
    for (size_t i = 0; i < length; i++)
        printf(" %lu", (unsigned long)parameters[i]);
    printf("\n");
}

int main(void) {
    /* octets 9 to 17 as document 01 has them, on a plate of ident 1234h */
    uint8_t telegram[17] = {0, 0, 0, 0, 0x12, 0x34, 0, 0, 0x0A, 0, 0, 0x03, 0xE8, 0, 0x3E, 0x80, 0};
    uint8_t block[11] = {0x2A, 0, 0, 0x03, 0xE8, 0, 0x3E, 0x80, 0, 3, 1};
    uint32_t sent2[3] = {7, 7, 7}, sent4[5] = {7, 7, 7, 7, 7};
    numbers("telegram", encoder_read_telegram(4096, 4096, 0x1234, telegram, 17, sent2, 3), sent2, 3);
    numbers("block", encoder_read_block(4096, 4096, block, 11, sent4, 5), sent4, 5);

    struct carriage bench = {4096, 4096, CLASS2, (uint8_t)sent2[0], sent2[1], sent2[2], 0, 0};
    show("bench", bench, 0, (const uint32_t[]){5, 6144}, 2);
    struct carriage new_bench = {4096, 4096, CLASS4, (uint8_t)sent4[0], sent4[1], sent4[2], (uint8_t)sent4[3], (uint8_t)sent4[4]};
    show("class 4", new_bench, 0, (const uint32_t[]){5, 6144}, 2);
    struct carriage reversed = bench;
    reversed.operating = 0x0B;
    show("counter-clockwise", reversed, 0, (const uint32_t[]){1}, 1);
    struct carriage uneven = bench;
    uneven.range = 3000;
    show("past the sensor's end", uneven, 16777215, (const uint32_t[]){16777215, 0}, 2);
    struct carriage listing = {10, 3, CLASS2, 0x0A, 3, 7, 0, 0};
    show("listing", listing, 28, (const uint32_t[]){28, 4}, 2);

    /* refused calls leave the list as it was */
    show("half the range", listing, 3, (const uint32_t[]){3, 18}, 2);
    show("no such raw number", listing, 3, (const uint32_t[]){3, 30}, 2);
    struct carriage units = bench;
    units.units = 4097;
    show("units 4097", units, 0, (const uint32_t[]){5}, 1);
    struct carriage range = bench;
    range.range = 999;
    show("total range 999", range, 0, (const uint32_t[]){5}, 1);
    sent2[0] = sent2[1] = sent2[2] = 7;
    numbers("16 octets", encoder_read_telegram(4096, 4096, 0x1234, telegram, 16, sent2, 3), sent2, 3);
    numbers("another ident", encoder_read_telegram(4096, 4096, 0x1235, telegram, 17, sent2, 3), sent2, 3);
    numbers("a list too short", encoder_read_telegram(4096, 4096, 0x1234, telegram, 17, sent2, 2), sent2, 3);
    return 0;
}
