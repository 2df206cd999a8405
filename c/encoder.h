/* The encoder library for C: target/staticlib/libexports.a, made by `tools/build exports`.

   Each function answers 0 where the call is taken, and otherwise the number of one refusal (document 01, "When a call is turned away", and
   17 of document 02).
   A refused call leaves the lent list as it was. The caller may bring any numbers, and lists of any length and content.

   The C program itself must make sure that
   - no pointer is null, even if its list has no element (any other pointer will do then);
   - each pointer points to as many elements as the length behind it says;
   - the two lists of a call do not overlap. */
#ifndef ENCODER_H
#define ENCODER_H

#include <stddef.h>
#include <stdint.h>

#ifdef __cplusplus
extern "C" {
#endif

/* Starts an axis at the raw number `first` and reads the raw numbers `raws` after it, one after the other. The position at each of these
   goes to `positions`.

   steps, turns   from the nameplate: steps per turn, and turns
   class4         0: the parameters are those of class 2; any other number: those of class 4
   operating      the octet of operating parameters: octet 9 of a class 2 telegram, octet 1 of a class 4 block
   units, range   revolution units and total range
   life, speed    sign-of-life limit and speed unit; class 2 has neither and ignores both

   Refusals, in this order: 7 plate, 13 lists of unequal length, 3 reserved bit, 4 revolution units, 5 total range, 6 speed unit,
   17 sign-of-life limit, 9 `first` is no raw number of the sensor, then 9 and 10 (half range) of each raw number in turn. */
uint8_t encoder_batch(uint32_t steps, uint32_t turns, uint8_t class4, uint8_t operating, uint32_t units, uint32_t range, uint8_t life,
                      uint8_t speed, uint32_t first, const uint32_t *raws, size_t raws_length, uint32_t *positions, size_t positions_length);

/* Reads a class 2 telegram of 17 octets. `parameters` has 3 numbers: octet 9, revolution units, total range.

   Refusals, in this order: 7 plate, 13 `parameters` does not have 3 numbers, 1 length, 2 ident, 3 reserved bit, 4 revolution units,
   5 total range. */
uint8_t encoder_read_telegram(uint32_t steps, uint32_t turns, uint16_t ident, const uint8_t *telegram, size_t telegram_length,
                              uint32_t *parameters, size_t parameters_length);

/* Reads a class 4 block of 11 octets. `parameters` has 5 numbers: octet 1, revolution units, total range, sign-of-life limit, speed unit.

   Refusals, in this order: 7 plate, 13 `parameters` does not have 5 numbers, 1 length, 3 reserved bit, 4 revolution units,
   5 total range, 6 speed unit, 17 sign-of-life limit (0 while bit 5 of octet 1 is 0). */
uint8_t encoder_read_block(uint32_t steps, uint32_t turns, const uint8_t *block, size_t block_length, uint32_t *parameters,
                           size_t parameters_length);

#ifdef __cplusplus
}
#endif

#endif
