/*
 * The two replays that are measured beside the proved one: the same parameters, the same answer and the same buffers
 * afterwards; of the pass so where the trace settles, and where it is refused the same answer and result.
 */
#ifndef REPLAYS_H
#define REPLAYS_H

#include <stddef.h>
#include <stdint.h>

typedef uint32_t replay_call(const uint8_t *text, size_t text_len, uint8_t *flash, size_t flash_len,
                             uint8_t *flash_mask, size_t flash_mask_len, uint8_t *eeprom, size_t eeprom_len,
                             uint8_t *eeprom_mask, size_t eeprom_mask_len, uint8_t *times, size_t times_len,
                             uint8_t *replies, size_t replies_len, uint8_t *result, size_t result_len);

/* Plain Rust: each order of a stamp from a fresh copy of the images (tests/plain). */
replay_call plain_replay;

/* One plain pass in C, no order tried (pass.c). */
replay_call pass_replay;

#endif
