/* The check, the tick and the replay in plain C, for comparison with intake.h: the same arguments, numbers and bytes. */
#ifndef PLAIN_H
#define PLAIN_H

#include <stddef.h>
#include <stdint.h>

uint8_t plain_check(const uint8_t *sequence, size_t length, uint32_t read_back);
uint8_t plain_tick(const uint8_t *sequence, size_t sequence_length, uint8_t *state, size_t state_length, uint32_t input,
                   uint32_t read_back, uint8_t *answer, size_t answer_length);
uint8_t plain_replay(const uint8_t *sequence, size_t sequence_length, uint32_t read_back, const uint8_t *recording,
                     size_t recording_length, size_t *place);

enum { PLAIN_FARMS = 32 };

/*
 * The tick, which also tells the litres of each farm in the instant, 02, item 12: none if it is wrong. They are not written
 * where the call is turned down, and not asked for with a null pointer.
 */
uint8_t plain_deliver(const uint8_t *sequence, size_t sequence_length, uint8_t *state, size_t state_length, uint32_t input,
                      uint32_t read_back, uint8_t *answer, size_t answer_length, uint64_t *litres);

#endif
