/* Loops written out in plain C, for comparison with intake.h: the same arguments, numbers and bytes. */
#ifndef PLAIN_UNROLL_H
#define PLAIN_UNROLL_H

#include <stddef.h>
#include <stdint.h>

uint8_t plain_unroll(const uint8_t *sequence, size_t sequence_length, uint32_t read_back, uint8_t *result, size_t buffer_length,
                     size_t *result_length);

#endif
