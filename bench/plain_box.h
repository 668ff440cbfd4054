/* The ceiling and the calls on a box in plain C, for comparison with intake.h: the same arguments, numbers and bytes. */
#ifndef PLAIN_BOX_H
#define PLAIN_BOX_H

#include <stddef.h>
#include <stdint.h>

uint32_t plain_ceiling(const uint8_t *sequence, size_t length, uint32_t read_back);
uint8_t plain_box_admit(uint8_t *box, size_t box_length, uint32_t bay, const uint8_t *sequence, size_t sequence_length,
                        uint32_t read_back, uint32_t service_only);
uint8_t plain_box_release(uint8_t *box, size_t box_length, uint32_t bay);
uint8_t plain_box_tick(uint8_t *box, size_t box_length, uint32_t bay, uint32_t input, uint8_t *answer,
                       size_t answer_length, uint8_t *record, size_t record_length);
uint8_t plain_box_save(uint8_t *box, size_t box_length, uint32_t bay, uint32_t name);
uint8_t plain_box_restore(uint8_t *box, size_t box_length, uint32_t bay, uint32_t name);
uint8_t plain_box_forget(uint8_t *box, size_t box_length, uint32_t bay, uint32_t name);
uint8_t plain_box_service(const uint8_t *box, size_t box_length, uint32_t bay, const uint8_t *record, size_t record_length,
                          uint8_t *view, size_t view_length);
uint8_t plain_box_panel(const uint8_t *box, size_t box_length, uint32_t bay, const uint8_t *record, size_t record_length,
                        uint8_t *view, size_t view_length);
uint8_t plain_box_preview(const uint8_t *box, size_t box_length, uint32_t bay, uint32_t input, uint32_t unknown,
                          uint8_t *preview, size_t preview_length);
uint8_t plain_box_ledger(const uint8_t *box, size_t box_length, uint32_t bay, uint8_t *totals, size_t totals_length);
uint8_t plain_box_new_year(uint8_t *box, size_t box_length, uint32_t bay);

#endif
