/* The calls of include/dds.h as plain C implementations of the documents, under the prefix model_: of document 01 on groups
   (model.c), of change request 2026-07 on why a group is refused (explain_model.c), of change request 2026-09 on blocks of one
   size (blocks_model.c), of change request 2026-01 and source document 003, 9.4.9, on a track (track_model.c), of change request
   2026-08 on the third code (third_model.c), of change request 2026-11 and source document 001 on an AIT loader's memory
   (loader_model.c).
   Only the tests use them: the library is held against them byte for byte. */

#ifndef MODEL_H
#define MODEL_H

#include <stddef.h>
#include <stdint.h>

#ifndef PREFIX
#define PREFIX model_
#endif
#define MODEL_JOINED(prefix, name) prefix##name
#define MODEL_JOIN(prefix, name) MODEL_JOINED(prefix, name)
#define MODEL(name) MODEL_JOIN(PREFIX, name)

uint32_t MODEL(reader_start)(uint32_t size, uint32_t first, uint8_t *state, size_t state_len, uint8_t *answer,
                             size_t answer_len);
uint32_t MODEL(writer_start)(uint32_t size, uint32_t first, uint8_t *state, size_t state_len, uint8_t *answer,
                             size_t answer_len);
uint32_t MODEL(read)(uint8_t *state, size_t state_len, const uint8_t *group, size_t group_len, uint32_t number,
                     uint32_t entries, uint8_t *rows, size_t rows_len, uint8_t *answer, size_t answer_len);
uint32_t MODEL(explain)(const uint8_t *state, size_t state_len, const uint8_t *group, size_t group_len, uint32_t number,
                        uint32_t entries, const uint8_t *rows, size_t rows_len, uint8_t *explanation, size_t explanation_len);
uint32_t MODEL(blocks_start)(uint32_t size, uint32_t first, uint32_t block, uint8_t *state, size_t state_len, uint8_t *answer,
                             size_t answer_len);
uint32_t MODEL(blocks_read)(uint8_t *state, size_t state_len, const uint8_t *group, size_t group_len, uint32_t number,
                            uint32_t entries, uint8_t *rows, size_t rows_len, uint8_t *answer, size_t answer_len);
uint32_t MODEL(blocks_find)(const uint8_t *rows, size_t rows_len, uint32_t before, uint32_t block, uint8_t *answer,
                            size_t answer_len);
uint32_t MODEL(record)(uint8_t *state, size_t state_len, uint8_t *group, size_t group_len, const uint8_t *data,
                       size_t data_len, uint32_t warn, uint8_t *answer, size_t answer_len);
uint32_t MODEL(separator)(uint8_t *state, size_t state_len, uint8_t *group, size_t group_len, uint32_t value,
                          uint32_t warn, uint8_t *answer, size_t answer_len);
uint32_t MODEL(end)(uint8_t *state, size_t state_len, uint8_t *group, size_t group_len, uint32_t warn, uint8_t *answer,
                    size_t answer_len);

uint32_t MODEL(subdata_make)(uint32_t area, uint32_t frame, const uint8_t *packs, size_t packs_len, const uint8_t *items,
                             size_t items_len, uint8_t *track, size_t track_len, uint8_t *numbers, size_t numbers_len,
                             uint8_t *answer, size_t answer_len);
uint32_t MODEL(subdata_read)(uint32_t area, uint32_t frame, const uint8_t *track, size_t track_len, uint8_t *packs,
                             size_t packs_len, uint8_t *items, size_t items_len, uint8_t *numbers, size_t numbers_len,
                             uint8_t *answer, size_t answer_len);

uint32_t MODEL(third_make)(uint32_t row_len, uint8_t *rows, size_t rows_len, uint8_t *answer, size_t answer_len);
uint32_t MODEL(third_check)(uint32_t row_len, const uint8_t *rows, size_t rows_len, uint8_t *answer, size_t answer_len);
uint32_t MODEL(third_restore_one)(uint32_t row_len, uint32_t row, uint8_t *rows, size_t rows_len, uint8_t *answer,
                                  size_t answer_len);
uint32_t MODEL(third_restore_two)(uint32_t row_len, uint32_t first, uint32_t second, uint8_t *rows, size_t rows_len,
                                  uint8_t *answer, size_t answer_len);
uint32_t MODEL(third_mend)(uint32_t row_len, uint8_t *rows, size_t rows_len, uint8_t *answer, size_t answer_len);

uint32_t MODEL(volume_make)(const uint8_t *fields, size_t fields_len, uint8_t *volume, size_t volume_len, uint8_t *answer,
                            size_t answer_len);
uint32_t MODEL(volume_read)(const uint8_t *volume, size_t volume_len, uint8_t *fields, size_t fields_len, uint8_t *answer,
                            size_t answer_len);
uint32_t MODEL(alert_make)(uint32_t high, uint32_t low, uint8_t *alert, size_t alert_len, uint8_t *answer, size_t answer_len);
uint32_t MODEL(alert_read)(const uint8_t *alert, size_t alert_len, uint8_t *answer, size_t answer_len);
uint32_t MODEL(radio_find)(const uint8_t *received, size_t received_len, uint8_t *answer, size_t answer_len);

#endif
