/* The calls of ses.h once more, in plain C: same arguments, same answers. The benchmark holds the library against them. */
#ifndef PLAIN_H
#define PLAIN_H

#include "ses.h"

uint8_t plain_check(const uint8_t *shelf, size_t shelf_length);

uint8_t plain_write_configuration(const uint8_t *shelf, size_t shelf_length,
                                  uint8_t *out, size_t out_length, uint32_t *written);
uint8_t plain_write_status(const uint8_t *shelf, size_t shelf_length,
                           uint8_t *out, size_t out_length, uint32_t *written);
uint8_t plain_write_thresholds(const uint8_t *shelf, size_t shelf_length,
                               uint8_t *out, size_t out_length, uint32_t *written);
uint8_t plain_write_descriptors(const uint8_t *shelf, size_t shelf_length,
                                uint8_t *out, size_t out_length, uint32_t *written);

uint8_t plain_read_configuration(const uint8_t *page, size_t page_length,
                                 uint8_t configuration[SES_CONFIGURATION_LENGTH], uint32_t *offset);
uint8_t plain_read_status(const uint8_t *configuration, size_t configuration_length,
                          const uint8_t *page, size_t page_length, struct ses_status *record, uint32_t *offset);
uint8_t plain_read_thresholds(const uint8_t *configuration, size_t configuration_length,
                              const uint8_t *page, size_t page_length, struct ses_thresholds *record,
                              uint32_t *offset);
uint8_t plain_read_descriptors(const uint8_t *configuration, size_t configuration_length,
                               const uint8_t *page, size_t page_length, struct ses_names *record,
                               uint32_t *offset);

uint8_t plain_rewrite_configuration(const uint8_t *configuration, size_t configuration_length,
                                    uint8_t *out, size_t out_length, uint32_t *written);
uint8_t plain_rewrite_status(const uint8_t *configuration, size_t configuration_length,
                             const struct ses_status *record,
                             uint8_t *out, size_t out_length, uint32_t *written);
uint8_t plain_rewrite_thresholds(const uint8_t *configuration, size_t configuration_length,
                                 const struct ses_thresholds *record,
                                 uint8_t *out, size_t out_length, uint32_t *written);
uint8_t plain_rewrite_descriptors(const uint8_t *configuration, size_t configuration_length,
                                  const struct ses_names *record,
                                  uint8_t *out, size_t out_length, uint32_t *written);

uint8_t plain_apply_control(uint8_t *shelf, size_t shelf_length, const uint8_t *page, size_t page_length,
                            uint32_t *offset);
uint8_t plain_apply_thresholds(uint8_t *shelf, size_t shelf_length, const uint8_t *page, size_t page_length,
                               uint32_t *offset);

void plain_empty_collector(struct ses_collector *collector);
void plain_put_chunk(struct ses_collector *collector, const uint8_t *chunk, size_t chunk_length);
uint8_t plain_end_page(struct ses_collector *collector, uint8_t *shelf, size_t shelf_length, uint8_t code,
                       uint32_t *offset);

uint8_t plain_build_control(const uint8_t *shelf, size_t shelf_length,
                            const uint8_t *wanted, size_t wanted_length,
                            uint8_t *out, size_t out_length,
                            uint32_t *written, uint32_t *selects);

uint8_t plain_find_name(const uint8_t *shelf, size_t shelf_length, const uint8_t *text, size_t text_length,
                        uint32_t *element);
uint8_t plain_set_name(uint8_t *shelf, size_t shelf_length, uint32_t element,
                       const uint8_t *text, size_t text_length);
uint8_t plain_set_overall_name(uint8_t *shelf, size_t shelf_length, uint32_t type,
                               const uint8_t *text, size_t text_length);

#endif
