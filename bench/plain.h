/* The same ten services in plain C, byte by byte, for the benchmark to measure against. Not for use from several threads. */
#ifndef PLAIN_H
#define PLAIN_H

#include "../include/pilgodur.h"

pilgodur_checked plain_check(const uint8_t *table, size_t table_len);
pilgodur_built plain_build(const uint8_t *table, size_t table_len, uint8_t *file, size_t file_len);
pilgodur_built plain_build_with_lamp(const uint8_t *table, size_t table_len, uint8_t *file, size_t file_len);
pilgodur_reading plain_read_off(const uint8_t *table, size_t table_len, uint32_t input);
uint32_t plain_run(const uint8_t *netlist, size_t netlist_len, const uint8_t *rails, size_t rails_len,
                   const uint8_t *holds, size_t holds_len, uint8_t *lines, size_t lines_len,
                   uint8_t *pairs, size_t pairs_len);
pilgodur_stepped plain_step(const uint8_t *netlist, size_t netlist_len, const uint8_t *rails, size_t rails_len,
                            const uint8_t *holds, size_t holds_len, uint32_t place, uint32_t count,
                            uint8_t *lines, size_t lines_len, uint8_t *pairs, size_t pairs_len);
pilgodur_probed plain_probe(const uint8_t *table, size_t table_len, const uint8_t *hold, size_t hold_len,
                            uint8_t *buffer, size_t buffer_len);
pilgodur_built plain_sheet(const uint8_t *netlist, size_t netlist_len, uint8_t *text, size_t text_len);
pilgodur_built plain_from_drawing(const uint8_t *drawing, size_t drawing_len, uint8_t *table, size_t table_len);
pilgodur_built plain_from_rules(const uint8_t *rules, size_t rules_len, uint8_t *table, size_t table_len);

#endif
