/* The groups of the read part, file by file. */
#ifndef BENCH_READ_CASES_H
#define BENCH_READ_CASES_H

#include "read_plans.h"

/* read_whole.c */
void whole_volume_header(void);
void whole_extension(void);
void whole_room(void);
void whole_header_length(void);
void whole_header_numbers(void);
void whole_base(void);
void whole_table(void);
void whole_entry_bits(void);
void whole_places(void);
void whole_region(void);
void whole_tight(void);
void whole_most(void);

/* read_volume.c */
void damage_length(unsigned k);
void damage_tiny(void);
void damage_volume(unsigned k);
void damage_volume_length(unsigned k);
void damage_volume_sum(unsigned k);
void damage_odd(void);
void damage_extension_place(void);
void damage_extension_length(unsigned k);
void damage_extension_cut(unsigned k);
void damage_extension_wrap(void);
void damage_name(unsigned k);
void damage_file_header(unsigned k);
void damage_file_length(unsigned k);
void damage_file_place(unsigned k);
void damage_section(unsigned k);

/* read_header.c */
void damage_mark(unsigned k);
void damage_header(unsigned k);
void damage_size(unsigned k);
void damage_component(unsigned k);
void damage_base(unsigned k);
void damage_base_length(void);

/* read_extended.c */
void extended_lengths(void);
void extended_values(void);
void extended_unseen(void);
void extended_edges(void);
void extended_order(void);

/* read_table.c */
void damage_table(unsigned k);
void damage_cut(unsigned k);
void damage_edge(unsigned k);
void damage_extended(unsigned k);
void damage_extended_end(unsigned k);
void damage_extended_odd(unsigned k);
void damage_config(unsigned k);
void damage_config_end(unsigned k);
void damage_config_large(void);
void damage_upd(unsigned k);

/* read_entries.c */
void damage_type(unsigned k);
void damage_place(unsigned k);
void damage_overlap(unsigned k);
void damage_twice(unsigned k);
void damage_between(unsigned k);
void damage_passes(unsigned k);

/* read_reserved.c */
void reserved_bits(unsigned k);
void reserved_words(unsigned k);
void reserved_tables(unsigned k);
void reserved_beside(unsigned k);

/* module_order.c: the readings of #107. */
void read_modules(void);

/* read_random.c */
void several_rules(void);
void cut_lengths(unsigned k);
void random_bytes(unsigned k);
void random_lengths(unsigned k);
void random_short(void);
void random_plans(void);
void random_crowd(unsigned k);

#endif
