/* Reading cases: all of them in order. */
#include "read_cases.h"
#include "edition_cases.h"

/* Every rule at its bounds. */
static void whole_images(void)
{
	whole_volume_header();
	whole_extension();
	whole_room();
	whole_header_length();
	whole_header_numbers();
	whole_base();
	whole_table();
	whole_entry_bits();
	whole_places();
	whole_region();
	whole_tight();
	whole_most();
}

/* #102: the extended number. */
static void extended_images(void)
{
	extended_lengths();
	extended_values();
	extended_unseen();
	extended_edges();
	extended_order();
}

/* Each damage and the plans it is done to. */
static const struct {
	void (*damage)(unsigned);
	const char *plans;
} task[] = {
	{ damage_length, "01" },
	{ damage_volume, "02" },
	{ damage_volume_length, "12" },
	{ damage_volume_sum, "123" },
	{ damage_extension_length, "13" },
	{ damage_extension_cut, "13" },
	{ damage_name, "1" },
	{ damage_file_header, "3" },
	{ damage_file_length, "01" },
	{ damage_file_place, "01" },
	{ damage_section, "01" },
	{ damage_mark, "3" },
	{ damage_header, "01" },
	{ damage_size, "13" },
	{ damage_component, "13" },
	{ damage_base, "03" },
	{ damage_table, "03" },
	{ damage_cut, "01" },
	{ damage_edge, "01" },
	{ damage_extended, "1" },
	{ damage_extended_end, "3" },
	{ damage_extended_odd, "03" },
	{ damage_config, "02" },
	{ damage_config_end, "01" },
	{ damage_upd, "0123" },
	{ damage_type, "12" },
	{ damage_place, "02" },
	{ damage_overlap, "03" },
	{ damage_twice, "1" },
	{ damage_between, "03" },
	{ damage_passes, "0" },
	{ reserved_bits, "13" },
	{ reserved_words, "02" },
	{ reserved_tables, "02" },
	{ reserved_beside, "13" },
	{ cut_lengths, "0" },
	{ random_bytes, "0123" },
	{ random_lengths, "0123" },
	{ random_crowd, "13" },
};

/* Each damage to each of its plans. */
static void damaged_images(void)
{
	for (size_t i = 0; i < COUNT(task); i++)
		for (const char *k = task[i].plans; *k != 0; k++)
			task[i].damage((unsigned)(*k - '0'));
}

/* The read part: some 7,400 cases, half of them those of #107. */
void read_part(void)
{
	begin_part(UINT64_C(0x9E3779B97F4A7C15), true);
	whole_images();
	extended_images();
	damage_tiny();
	damage_odd();
	damage_extension_place();
	damage_extension_wrap();
	damage_base_length();
	damage_config_large();
	damaged_images();
	several_rules();
	random_plans();
	random_short();
	read_modules();
	read_editions();
}
