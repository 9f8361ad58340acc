# shellcheck shell=sh disable=SC2034,SC2154,SC2162,SC2164
# audit --ranges on pairs made for it: where each range ends, and where it lies.

# flip FILE FIRST LAST: every byte of these becomes another
flip() {
	dd if="$1" bs=1 skip="$2" count=$(($3 - $2 + 1)) 2>/dev/null | tr '\000-\377' '\001-\377\000' |
		dd of="$1" bs=1 seek="$2" conv=notrunc 2>/dev/null
}

# ranges_are VENDOR SHIPPED STATUS LINE..: these ranges between the counts and the verdict; they are the list of the plain audit
ranges_are() {
	one=$1
	other=$2
	status=$3
	shift 3
	works "$status" audit --ranges "$one" "$other"
	sed '1,4d; /^verdict /,$d' "$work/out" >"$work/ranges"
	lines "$@"
	same "$work/ranges" "$work/wanted"
	sed '1,4p; /^verdict /,$p; d' "$work/out" >"$work/around"
	works "$status" audit "$one" "$other"
	sed '1,4p; /^verdict /,$p; d' "$work/out" >"$work/around_list"
	same "$work/around" "$work/around_list"
	sed '1,4d; /^verdict /,$d' "$work/out" >"$work/list"
	awk '{ split($2, ends, "[.][.]"); if (ends[2] - ends[1] + 1 != $4) print "length"
		for (at = ends[1]; at <= ends[2]; at++) print $1, at }' "$work/ranges" >"$work/spread"
	same "$work/spread" "$work/list"
}

try_no_ranges() {
	ranges_are "$vendor" "$vendor" 0
	ranges_are "$vendor" "$o/moved" 0
}

try_sample_ranges() {
	ranges_are "$vendor" "$shipped" 1 'S 4136..4136 length 1 region offset 0x0028' 'X 5000..5000 length 1 patch word 1'
	prints 'base 0x00100000' "settings 1 $of_maker" 'strays 1' 'bits 1' 'S 4136' 'X 5000' 'verdict unexplained'
}

# from before the FSP header to after the tables; the base word itself never differs, as the reference is moved to it
try_table_ranges() {
	cp "$o/moved" "$i/t"
	flip "$i/t" 98 127
	flip "$i/t" 132 201
	flip "$i/t" 0 0
	ranges_are "$vendor" "$i/t" 1 'X 0..0 length 1 elsewhere' 'X 98..99 length 2 elsewhere' 'X 100..103 length 4 tables: header mark' \
		'X 104..107 length 4 tables: header length' 'X 108..109 length 2 tables: reserved' 'X 110..110 length 1 tables: specification version' \
		'X 111..111 length 1 tables: header revision' 'X 112..115 length 4 tables: image revision' 'X 116..123 length 8 tables: identity' \
		'X 124..127 length 4 tables: image size' 'X 132..133 length 2 tables: image attributes' 'X 134..135 length 2 tables: component' \
		'X 136..139 length 4 tables: region position' 'X 140..143 length 4 tables: region size' 'X 144..147 length 4 tables: reserved' \
		'X 148..151 length 4 tables: TempRamInit entry' 'X 152..155 length 4 tables: reserved' 'X 156..159 length 4 tables: NotifyPhase entry' \
		'X 160..163 length 4 tables: MemoryInit entry' 'X 164..167 length 4 tables: TempRamExit entry' 'X 168..171 length 4 tables: SiliconInit entry' \
		"X 172..183 length 12 tables: patch table's header" 'X 184..187 length 4 tables: patch entry 0' 'X 188..191 length 4 tables: patch entry 1' \
		'X 192..195 length 4 tables: patch entry 2' 'X 196..199 length 4 tables: patch entry 3' 'X 200..201 length 2 elsewhere'
}

# into the region, through its header into the settings, and out of it over a patch word
try_region_ranges() {
	cp "$o/moved" "$i/t"
	flip "$i/t" 4094 4130
	flip "$i/t" 4494 4503
	ranges_are "$vendor" "$i/t" 1 'X 4094..4095 length 2 elsewhere' 'X 4096..4127 length 32 region header' \
		'S 4128..4130 length 3 region offset 0x0020' 'S 4494..4495 length 2 region offset 0x018E' 'X 4496..4497 length 2 elsewhere' \
		'X 4498..4501 length 4 patch word 0' 'X 4502..4503 length 2 elsewhere'
	works 0 setting "$vendor" 32 3
	[ "$(sed -n 2p "$work/out")" = 'place 4128' ] || fail "another offset than the range's"
	passed
}

# neighbours of one kind are joined, others are not; settings alone are explained
try_joined_ranges() {
	cp "$o/moved" "$i/t"
	flip "$i/t" 4200 4200
	flip "$i/t" 4202 4203
	flip "$i/t" 4205 4300
	ranges_are "$vendor" "$i/t" 0 'S 4200..4200 length 1 region offset 0x0068' 'S 4202..4203 length 2 region offset 0x006A' \
		'S 4205..4300 length 96 region offset 0x006D'
	flip "$i/t" 6500 6500
	flip "$i/t" 6502 6999
	ranges_are "$vendor" "$i/t" 1 'S 4200..4200 length 1 region offset 0x0068' 'S 4202..4203 length 2 region offset 0x006A' \
		'S 4205..4300 length 96 region offset 0x006D' 'X 6500..6500 length 1 elsewhere' 'X 6502..6999 length 498 elsewhere'
}

# words side by side, in another order than their entries, and one at the image's end
try_word_ranges() {
	poked "$vendor" "$i/w" 184 '\210\023\000\000\204\023\000\000\214\023\000\000'
	works 0 release "$all" --owner=1 "$i/w" "$work/nothing" 0x00345000 "$i/t"
	flip "$i/t" 4995 5004
	flip "$i/t" 8186 8191
	ranges_are "$i/w" "$i/t" 1 'X 4995..4995 length 1 elsewhere' 'X 4996..4999 length 4 patch word 1' 'X 5000..5003 length 4 patch word 0' \
		'X 5004..5004 length 1 patch word 2' 'X 8186..8187 length 2 elsewhere' 'X 8188..8191 length 4 patch word 3'
}

# 250 settings in a row and 50 strays apart
try_many_ranges() {
	data=$root/crates/run_short/data
	works 1 audit --ranges "$data/vendor.bin" "$data/shipped.bin"
	[ "$(sed -n 5p "$work/out")" = 'S 4128..4377 length 250 region offset 0x0020' ] || fail "the settings are not one range"
	[ "$(grep -c '^X \([0-9]*\)[.][.]\1 length 1 elsewhere$' "$work/out")" -eq 50 ] || fail "not 50 strays"
	[ "$(wc -l <"$work/out")" -eq 56 ] || fail "other lines"
	passed
}

for one in no sample table region joined word many; do "try_${one}_ranges"; done
