# shellcheck shell=sh disable=SC2034,SC2154,SC2162,SC2164
# verify: releases made by the command itself, changed in every way that counts, against the sheets they were made with.

# releases IMAGE SHEET BASE OUT: one release; all of this part, and those after it, ask for theirs here
releases() { works 0 release "$all" --owner=1 "$@"; }

# makes_sheet NAME LINE..: a sheet for the vendor's image
makes_sheet() {
	out=$1
	shift
	{ printf '%s\n' "$@" && cat "$work/bound"; } >"$i/text"
	works 0 sheet make "$vendor" "$i/text" "$out"
}

# two sheets that overlap in offset 41, and the file that both make, at 0x00512000
make_released() {
	cd "$i"
	makes_sheet one.sheet '40 01 00' '100 AA BB CC DD'
	makes_sheet two.sheet '41 07' '200 F3' '300 11 22 33'
	releases "$vendor" one.sheet keep first
	releases first two.sheet 0x00512000 released
	releases "$vendor" two.sheet keep other
	in_place release "$all" --owner=1 other one.sheet 0x00512000 other
	cd "$root"
}

# what each of their entries replaces; the maker's image has F3 at 200 already
set_28='set 0x0028 at 4136: 01 05 -> 01 00, 0x0501 -> 0x0001'
set_64='set 0x0064 at 4196: 7F A4 C9 EE -> AA BB CC DD, 0xEEC9A47F -> 0xDDCCBBAA'
set_29='set 0x0029 at 4137: 05 -> 07'
set_C8='set 0x00C8 at 4296: F3, changes nothing'
set_12C='set 0x012C at 4396: 67 8C B1 -> 11 22 33'

# told VERDICT BASE MOVE SETTINGS STRAYS BITS LINE..: the whole output for the two sheets in their order
told() {
	verdict=$1 base=$2 move=$3 settings=$4 strays=$5 bits=$6
	shift 6
	steady
	prints "verdict $verdict" "base $base" "move $move" 'sheet 1 entries 2 one.sheet' "$set_28" "$set_64" 'sheet 2 entries 3 two.sheet' "$set_29" \
		"$set_C8" "$set_12C" "settings $settings $of_release" "strays $strays" "bits $bits" "$@"
}

# told_here SETTINGS STRAYS BITS LINE..: of a file at 0x00512000 that isn't the release
told_here() { told 'not as released' 0x00512000 -4289126400 "$@"; }

try_as_released() {
	cd "$i"
	works 0 verify "$vendor" one.sheet two.sheet released
	told 'as released, owners and base not checked' 0x00512000 -4289126400 0 0 0
	releases released "$work/nothing" 0x0 moved
	works 0 verify "$vendor" one.sheet two.sheet moved
	told 'as released, owners and base not checked' 0x00000000 -4294443008 0 0 0
	works 0 verify "$vendor" "$work/nothing" "$vendor"
	steady
	prints 'verdict as released, owners and base not checked' 'base 0xFFF80000' 'move 0' "sheet 1 entries 0 $work/nothing" "settings 0 $of_release" 'strays 0' 'bits 0'
	works 0 verify "$vendor" "$work/nothing" "$o/moved"
	works 0 verify "$vendor" one.sheet one.sheet "$work/nothing" two.sheet two.sheet released
	works 0 verify "$vendor" -- one.sheet two.sheet released
	rm moved
	cd "$root"
}

# the order counts: the later sheet wins where both set a byte
try_order() {
	cd "$i"
	works 1 verify "$vendor" two.sheet one.sheet released
	steady
	prints 'verdict not as released' 'base 0x00512000' 'move -4289126400' 'sheet 1 entries 3 two.sheet' "$set_29" "$set_C8" \
		"$set_12C" 'sheet 2 entries 2 one.sheet' "$set_28" "$set_64" "settings 1 $of_release" \
		'strays 0' 'bits 3' "S 4137..4137 length 1 region offset 0x0029 should 00 is 07, neither the sheet's nor the maker's, entry 0 of one.sheet"
	works 0 verify "$vendor" two.sheet one.sheet other
	works 1 verify "$vendor" one.sheet two.sheet other
	told_here 1 0 3 "S 4137..4137 length 1 region offset 0x0029 should 07 is 00, neither the sheet's nor the maker's, entry 0 of two.sheet"
	cd "$root"
}

# the incident: what the sheet sets was never set
try_still_makers() {
	cd "$i"
	releases first "$work/nothing" 0x00512000 half
	works 1 verify "$vendor" one.sheet two.sheet half
	told_here 4 0 15 "S 4137..4137 length 1 region offset 0x0029 should 07 is 00, neither the sheet's nor the maker's, entry 0 of two.sheet" \
		"S 4396..4398 length 3 region offset 0x012C should 11 22 33 is $(bytes_at "$vendor" 4396 3), still as the maker's, entry 2 of two.sheet"
	works 1 verify "$vendor" one.sheet "$o/moved"
	steady
	prints 'verdict not as released' 'base 0x00100000' 'move -4293394432' 'sheet 1 entries 2 one.sheet' "$set_28" "$set_64" "settings 5 $of_release" 'strays 0' "$(grep '^bits' "$work/out")" \
		"S 4137..4137 length 1 region offset 0x0029 should 00 is 05, still as the maker's, entry 0 of one.sheet" \
		"S 4196..4199 length 4 region offset 0x0064 should AA BB CC DD = 0xDDCCBBAA is 7F A4 C9 EE = 0xEEC9A47F, still as the maker's, entry 1 of one.sheet"
	rm half
	cd "$root"
}

# pair_at FILE POSITION: two bytes of a setting, and the number that they are
pair_at() { bytes_at "$1" "$2" 2 | sed 's/\(..\) \(..\)/\1 \2 = 0x\2\1/'; }

# a byte in each room: of no sheet, in the middle of an entry (which splits it), in the region's header, in tables, words and elsewhere
try_rooms() {
	cd "$i"
	cp released t
	flip t 0 0
	flip t 136 136
	flip t 4099 4100
	flip t 4160 4161
	flip t 4197 4198
	flip t 4999 4999
	flip t 8191 8191
	works 1 verify "$vendor" one.sheet two.sheet t
	told_here 4 6 "$(sed -n 's/^bits //p' "$work/out")" "X 0..0 length 1 elsewhere should $(bytes_at released 0 1) is $(bytes_at t 0 1)" \
		"X 136..136 length 1 tables: region position should $(bytes_at released 136 1) is $(bytes_at t 136 1)" \
		"X 4099..4100 length 2 region header should $(bytes_at released 4099 2) is $(bytes_at t 4099 2)" \
		"S 4160..4161 length 2 region offset 0x0040 should $(pair_at released 4160) is $(pair_at t 4160), no sheet sets it" \
		"S 4197..4198 length 2 region offset 0x0065 should BB CC = 0xCCBB is BC CD = 0xCDBC, neither the sheet's nor the maker's, entry 1 of one.sheet" \
		"X 4999..4999 length 1 patch word 1 should $(bytes_at released 4999 1) is $(bytes_at t 4999 1)" \
		"X 8191..8191 length 1 patch word 3 should $(bytes_at released 8191 1) is $(bytes_at t 8191 1)"
	poked released t 4196 "\\$(printf %o "0x$(bytes_at "$vendor" 4196 1)")"
	works 1 verify "$vendor" one.sheet two.sheet t
	[ "$(tail -n 1 "$work/out")" = "S 4196..4196 length 1 region offset 0x0064 should AA is $(bytes_at "$vendor" 4196 1), still as the maker's, entry 1 of one.sheet" ] ||
		fail "a byte that is the maker's again"
	passed
	cd "$root"
}

# side by side: a range ends where another entry or another sheet sets the next byte, and where that is the maker's again
try_neighbours() {
	cd "$i"
	makes_sheet near.sheet '50 01 02' '52 03'
	makes_sheet next.sheet '53 04 05'
	releases "$vendor" near.sheet keep near
	in_place release "$all" --owner=1 near next.sheet keep near
	flip near 4145 4151
	works 1 verify "$vendor" near.sheet next.sheet near
	steady
	sed 1,11d "$work/out" >"$work/ranges"
	neither="neither the sheet's nor the maker's"
	lines "S 4145..4145 length 1 region offset 0x0031 should $(bytes_at "$vendor" 4145 1) is $(bytes_at near 4145 1), no sheet sets it" \
		"S 4146..4147 length 2 region offset 0x0032 should 01 02 = 0x0201 is 02 03 = 0x0302, $neither, entry 0 of near.sheet" \
		"S 4148..4148 length 1 region offset 0x0034 should 03 is 04, $neither, entry 1 of near.sheet" \
		"S 4149..4150 length 2 region offset 0x0035 should 04 05 = 0x0504 is 05 06 = 0x0605, $neither, entry 0 of next.sheet" \
		"S 4151..4151 length 1 region offset 0x0037 should $(bytes_at "$vendor" 4151 1) is $(bytes_at near 4151 1), no sheet sets it"
	same "$work/ranges" "$work/wanted"
	poke near 4147 "\\$(printf %o "0x$(bytes_at "$vendor" 4147 1)")"
	poke near 4149 "\\$(printf %o "0x$(bytes_at "$vendor" 4149 1)")"
	works 1 verify "$vendor" near.sheet next.sheet near
	steady
	sed '1,12d; $d' "$work/out" >"$work/ranges"
	lines "S 4146..4146 length 1 region offset 0x0032 should 01 is 02, $neither, entry 0 of near.sheet" \
		"S 4147..4147 length 1 region offset 0x0033 should 02 is $(bytes_at "$vendor" 4147 1), still as the maker's, entry 0 of near.sheet" \
		"S 4148..4148 length 1 region offset 0x0034 should 03 is 04, $neither, entry 1 of near.sheet" \
		"S 4149..4149 length 1 region offset 0x0035 should 04 is $(bytes_at "$vendor" 4149 1), still as the maker's, entry 0 of next.sheet" \
		"S 4150..4150 length 1 region offset 0x0036 should 05 is 06, $neither, entry 0 of next.sheet"
	same "$work/ranges" "$work/wanted"
	rm near near.sheet next.sheet
	cd "$root"
}

# more than 16 bytes in a row are cut in the line, and whole in the text
try_long_ranges() {
	cd "$i"
	cp released t
	flip t 6500 6515
	flip t 6600 6616
	works 1 verify --text whole "$vendor" one.sheet two.sheet t
	[ "$(tail -n 2 "$work/out" | head -n 1)" = "X 6500..6515 length 16 elsewhere should $(bytes_at released 6500 16) is $(bytes_at t 6500 16)" ] ||
		fail "16 bytes"
	[ "$(tail -n 1 "$work/out")" = "X 6600..6616 length 17 elsewhere should $(bytes_at released 6600 16) .. is $(bytes_at t 6600 16) .." ] || fail "17 bytes"
	[ "$(grep -v "^W " whole | tail -n 1)" = "X 6600..6616 length 17 elsewhere should $(bytes_at released 6600 17) is $(bytes_at t 6600 17)" ] || fail "17 bytes of the text"
	passed
	rm whole
	cd "$root"
}

# a base word that was changed: the words were not moved with it
try_other_base() {
	cd "$i"
	poked released t 128 '\000\060\121\000'
	works 1 verify "$vendor" one.sheet two.sheet t
	steady
	[ "$(sed -n 2,4p "$work/out" | tr '\n' ' ')" = 'base 0x00513000 4 of 4 other words agree on base 0x00512000: the base word may be damaged move -4289122304 ' ] ||
		fail "another base"
	[ "$(grep -c '^X .* patch word [0-3] should .. is ..$' "$work/out")" -eq 4 ] || fail "not every word that stayed is told"
	poked released t 128 '\001\060\121\000'
	refuses 18 t "the shipped file's base must be a multiple of 4096, base plus length at most 2^32: 0x00513001 for 8192 bytes; 4 of 4 other words agree on base 0x00512000" \
		verify "$vendor" one.sheet two.sheet t
	cd "$root"
}

# the vendor's own refusal first, then each sheet's in its turn, then the pair's
try_verify_refusals() {
	cd "$i"
	values 14 r "$entry_of_r" verify r one.sheet two.sheet released
	values 14 r "$entry_of_r" verify r "$work/empty" "$work/empty"
	values 1 "$work/empty" 'the file has 0 bytes' verify "$work/empty" one.sheet released
	head -c 30 one.sheet >b
	values 15 b 'the file has 30 bytes, m 2, entry 1 (counted from 0) is cut short' verify v b two.sheet released
	values 15 b 'the file has 30 bytes, m 2, entry 1 (counted from 0) is cut short' verify v one.sheet b "$work/empty"
	poked two.sheet b 11 '\002'
	refuses 16 b "$rule_identity: the sheet is for 54524541542D3031 \"TREAT-01\" revision 0x02020304 extended 0x0000 version 2.2.3.4, \
v is $(parts 0x0000 1.2.3.4)" verify v one.sheet b released
	poked one.sheet b 16 '\037'
	refuses 17 b "a setting must have a byte or more, at offsets 32 to z-1 of the region: entry 0 (counted from 0) has offset 0x001F length 2, \
the region's size z is 0x0190" verify v two.sheet b released
	head -c 8191 released >short
	refuses 19 short 'the two images must be equally long: the file has 8191 bytes, v has 8192' verify v one.sheet two.sheet short
	values 15 "$work/empty" 'the file has 0 bytes' verify v "$work/empty" short
	refuses 19 "$work/above" 'the two images must be equally long: the file has more than 16777216 bytes, v has 8192' verify v one.sheet "$work/above"
	rm b short
	cd "$root"
}

# with a list and an owner the sheets are released by that owner: as released, or refused as the release refuses it
try_verify_owners() {
	cd "$i"
	printf '40 2 1\n100 4 1\n\n200 1 2\n300 3 2\n' >own
	works 0 release --owners own --owner 1 v one.sheet 0x00512000 mine
	works 0 verify --owners own --owner 1 v one.sheet mine
	steady
	prints 'verdict as released, base not checked' 'base 0x00512000' 'move -4289126400' 'sheet 1 entries 2 owner 1 one.sheet' "$set_28" "$set_64" "settings 0 $of_release" 'strays 0' 'bits 0'
	works 0 verify v one.sheet mine
	works 0 verify "$all" --owner=1 v one.sheet two.sheet released
	flip mine 4160 4160
	works 1 verify --owners own --owner 1 v one.sheet mine
	owned_by="entry 0 (counted from 0) has offset 0x0028 length 2, owner 2 asks, offset 0x0028 is owner 1's by own, line 1: 0x0028 2 1"
	refuses_alike 24 one.sheet "$rule_owner: $owned_by" --owners own --owner 2 v one.sheet
	owned_by="entry 0 (counted from 0) has offset 0x0029 length 1, owner 2 asks, offset 0x0029 is owner 1's by own, line 1: 0x0028 2 1"
	refuses_alike 24 two.sheet "$rule_owner: $owned_by" --owners own --owner 2 v two.sheet
	makes_sheet gap.sheet '200 01' '250 02'
	owned_by="entry 1 (counted from 0) has offset 0x00FA length 1, owner 2 asks, offset 0x00FA is nobody's by own"
	refuses_alike 24 gap.sheet "$rule_owner: $owned_by" --owners own --owner 2 v gap.sheet
	values 23 own 'the list is fine, --owner is 3' verify --owners own --owner 3 v one.sheet mine
	printf '40 2 1\n41 1 2\n' >bad
	values 23 bad "line 2: offset 0x0029 (the one before ends at 0x002A) length 1 owner 2, ranges so far 2, the region's size z is 0x0190" \
		verify --owners bad --owner 1 v one.sheet mine
	rm gap.sheet
	try_owners_order
	try_owners_words
	rm own bad mine
	cd "$root"
}

# refuses_alike N FILE RULE OPTION.. IMAGE SHEET: release and verify tell the same
refuses_alike() {
	number=$1 about=$2 rule=$3
	shift 3
	keeps "$o" refuses "$number" "$about" "$rule" release "$@" keep "$o/out"
	cp "$work/err" "$work/released.err"
	refuses "$number" "$about" "$rule" verify "$@" mine
	same "$work/err" "$work/released.err"
}

# 15, 23, 16, 17, 24 of each sheet in its turn, before the pair's own; the vendor's before all
try_owners_order() {
	head -c 30 one.sheet >b
	values 15 b 'the file has 30 bytes, m 2, entry 1 (counted from 0) is cut short' verify --owners bad --owner 1 v b mine
	poked one.sheet b 11 '\002'
	values 23 bad "line 2: offset 0x0029 (the one before ends at 0x002A) length 1 owner 2, ranges so far 2, the region's size z is 0x0190" \
		verify --owners bad --owner 1 v b mine
	try 2 verify --owners own --owner 2 v b mine
	prints 'refused 16'
	head -c 8191 mine >short
	try 2 verify --owners own --owner 1 v one.sheet two.sheet short
	prints 'refused 24'
	grep -q '^two.sheet: refused 24 OWNER: ' "$work/err" || fail "the second sheet isn't named"
	try 2 verify --owners own --owner 1 v one.sheet short
	prints 'refused 19'
	values 14 r "$entry_of_r" verify --owners bad --owner 3 r one.sheet mine
	rm b short
}

# both or neither, a number, a list that is there; none of it by audit, and no page over the list
try_owners_words() {
	see_verify='(see pajurenda verify --help)'
	fails_with "pajurenda: verify: --owner N is missing: who released by LIST, 1 or 2 $see_verify" verify --owners own v one.sheet mine
	fails_with "pajurenda: verify: --owners LIST is missing: whose each setting is; without both every setting is owner 1's $see_verify" \
		verify --owner 1 v one.sheet mine
	fails_with "pajurenda: missing: No such file or directory" verify --owners missing --owner 1 v one.sheet mine
	fails_with "pajurenda: verify: the file to write is LIST itself, which would be lost $see_verify" \
		verify --report own --owners own --owner 1 v one.sheet mine
	fails_with "pajurenda: audit: takes no option --owners (see pajurenda audit --help)" audit --owners own v mine
	try 2 verify --owners own --owner one v one.sheet mine
	[ "$(wc -l <"$work/err")" -eq 1 ] || fail "a number that is none is told in a line"
	printf 'v one.sheet mine\nv two.sheet mine\n' >pairs
	try 2 verify --owners own --owner one --list pairs
	[ "$(wc -l <"$work/err")" -eq 1 ] || fail "a number that is none is told once"
	try 2 verify --owners own --owner 1 --list pairs
	prints 'line 1 not as released base 0x00512000 settings 1 strays 0 bits 3 v one.sheet mine' 'line 2 refused 24 v two.sheet mine' \
		'pairs 2 as released 0 not as released 1 refused 1 failed 0'
	rm pairs
}

try_verify_words() {
	see_verify='(see pajurenda verify --help)'
	fails_with "pajurenda: verify: two words or more are wanted: RECORD SHIPPED, or VENDOR SHEET.. SHIPPED, not 0 $see_verify" verify
	fails_with "pajurenda: verify: $vendor is no release record, and without one three words or more are wanted: VENDOR SHEET.. SHIPPED $see_verify" \
		verify "$vendor" "$i/released"
	fails_with "pajurenda: verify: takes no option --ranges $see_verify" verify --ranges "$vendor" "$i/one.sheet" "$i/released"
	for name in "$work/missing:No such file or directory" "$work/o:Is a directory"; do
		file=${name%:*}
		reason="pajurenda: $file: ${name##*:}"
		fails_with "$reason" verify "$file" "$i/one.sheet" "$i/released"
		fails_with "$reason" verify "$vendor" "$file" "$i/released"
		fails_with "$reason" verify "$vendor" "$i/one.sheet" "$file" "$i/released"
		fails_with "$reason" verify "$vendor" "$i/one.sheet" "$file"
	done
	unheard verify "$vendor" "$i/one.sheet" "$i/released"
	unheard verify "$vendor" "$i/one.sheet" "$shipped"
	what='verify, a pipe'
	got=0
	# shellcheck disable=SC2002
	cat "$i/released" | run verify "$vendor" "$i/one.sheet" "$i/two.sheet" /dev/stdin >"$work/out" 2>"$work/err" || got=$?
	status_was 0
	cp "$i/one.sheet" "$i/a
b"
	works 1 verify "$vendor" "$i/a
b" "$i/released"
	grep -q "^sheet 1 entries 2 .*/a?b\$" "$work/out" || fail "a name makes a line of its own"
	rm "$i/a
b"
}

# ---- any release, any change ----

# shellcheck disable=SC2016
# spread: the ranges of a verify as the list of an audit with its bytes
spread='/^[SX] / { sub(/, .*/, ""); split($2, ends, "[.][.]"); side = ""; want = ""; have = ""
	for (n = 5; n <= NF; n++)
		if ($n == "should" || $n == "is" || $n == "=") side = $n
		else if (side == "should") want = want $n
		else if (side == "is") have = have $n
	for (at = ends[1]; at <= ends[2]; at++) print $1, at, substr(want, 1 + 2 * (at - ends[1]), 2), substr(have, 1 + 2 * (at - ends[1]), 2) }'

# each drawn sheet pair is released step by step; a copy with some bytes changed differs from it in what verify lists, and nothing else
try_any_release() {
	cd "$i"
	equal=0
	for turn in 1 2 3 4 5 6 7 8 9 10 11 12; do
		for one in 1 2; do
			# shellcheck disable=SC2059
			printf "$(awk -v seed="$((seed * 1000 + 2 * turn + one))" "$draw_sheet")" >"drawn$one"
		done
		releases "$vendor" drawn1 keep step
		releases step drawn2 0x00345000 made
		awk -v seed="$((seed + turn))" -v count="$((turn % 4))" -v low=4080 -v high=4520 -v other=100 "$draw" | tr '\n' ' ' >"$work/drawn"
		# shellcheck disable=SC2046
		changed made t $(cat "$work/drawn")
		wanted_status=1
		! cmp -s made t || wanted_status=0
		equal=$((equal + 1 - wanted_status))
		works "$wanted_status" verify --text whole "$vendor" drawn1 drawn2 t
		grep -v '^W ' whole | awk "$spread" >"$work/spread"
		got=0
		run audit --bytes made t >"$work/out" 2>"$work/err" || got=$?
		grep '^[SX] ' "$work/out" >"$work/list" || :
		same "$work/spread" "$work/list"
	done
	if [ "$equal" -lt 2 ] || [ "$equal" -gt 8 ]; then fail "$equal of 12 were left as released"; fi
	rm -f whole drawn1 drawn2 step made t
	cd "$root"
}

make_released
try_as_released
try_order
try_still_makers
try_rooms
try_neighbours
try_long_ranges
try_other_base
try_verify_refusals
try_verify_owners
try_verify_words
try_any_release
