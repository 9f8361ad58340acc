# shellcheck shell=sh disable=SC2034,SC2154,SC2162,SC2164
# What the two owners of a list can set and can't: refusal 24 with the byte and whose it is, its place in the order, and releases of both in
# turn, of which neither sees the other's.

rule_owner='every byte that the sheet sets must be in a range of the owner who asks'

# sheet_of_text OCTAL: the sheet b
sheet_of_text() {
	text "$1\\n"
	cat "$work/bound" >>t
	works 0 sheet make v t b
}

# in_hex OFFSET: as it is shown
in_hex() { printf '0x%04X' "$1"; }

# foreign N LIST INDEX OFFSET LENGTH BYTE WHOSE: 24 of the sheet b, asked by N with that list as text
foreign() {
	list "$2"
	keeps "$o" refuses 24 b "$rule_owner: entry $3 (counted from 0) has offset $(in_hex "$4") length $5, owner $1 asks, offset $(in_hex "$6") is $7" \
		release --owners l --owner "$1" v b keep "$o/out"
}

# owns N LIST: the sheet b is set by N with that list, every byte of it and no other
owns() {
	list "$2"
	works 0 release --owners l --owner "$1" v b keep "$o/owned"
	works 0 release "$all" --owner=1 v b keep "$o/free"
	same "$o/owned" "$o/free"
	works 0 audit v "$o/owned"
}

# the sample's sheet, offsets 40 and 41: each byte must be the caller's, whatever else is
try_foreign_bytes() {
	cp good b
	owns 1 '40 2 1'
	owns 2 '40 2 2'
	owns 2 '32 8 1\n40 2 2\n42 358 1'
	owns 1 '40 1 1\n41 1 1'
	foreign 1 '32 8 1\n\n40 2 2' 0 40 2 40 "owner 2's by l, line 3: 0x0028 2 2"
	foreign 2 '40 2 1' 0 40 2 40 "owner 1's by l, line 1: 0x0028 2 1"
	foreign 1 '32 9 1\n41 359 2' 0 40 2 41 "owner 2's by l, line 2: 0x0029 359 2"
	foreign 1 '32 9 2\n41 359 1' 0 40 2 40 "owner 2's by l, line 1: 0x0020 9 2"
	foreign 1 '40 1 1' 0 40 2 41 "nobody's by l"
	foreign 1 '41 1 1' 0 40 2 40 "nobody's by l"
	foreign 2 '32 8 2\n42 8 2' 0 40 2 40 "nobody's by l"
	foreign 2 '' 0 40 2 40 "nobody's by l"
	foreign 2 '32 368 1' 0 40 2 40 "owner 1's by l, line 1: 0x0020 368 1"
	put_ranges l 32 8 1 40 1 1 41 10 2
	keeps "$o" values 24 b "entry 0 (counted from 0) has offset 0x0028 length 2, owner 1 asks, offset 0x0029 is owner 2's by l, range 2 (counted from 0): \
0x0029 10 2" release --owners l --owner 1 v b keep "$o/out"
	odd='new
line'
	put_ranges "$odd" 40 1 1
	keeps "$o" values 24 b "entry 0 (counted from 0) has offset 0x0028 length 2, owner 1 asks, offset 0x0029 is nobody's by new?line" \
		release --owners "$odd" --owner 1 v b keep "$o/out"
	keeps "$o" values 24 b "entry 0 (counted from 0) has offset 0x0028 length 2, owner 2 asks, offset 0x0028 is owner 1's by new?line, \
range 0 (counted from 0): 0x0028 1 1" release --owners "$odd" --owner 2 v b keep "$o/out"
	rm "$odd"
}

# the first byte at fault in whichever entry; over touching ranges of one owner, and not over a gap
try_foreign_entries() {
	sheet_of_text '32 00\n40 01 02 03 04 05\n60 0A 0B\n399 01'
	owns 1 '32 368 1'
	owns 2 '32 1 2\n40 1 2\n41 3 2\n44 30 2\n399 1 2'
	foreign 1 '33 367 1' 0 32 1 32 "nobody's by l"
	foreign 1 '32 8 1\n40 4 1\n45 355 1' 1 40 5 44 "nobody's by l"
	foreign 1 '32 8 1\n40 2 1\n42 1 2\n43 357 1' 1 40 5 42 "owner 2's by l, line 3: 0x002A 1 2"
	foreign 1 '32 28 1\n61 339 1' 2 60 2 60 "nobody's by l"
	foreign 1 '32 29 1\n61 339 2' 2 60 2 61 "owner 2's by l, line 2: 0x003D 339 2"
	foreign 1 '32 367 1\n399 1 2' 3 399 1 399 "owner 2's by l, line 2: 0x018F 1 2"
	foreign 2 '32 30 2\n62 338 1' 3 399 1 399 "owner 1's by l, line 2: 0x003E 338 1"
	foreign 1 '32 13 1\n45 355 2' 2 60 2 60 "owner 2's by l, line 2: 0x002D 355 2"
}

# each setting in turn the only one that isn't the caller's, in one entry over all of them and in 64 ranges
try_foreign_each() {
	sheet_of_text "32 $(digits 368)"
	for byte in 32 33 34 63 64 95 96 97 200 398 399; do
		before="32 $((byte - 32)) 1"
		[ "$byte" -gt 32 ] || before='#'
		after="$((byte + 1)) $((399 - byte)) 1"
		[ "$byte" -lt 399 ] || after='#'
		foreign 1 "$before\\n$byte 1 2\\n$after" 0 32 368 "$byte" "owner 2's by l, line 2: $(in_hex "$byte") 1 2"
		foreign 1 "$before\\n$after" 0 32 368 "$byte" "nobody's by l"
	done
	touching=$(awk 'BEGIN { for (k = 0; k < 63; k++) print 32 + 5 * k, 5, 1; print 347, 53, 1 }')
	owns 1 "$touching"
	foreign 1 "$(echo "$touching" | sed 's/^342 5 1$/342 5 2/')" 0 32 368 342 "owner 2's by l, line 63: 0x0156 5 2"
	foreign 1 "$(echo "$touching" | sed 's/^342 5 1$/342 4 1/')" 0 32 368 346 "nobody's by l"
}

# the largest: 256 entries, and one entry over nearly all of the widest region, where asking byte by byte would take long
try_foreign_large() {
	{ row 256 && cat "$work/bound"; } >t
	works 0 sheet make "$work/wide" t b
	list '32 510 1\n542 1 2'
	keeps "$o" values 24 b "entry 255 (counted from 0) has offset 0x021E length 1, owner 1 asks, offset 0x021E is owner 2's by l, line 2: 0x021E 1 2" \
		release --owners l --owner 1 "$work/wide" b keep "$o/out"
	{ printf '33 %s\n' "$(digits 65503)" && cat "$work/bound"; } >t
	works 0 sheet make "$work/wide" t b
	list '32 65503 1\n65535 1 2'
	keeps "$o" values 24 b "entry 0 (counted from 0) has offset 0x0021 length 65503, owner 1 asks, offset 0xFFFF is owner 2's by l, line 2: 0xFFFF 1 2" \
		release --owners l --owner 1 "$work/wide" b keep "$o/out"
	list '32 65504 1'
	works 0 release --owners l --owner 1 "$work/wide" b keep "$o/owned"
}

# wrong in two ways: the earlier of 15, 23, 16, 17, 24, 18 is told; the image's own before all; a list that can't be read isn't one
try_owned_order() {
	list '40 1 1\n31 1 1'
	bad="line 2: offset 0x001F (the one before ends at 0x0029) length 1 owner 1, ranges so far 2, $z_400"
	keeps "$o" values 14 r "$entry_of_r" release --owners l --owner 3 r "$work/empty" 0x1 "$o/out"
	head -c 25 good >b
	keeps "$o" values 15 b 'the file has 25 bytes, m 1, the last body ends at 26' release --owners l --owner 3 v b 0x1 "$o/out"
	poked good b 0 X 16 '\037'
	keeps "$o" values 23 l "$bad" release --owners l --owner 1 v b 0x1 "$o/out"
	keeps "$o" values 23 l "$bad" release --owners l --owner 1 v "$work/nothing" 0x1 "$o/out"
	list '40 1 1'
	keeps "$o" values 23 l 'the list is fine, --owner is 3' release --owners l --owner 3 v b 0x1 "$o/out"
	keeps "$o" values 16 b "the sheet is for 58524541542D3031 \"XREAT-01\" revision 0x01020304 extended 0x0000 version 1.2.3.4, \
v is $(parts 0x0000 1.2.3.4)" release --owners l --owner 1 v b 0x1 "$o/out"
	poked good b 16 '\037'
	keeps "$o" values 17 b "entry 0 (counted from 0) has offset 0x001F length 2, $z_400" release --owners l --owner 1 v b 0x1 "$o/out"
	keeps "$o" values 24 good "entry 0 (counted from 0) has offset 0x0028 length 2, owner 1 asks, offset 0x0029 is nobody's by l" \
		release --owners l --owner 1 v good 0x1 "$o/out"
	list '40 2 1'
	keeps "$o" refuses 18 v "the new base $rule_base: 0x00000001 for 8192 bytes" release --owners l --owner 1 v good 0x1 "$o/out"
	keeps "$i" values 24 good "entry 0 (counted from 0) has offset 0x0028 length 2, owner 2 asks, offset 0x0028 is owner 1's by l, line 1: 0x0028 2 1" \
		release --owners l --owner 2 v good 0x00100000 v
	list 'x'
	keeps "$o" errs 'pajurenda: l: line 1: offset "x" ' release --owners l --owner 3 r "$work/empty" 0x1 "$o/out"
}

# ---- both in turn ----

# releases from a seed by either owner, with sheets of any entry: NAME FILE ONLY: all of them, or those of one owner, on a copy of the image
run_turns() {
	cp v "$1"
	: >"$2"
	while read -r asks offset bytes; do
		[ -z "$3" ] || [ "$3" -eq "$asks" ] || continue
		{ printf '%s %s\n' "$offset" "$(echo "$bytes" | sed 's/../& /g')" && cat "$work/bound"; } >t
		run sheet make v t b >/dev/null || fail "no sheet"
		got=0
		run release --owners l --owner "$asks" "$1" b keep "$1" >"$work/out" 2>"$work/err" || got=$?
		{ echo "$asks $offset $bytes $got" && cat "$work/out" "$work/err"; } | sed "s|$1|IMAGE|g" >>"$2"
	done <"$work/turns"
}

# bytes_of FILE OFFSET LENGTH: of the region, in hex
bytes_of() { od -An -v -tx1 -j$((4096 + $2)) -N"$3" "$1"; }

try_both_owners() {
	list '32 50 1\n82 30 2\n130 20 2\n150 100 1\n260 140 2'
	awk -v seed="$seed" 'BEGIN { srand(seed); for (n = 0; n < 60; n++) { length_of = 1 + int(rand() * rand() * 60); bytes = ""
		for (k = 0; k < length_of; k++) bytes = bytes sprintf("%02X", int(rand() * 256))
		print 1 + int(rand() * 2), 32 + int(rand() * (368 - length_of)), bytes } }' >"$work/turns"
	run_turns "$o/both" "$work/told_both" ''
	what='releases of both owners in turn'
	for who in 1 2; do
		run_turns "$o/alone" "$work/told_alone" "$who"
		[ "$(grep -c ' 0$' "$work/told_alone")" -ge 3 ] || fail "too few are accepted"
		[ "$(grep -c '^refused 24$' "$work/told_alone")" -ge 3 ] || fail "too few are refused"
		awk -v who="$who" '/^[12] [0-9]* [0-9A-F]* [02]$/ { mine = $1 == who } mine' "$work/told_both" >"$work/told_mine"
		same "$work/told_mine" "$work/told_alone"
		case $who in
		1) parts_of='32:50 150:100' ;;
		2) parts_of='82:30 130:20 260:140' ;;
		esac
		for part_of in $parts_of; do
			[ "$(bytes_of "$o/both" "${part_of%:*}" "${part_of#*:}")" = "$(bytes_of "$o/alone" "${part_of%:*}" "${part_of#*:}")" ] ||
				fail "owner $who has other bytes with the other's releases than without"
			passed
		done
	done
	for part_of in 112:18 250:10; do
		[ "$(bytes_of "$o/both" "${part_of%:*}" "${part_of#*:}")" = "$(bytes_of v "${part_of%:*}" "${part_of#*:}")" ] || fail "nobody's bytes changed"
		passed
	done
	works 0 audit v "$o/both"
	[ "$(tail -n 2 "$work/out" | head -n 1)" = 'verdict explained' ] || fail "not explained"
}

# the audit takes any setting byte, owned or not
try_owned_audit() {
	poked v b 4138 '\377'
	works 0 audit v b
	[ "$(tail -n 2 "$work/out" | head -n 1)" = 'verdict explained' ] || fail "not explained"
}

cd "$i"
cp "$work/old" "$o/out"
for one in foreign_bytes foreign_entries foreign_each foreign_large owned_order both_owners owned_audit; do "try_$one"; done
cd "$root"
