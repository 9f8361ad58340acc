# shellcheck shell=sh disable=SC2034,SC2154,SC2162,SC2164
# The extended number, the third part of an image's identity: H+76 from header revision 6 on, where the FSP header has 80 bytes or more.

# The sample's vendor image has room for 72 bytes of header. The same with room for 80: the patch table from 180 to 208, section and file
# eight bytes longer, the pad file after it as much shorter, both files' sums made right. round4 puts the table at 180 for 79 bytes of header too.
make_longer() {
	{
		head -c 172 "$vendor"
		printf '\000\000\000\000\000\000\000\000'
		tail -c +173 "$vendor" | head -c 52
		tail -c +233 "$vendor"
	} >"$work/longer"
	sum=$(od -An -tu1 -j88 -N1 "$vendor")
	poke "$work/longer" 88 "\\$(printf %o $((sum - 8)))"
	poke "$work/longer" 92 '\210'
	poke "$work/longer" 96 '\160'
	sum=$(od -An -tu1 -j216 -N1 "$vendor")
	poke "$work/longer" 224 "\\$(printf %o $(((sum + 8) % 256)))"
	poke "$work/longer" 228 '\030'
	[ "$(wc -c <"$work/longer")" -eq 8192 ] || fail "another length"
}

# longer FILE REVISION L LOW HIGH: an image of that header revision and length, with these two bytes at H+76; in decimal
longer() { changed "$work/longer" "$1" 111 "$2" 104 "$3" 176 "$4" 177 "$5"; }

# sheet_of FILE LOW HIGH: the sample's sheet with these two bytes at 14
sheet_of() { changed good "$1" 14 "$2" 15 "$3"; }

# reads FILE EXTENDED VERSION: the whole reading of such an image
reads() {
	works 0 read "$1"
	prints 'length 8192' 'component T' 'identity 54524541542D3031 "TREAT-01"' 'revision 0x01020304' "extended $2" "version $3" \
		'base 0xFFF80000' 'header 100' 'patches 4' 'end 208' 'region c 4096 z 400' 'volume 1 at 0 length 8192' 'modules 0' \
		'words 5 (base word 1, patch words 4, image bases 0, relocation words 0)'
}

# parts EXTENDED VERSION: the sample's three parts with that number
parts() { echo "54524541542D3031 \"TREAT-01\" revision 0x01020304 extended $1 version $2"; }

# below 6 the same two bytes have no say, in the header or, as in the sample itself, in the patch table
try_header_revisions() {
	for revision in 3 4 5; do
		for length in 77 78 79 80; do
			longer b "$revision" "$length" 170 187
			reads b 0x0000 1.2.3.4
		done
	done
	for revision in 6 7 8 127 128 255; do
		longer b "$revision" 80 170 187
		reads b 0xBBAA 1.2.47875.43524
	done
}

# each half alone, at its edges; the upper half of the build is the low byte
try_halves() {
	longer b 6 80 0 0
	reads b 0x0000 1.2.3.4
	longer b 6 80 1 0
	reads b 0x0001 1.2.3.260
	longer b 6 80 0 1
	reads b 0x0100 1.2.259.4
	longer b 6 80 255 0
	reads b 0x00FF 1.2.3.65284
	longer b 6 80 0 255
	reads b 0xFF00 1.2.65283.4
	longer b 7 80 255 255
	poke b 112 '\377\377\377\377'
	works 0 read b
	sed -n 4,6p "$work/out" >"$work/rest"
	lines 'revision 0xFFFFFFFF' 'extended 0xFFFF' 'version 255.255.65535.65535'
	same "$work/rest" "$work/wanted"
}

# 80 bytes of header from revision 6 on, in every call
try_short_headers() {
	for revision in 6 7 255; do
		longer b "$revision" 79 170 187
		refuses 5 b "$rule_header: mark \"FSPH\" at H 100, revision $revision, L 79, section size 112" read b
	done
	changed "$vendor" b 111 5
	works 0 read b
	same "$work/out" "$work/wanted_reading"
	changed "$vendor" b 111 6
	cp "$work/old" "$o/out"
	short='mark "FSPH" at H 100, revision 6, L 72, section size 104'
	values 5 b "$short" read b
	values 5 b "$short" setting b 40 2
	values 5 b "$short" audit b s
	keeps "$o" values 5 b "$short" release "$all" --owner=1 b "$work/nothing" 0x0 "$o/out"
	keeps "$o" values 5 b "$short" release "$all" --owner=1 b good keep "$o/out"
}

# applies IMAGE SHEET: the two settings of the sample's sheet and no other byte
applies() {
	poked "$1" "$work/expected" 4136 '\001\000'
	works 0 release "$all" --owner=1 "$1" "$2" keep "$o/applied"
	prints 'base 0xFFF80000' 'move 0' 'entries 1' 'set 0x0028 at 4136: 01 05 -> 01 00, 0x0501 -> 0x0001'
	same "$o/applied" "$work/expected"
}

# not_for SHEET PARTS IMAGE PARTS: 16 with both sides in full, nothing written
not_for() {
	keeps "$o" refuses 16 "$1" "$rule_identity: the sheet is for $2, $3 is $4" release "$all" --owner=1 "$3" "$1" keep "$o/out"
}

# the sheet of an image is for no image that differs in a byte of the number
try_sheet_numbers() {
	longer n 6 80 170 187
	sheet_of b 170 187
	applies n b
	sheet_of b 171 187
	not_for b "$(parts 0xBBAB 1.2.47875.43780)" n "$(parts 0xBBAA 1.2.47875.43524)"
	sheet_of b 170 186
	not_for b "$(parts 0xBAAA 1.2.47619.43524)" n "$(parts 0xBBAA 1.2.47875.43524)"
	sheet_of b 187 170
	not_for b "$(parts 0xAABB 1.2.43523.47876)" n "$(parts 0xBBAA 1.2.47875.43524)"
	sheet_of b 170 187
	longer n 255 80 170 59
	not_for b "$(parts 0xBBAA 1.2.47875.43524)" n "$(parts 0x3BAA 1.2.15107.43524)"
	longer n 7 80 42 187
	not_for b "$(parts 0xBBAA 1.2.47875.43524)" n "$(parts 0xBB2A 1.2.47875.10756)"
}

# a sheet from before the number has 0 there: for images below revision 6 as ever, and for later ones whose number is 0
try_older_sheets() {
	longer n 5 80 170 187
	applies n good
	longer n 6 80 0 0
	applies n good
	longer n 255 80 0 0
	applies n good
	longer n 6 80 1 0
	not_for good "$(parts 0x0000 1.2.3.4)" n "$(parts 0x0001 1.2.3.260)"
	longer n 6 80 0 128
	not_for good "$(parts 0x0000 1.2.3.4)" n "$(parts 0x8000 1.2.32771.4)"
	longer n 5 80 170 187
	sheet_of b 170 187
	not_for b "$(parts 0xBBAA 1.2.47875.43524)" n "$(parts 0x0000 1.2.3.4)"
	sheet_of b 1 2
	not_for b "$(parts 0x0201 1.2.515.260)" v "$(parts 0x0000 1.2.3.4)"
}

# 15 comes before 16 and doesn't look at the number; 16 before 17; the other parts are told as before
try_around_numbers() {
	longer n 6 80 170 187
	sheet_of b 1 2
	head -c 25 b >b2
	keeps "$o" values 15 b2 'the file has 25 bytes, m 1, the last body ends at 26' release "$all" --owner=1 n b2 keep "$o/out"
	changed b b2 16 31
	not_for b2 "$(parts 0x0201 1.2.515.260)" n "$(parts 0xBBAA 1.2.47875.43524)"
	changed good b 14 170 15 187 16 31
	keeps "$o" values 17 b "entry 0 (counted from 0) has offset 0x001F length 2, the region's size z is 0x0190" release "$all" --owner=1 n b keep "$o/out"
	changed good b 14 170 15 187 8 5
	not_for b '54524541542D3031 "TREAT-01" revision 0x01020305 extended 0xBBAA version 1.2.47875.43525' \
		n "$(parts 0xBBAA 1.2.47875.43524)"
	changed good b 14 170 15 187 7 1
	not_for b '54524541542D3001 revision 0x01020304 extended 0xBBAA version 1.2.47875.43524' n "$(parts 0xBBAA 1.2.47875.43524)"
	rm b2
}

# a move and an audit keep the number; a shipped file of another number isn't explained
try_number_stays() {
	longer n 6 80 170 187
	works 0 sheet empty n t
	works 0 release "$all" --owner=1 n t 0x00100000 t2
	mv t2 t
	works 0 read t
	grep -qx 'extended 0xBBAA' "$work/out" || fail "another extended number after a move"
	works 0 audit n t
	poke t 177 '\000'
	works 1 audit --ranges n t
	prints 'base 0x00100000' "settings 0 $of_maker" 'strays 1' 'bits 0' 'X 177..177 length 1 tables: extended number' 'verdict unexplained'
	rm n t
}

make_longer
cd "$i"
for one in header_revisions halves short_headers sheet_numbers older_sheets around_numbers number_stays; do "try_$one"; done
cd "$root"
