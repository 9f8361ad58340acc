# shellcheck shell=sh disable=SC2034,SC2154,SC2162,SC2164
# Sheets: the empty one, those made of a text, and those shown as a text that makes the same sheet again.

# what a text without the lines that bind it is told after them
what_for='pajurenda: these lines keep a text of one revision from being used with another, where the same offsets are other settings '\
'(see pajurenda sheet make --help)'
treat='identity 54524541542D3031 "TREAT-01"'
# makes IMAGE TEXT OUT ENTRIES LENGTH: the sheet of the vendor's identity, with these counts told and a line for each entry
makes() {
	works 0 sheet make "$1" "$2" "$3"
	cp "$work/out" "$work/told"
	grep '^set 0x' "$work/told" >"$work/sets" || :
	grep -v '^set 0x' "$work/told" >"$work/out"
	prints "$treat" 'revision 0x01020304' 'extended 0x0000' 'version 1.2.3.4' "entries $4" "length $5"
	[ "$(wc -l <"$work/sets")" -eq "$4" ] || fail "not a line for each entry"
	[ "$(sed -n '1,6{/^set/p}' "$work/told" | wc -l)" -eq 0 ] || fail "entries before what the sheet is for"
}

# binds TEXT..: these lines as a text for the vendor's image, into the file text; of the lines that bind it those that it hasn't
binds() {
	: >"$i/text"
	# shellcheck disable=SC2059
	for line in "$@"; do printf -- "$line\\n" >>"$i/text"; done
	while read -r word rest; do grep -q "^$word " "$i/text" || echo "$word $rest"; done <"$work/bound" >"$i/unbound"
	cat "$i/unbound" >>"$i/text"
	rm "$i/unbound"
}

try_empty_sheet() {
	works 0 sheet empty "$vendor" "$o/sheet"
	prints "$treat" 'revision 0x01020304' 'extended 0x0000' 'version 1.2.3.4' 'entries 0' 'length 16'
	same "$o/sheet" "$work/nothing"
	works 0 sheet show "$o/sheet"
	prints "$treat" 'revision 0x01020304' 'extended 0x0000 # version 1.2.3.4' '# entries 0'
	for text in '' '# 40 01 00' 'extended 0'; do
		binds "$text"
		keeps "$o" fails_with "pajurenda: sheet make: $i/text: it has no entry, so its sheet would set nothing; sheet empty writes such a sheet (see \
pajurenda sheet make --help)" sheet make "$vendor" "$i/text" "$o/none"
	done
	keeps "$o" refuses 1 "$work/empty" 'an image has 72 to 16777216 bytes: the file has 0 bytes' sheet empty "$work/empty" "$o/sheet"
	rm "$o/sheet"
}

# the sample's sheet, by every way to write it; what `read` and `setting` print can be copied into it
try_made_sheet() {
	binds '40 01 00'
	makes "$vendor" "$i/text" "$o/sheet" 1 26
	same "$o/sheet" "$work/sheet"
	[ "$(cat "$work/sets")" = 'set 0x0028 at 4136: 01 05 -> 01 00, 0x0501 -> 0x0001' ] || fail "the entry is told otherwise"
	for text in '0x28 01 00' '  40	01	00  ' '40 01 00# set' '40 01 00 # set' '#\n\n \n\t\n40 01 00' '40 01 00\r' '40 01 00\r\n\r\n' '\357\273\27740 01 00' \
		"$treat\\n40 01 00" '# \303\266\n40 01 00' 'revision 16909060\nextended 0\n40 01 00' '40 01 00\nextended 0x0' \
		'identity 54524541542d3031\n40 01 00' 'identity 54524541542D3031 "TREAT-01"# "\n40 01 00' '40 = 01 00' '40=01 00' '40 = 0x1 : 2' '40 =0x0001:2' \
		'0x28 = 0x0001 : 0x2 # low byte first' '40 01 00 was 01 05' '40 01 00 was 0x0501' '40 01 00 was 0x501 : 2 # x' '40 = 0x0001 : 2 was 01 05' \
		'40 01 00\twas\t01\t05'; do
		binds "$text"
		makes "$vendor" "$i/text" "$o/sheet" 1 26
		same "$o/sheet" "$work/sheet"
	done
	bound "$vendor" >"$i/text"
	[ "$(wc -l <"$i/text")" -eq 3 ] || fail "read does not say which image it is"
	run setting "$vendor" 40 2 | sed -n 's/^bytes/40/p' >>"$i/text"
	makes "$vendor" "$i/text" "$o/sheet" 1 26
	works 0 sheet show "$o/sheet" "$vendor"
	prints "$treat" 'revision 0x01020304' 'extended 0x0000 # version 1.2.3.4' '0x0028 01 05 was 01 05 # at 4136, 0x0501, changes nothing' \
		'# entries 1, of which 0 would change the image'
	what='sheet make IMAGE /dev/stdin, a pipe'
	got=0
	{ printf '40 01 00\n' && cat "$work/bound"; } | run sheet make "$vendor" /dev/stdin "$o/sheet" >"$work/out" 2>"$work/err" || got=$?
	status_was 0
	same "$o/sheet" "$work/sheet"
}

# what an entry would replace is what a release then replaces
try_shown_sheet() {
	poked "$vendor" "$work/unset" 4135 '\377\377\377\377'
	binds '32 AA # first' '39 FF' '40 01 00' '399 B7'
	makes "$vendor" "$i/text" "$o/sheet" 4 53
	works 0 sheet show "$o/sheet" "$work/unset"
	prints "$treat" 'revision 0x01020304' 'extended 0x0000 # version 1.2.3.4' "0x0020 AA was $(byte_at "$work/unset" 4128) # at 4128, changes 1 of 1 bytes" \
		'0x0027 FF was FF # at 4135, changes nothing' '0x0028 01 00 was FF FF # at 4136, 0xFFFF -> 0x0001, changes 2 of 2 bytes' \
		'0x018F B7 was B6 # at 4495, changes 1 of 1 bytes' \
		'# entries 4, of which 3 would change the image'
	works 0 sheet show "$o/sheet"
	prints "$treat" 'revision 0x01020304' 'extended 0x0000 # version 1.2.3.4' '0x0020 AA' '0x0027 FF' '0x0028 01 00' '0x018F B7' '# entries 4'
	works 0 release "$all" --owner=1 "$work/unset" "$o/sheet" keep "$o/set"
	works 0 audit --bytes "$work/unset" "$o/set"
	prints 'base 0xFFF80000' "settings 4 $of_maker" 'strays 0' "$(sed -n 4p "$work/out")" "S 4128 $(byte_at "$work/unset" 4128) AA" 'S 4136 FF 01' \
		'S 4137 FF 00' 'S 4495 B6 B7' 'verdict explained' "$unchecked"
	works 0 sheet show "$o/sheet" "$o/set"
	[ "$(grep -c ', changes nothing$' "$work/out")" -eq 4 ] || fail "what is set is still to change"
	[ "$(tail -n 1 "$work/out")" = '# entries 4, of which 0 would change the image' ] || fail "another count"
	passed
}

# an image with an extended number: its sheets carry it, low byte first, and a line of the text must have it
try_extended_sheets() {
	cd "$i"
	longer n 6 80 170 187
	printf 'TREAT-01\004\003\002\001\000\000\252\273' >b
	works 0 sheet empty n "$o/sheet"
	prints "$treat" 'revision 0x01020304' 'extended 0xBBAA' 'version 1.2.47875.43524' 'entries 0' 'length 16'
	same "$o/sheet" b
	sheet_of b 170 187
	for line in 'extended 0xBBAA' 'extended 48042'; do
		{ printf '40 01 00\n%s\n' "$line" && cat "$work/bound"; } >t
		works 0 sheet make n t "$o/sheet"
		same "$o/sheet" b
	done
	{ printf '40 01 00\n' && cat "$work/bound"; } >t
	keeps "$o" fails_with 'pajurenda: t: it does not say which image it is for. If its offsets are those of n itself, write into it:
    extended 0xBBAA
'"$what_for" sheet make n t "$o/sheet"
	works 0 sheet show b n
	prints "$treat" 'revision 0x01020304' 'extended 0xBBAA # version 1.2.47875.43524' '0x0028 01 00 was 01 05 # at 4136, 0x0501 -> 0x0001, changes 1 of 2 bytes' \
		'# entries 1, of which 1 would change the image'
	again n b
	printf '40 01 00\nextended 0xAABB' >t
	keeps "$o" values 16 t 'line 2: extended 0xAABB, n has extended 0xBBAA' sheet make n t "$o/sheet"
	refuses 16 b "$rule_identity: the sheet is for $(parts 0xBBAA 1.2.47875.43524), v is $(parts 0x0000 1.2.3.4)" sheet show b v
	rm n b t
	cd "$root"
}

# byte_at FILE POSITION: in hex
byte_at() { od -An -tx1 -j"$2" -N1 "$1" | tr -d ' ' | tr a-f A-F; }

# a sheet for another image, or for none
try_refused_sheets() {
	cd "$i"
	cp "$work/sheet" good
	poked good b 11 '\002'
	keeps "$o" refuses 16 b "$rule_identity: the sheet is for 54524541542D3031 \"TREAT-01\" revision 0x02020304 extended 0x0000 \
version 2.2.3.4, v is $(parts 0x0000 1.2.3.4)" sheet show b v
	poked good b 16 '\037'
	refuses 17 b "a setting must have a byte or more, at offsets 32 to z-1 of the region: entry 0 (counted from 0) has offset 0x001F length 2, \
the region's size z is 0x0190" sheet show b v
	works 0 sheet show b
	prints "$treat" 'revision 0x01020304' 'extended 0x0000 # version 1.2.3.4' '0x001F 01 00' '# entries 1'
	{ cat good && printf X; } >b
	values 15 b 'the file has 27 bytes, m 1, the last body ends at 26' sheet show b
	keeps "$o" values 15 b 'the file has 27 bytes, m 1, the last body ends at 26' release "$all" --owner=1 v b keep "$o/out"
	head -c 25 good >b
	values 15 b 'the file has 25 bytes, m 1, the last body ends at 26' sheet show b
	values 15 b 'the file has 25 bytes, m 1, the last body ends at 26' sheet show b v
	values 15 "$work/empty" 'the file has 0 bytes' sheet show "$work/empty"
	printf '40\t0100\r\n' >b
	values 15 b 'the file has 9 bytes, and it is text: sheet make makes a sheet of it' sheet show b
	printf '# a text\n40 0100\n' >b
	keeps "$o" values 15 b 'the file has 17 bytes, m 12592, entry 0 (counted from 0) is cut short, and it is text: sheet make makes a sheet of it' \
		release "$all" --owner=1 v b keep "$o/out"
	values 14 r "$entry_of_r" sheet show good r
	values 14 r "$entry_of_r" sheet show b r
	keeps "$o" values 14 r "$entry_of_r" sheet empty r "$o/out"
	keeps "$o" values 14 r "$entry_of_r" sheet make r good "$o/out"
	cd "$root"
}

# ---- random sheets ----

# for regions of 400 bytes: up to 12 entries from 32 on, some touching; each byte of the sheet in octal
draw_sheet='function octal(n) { printf "\\%o", n }
function number(n, width) { for (; width > 0; width--) { octal(n % 256); n = int(n / 256) } }
BEGIN { srand(seed); printf "TREAT-01\\4\\3\\2\\1"
	m = 0
	for (at = 32 + int(rand() * 3); m < 12 && at < 400 && (rand() < 0.93 || m == 0); at += length_of[m++] + (rand() < 0.3 ? 0 : int(rand() * 60))) {
		offset[m] = at; length_of[m] = 1 + int(rand() * rand() * 40)
		if (at + length_of[m] > 400) length_of[m] = 400 - at }
	number(m, 2); number(0, 2); body = 16 + 8 * m
	for (k = 0; k < m; k++) { number(offset[k], 4); number(length_of[k], 2); number(body, 2); body += length_of[k] }
	for (k = 16 + 8 * m; k < body; k++) octal(int(rand() * 256)) }'

# again IMAGE SHEET: shown and made it is the same, whether or not an image stood beside it
again() {
	for beside in '' "$1"; do
		works 0 sheet show "$2" ${beside:+"$beside"}
		cp "$work/out" "$work/text"
		works 0 sheet make "$1" "$work/text" "$o/again"
		same "$o/again" "$2"
	done
}

try_random_sheets() {
	most=0
	for turn in 0 1 2 3 4 5 6 7 8 9 10 11 12 13 14 15 16 17 18 19 20 21 22 23 24; do
		# shellcheck disable=SC2059
		printf "$(awk -v seed="$((seed * 100 + turn))" "$draw_sheet")" >"$i/drawn"
		again "$vendor" "$i/drawn"
		count=$(od -An -tu1 -j12 -N1 "$i/drawn")
		[ "$count" -le "$most" ] || most=$count
	done
	[ "$most" -ge 6 ] || fail "no drawn sheet has many entries"
}

# an identity whose text has blanks, quotes and what starts a comment; one that is no text; the region's last byte and first
try_odd_identities() {
	for identity in '#" "#"#"' '        ' '""' '\000\001\377\012\015\011\043\040' '#identit'; do
		poked "$vendor" "$i/odd" 116 "$identity"
		{ printf '32 01\n399 02\n' && bound "$i/odd"; } >"$i/text"
		works 0 sheet make "$i/odd" "$i/text" "$o/sheet"
		[ "$(od -An -v -tx1 -N8 "$o/sheet")" = "$(od -An -v -tx1 -j116 -N8 "$i/odd")" ] || fail "another identity"
		again "$i/odd" "$o/sheet"
		grep -v '^#' "$work/text" | sed 's/ # at .*//' >"$i/text"
		works 0 sheet make "$i/odd" "$i/text" "$o/again"
		same "$o/again" "$o/sheet"
	done
}

# ---- large ones ----

# an image with the largest region: 65536 bytes at 8192
make_wide() {
	head -c 131072 /dev/zero >"$work/wide"
	dd if="$vendor" of="$work/wide" conv=notrunc 2>/dev/null
	poke "$work/wide" 124 '\000\000\002\000'
	poke "$work/wide" 136 '\000\040\000\000\000\000\001\000'
	poke "$work/wide" 8198 '_T'
}

# digits COUNT: so many bytes in hex, apart
digits() { head -c "$1" /dev/zero | tr '\000' '\132' | od -An -v -tx1 | tr -d '\n'; }

# row COUNT: so many entries of a byte each
row() { awk -v count="$1" 'BEGIN { for (k = 0; k < count; k++) print 32 + 2 * k, "A5" }'; }

# bind: the text at its end bound to the vendor's identity
bind() { { echo && cat "$work/bound"; } >>"$i/text"; }

try_large_sheets() {
	make_wide
	works 0 read "$work/wide"
	row 256 >"$i/text"
	bind
	makes "$work/wide" "$i/text" "$o/sheet" 256 2320
	again "$work/wide" "$o/sheet"
	row 257 >"$i/text"
	keeps "$o" refuses 15 "$i/text" "$rule_sheet: line 257: offset 0x0220 (the one before ends at 0x021F) length 1, entries so far 257, bytes 2329" \
		sheet make "$work/wide" "$i/text" "$o/sheet"
	{ row 100 && echo '300 00 # as far as here' && row 65000; } >"$i/text"
	keeps "$o" values 15 "$i/text" 'line 102: offset 0x0020 (the one before ends at 0x012D) length 1, entries so far 102, bytes 934' \
		sheet make "$work/wide" "$i/text" "$o/sheet"
	printf '32 5A\n33 %s' "$(digits 65502)" >"$i/text"
	bind
	makes "$work/wide" "$i/text" "$o/sheet" 2 65535
	again "$work/wide" "$o/sheet"
	keeps "$o" limited 'File too large' sheet make "$work/wide" "$i/text" "$o/sheet"
	printf '32 5A\n33 %s' "$(digits 65503)" >"$i/text"
	keeps "$o" values 15 "$i/text" 'line 2: offset 0x0021 (the one before ends at 0x0021) length 65503, entries so far 2, bytes 65536' \
		sheet make "$work/wide" "$i/text" "$o/sheet"
	printf '32 5A\n33 %s' "$(digits 65535)" >"$i/text"
	keeps "$o" values 15 "$i/text" 'line 2: offset 0x0021 (the one before ends at 0x0021) length 65535, entries so far 2, bytes 65568' \
		sheet make "$work/wide" "$i/text" "$o/sheet"
	printf '32 5A\n33 %s' "$(digits 65536)" >"$i/text"
	keeps "$o" fails_with "pajurenda: $i/text: line 2: more than 65535 bytes" sheet make "$work/wide" "$i/text" "$o/sheet"
	rm "$o/sheet" "$o/again"
}

# the README's path from the maker's image to an audited one, and the texts that help and man page show, as they stand there
try_shown_path() {
	mkdir "$work/path"
	cp "$vendor" "$work/path/vendor.bin"
	# shellcheck disable=SC2016
	sed -n 's/^`\([^`]*\)` in `settings.txt`.*/\1/p' "$root/README.md" >"$work/path_entry"
	[ "$(wc -l <"$work/path_entry")" -eq 1 ] || fail "no entry in the README"
	sed -n 's/^    pajurenda //p' "$root/README.md" | sed 's/ *#.*//' >"$work/path_lines"
	[ "$(wc -l <"$work/path_lines")" -eq 6 ] || fail "not six lines in the README"
	[ "$(wc -l <"$root/README.md")" -le 90 ] || fail "the README has more than 90 lines"
	[ "$(awk 'length > 120' "$root/README.md" | wc -l)" -eq 0 ] || fail "the README has a line of more than 120 columns"
	cd "$work/path"
	while read -r words; do
		# shellcheck disable=SC2086
		barely works 0 $words
		[ "${words#sheet start}" = "$words" ] || cat "$work/path_entry" >>settings.txt
	done <"$work/path_lines"
	steady
	prints 'verdict as released' "maker's image by shipped.bin.release.json" 'record steps 1 shipped.bin.release.json' 'base 0x00512000' \
		'base wanted 0x00512000 by the record' 'move -4289126400' 'sheet 1 entries 1 owner 1 settings.sheet' \
		'set 0x0028 at 4136: 01 05 -> 01 00, 0x0501 -> 0x0001' "settings 0 $of_release" 'strays 0' 'bits 0'
	[ -s shipped.html ] || fail "no page"
	works 0 audit --ranges vendor.bin shipped.bin
	prints "maker's image by shipped.bin.release.json" 'base 0x00512000' "settings 1 $of_maker" 'strays 0' 'bits 2' 'S 4137..4137 length 1 region offset 0x0029' 'verdict explained' "$unchecked"
	printf 'TREAT-01\004\003\002\001\002\000\000\000\050\000\000\000\002\000\040\000\140\000\000\000\004\000\042\000\001\000\377\356\000\000' >wanted
	sed -n 's/^    \([^ ]\)/\1/p' "$work/help.sheet" | grep -v '^BypassRelay = ' >text
	makes vendor.bin text sheet 2 38
	same sheet wanted
	sed -n '/^.SH SHEETS AS TEXT/,/^.fi/p' "$root/command/pajurenda.1" | grep -v -e '^[.]' -e '^BypassRelay = ' | sed 's/\\-/-/g' >text
	makes vendor.bin text sheet 2 38
	same sheet wanted
	cd "$root"
}

try_empty_sheet
try_made_sheet
try_shown_sheet
try_extended_sheets
try_refused_sheets
try_random_sheets
try_odd_identities
try_large_sheets
try_shown_path
