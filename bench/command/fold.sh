# shellcheck shell=sh disable=SC2034,SC2154,SC2162,SC2164
# Old sheets folded into one: what it sets, what was set over, that a release with it is the releases one by one; what is refused.

rule_folded='a folded sheet must have at most 256 entries, once those that touch are joined, and 65535 bytes, and room in the output'

# piece NAME LINE..: the sheet of these entries for the vendor's image, as $i/NAME
piece() {
	name=$1
	shift
	binds "$@"
	run sheet make "$vendor" "$i/text" "$i/$name" >/dev/null || fail "no sheet $name"
}

# folded ENTRIES LENGTH BYTES LINE..: what a fold of the vendor's sheets shows
folded() {
	entries=$1
	length=$2
	set_bytes=$3
	shift 3
	prints "$treat" 'revision 0x01020304' 'extended 0x0000' 'version 1.2.3.4' "entries $entries" "length $length" "bytes $set_bytes" "$@"
}

# three sheets that overlap, touch and undo
try_fold_three() {
	piece a '40 01 02 03'
	piece b '41 09 09 09'
	piece c '41 02 03' '44 05'
	works 0 sheet fold "$i/a" "$i/b" "$i/c" "$o/one"
	folded 1 29 5 "sheet 1 entries 1 $i/a" "sheet 2 entries 1 $i/b" "sheet 3 entries 2 $i/c" 'overwritten 4' \
		'0x0029: sheet 1 02 03 -> sheet 2 09 09' '0x0029: sheet 2 09 09 -> sheet 3 02 03'
	works 0 sheet show "$o/one"
	prints "$treat" 'revision 0x01020304' 'extended 0x0000 # version 1.2.3.4' '0x0028 01 02 03 09 05' '# entries 1'
	works 0 sheet fold "$o/one" "$o/again"
	folded 1 29 5 "sheet 1 entries 1 $o/one" 'overwritten 0'
	same "$o/again" "$o/one"
	works 0 sheet fold "$i/c" "$i/b" "$i/a" "$o/other"
	works 0 sheet show "$o/other"
	grep -q '^0x0028 01 02 03 09 05$' "$work/out" || fail "another order, another sheet than wanted"
	works 0 sheet fold "$i/b" "$i/a" "$o/other"
	works 0 sheet show "$o/other"
	grep -q '^0x0028 01 02 03 09$' "$work/out" || fail "the later sheet didn't win"
	works 0 sheet fold "$work/nothing" "$o/other"
	folded 0 16 0 "sheet 1 entries 0 $work/nothing" 'overwritten 0'
	same "$o/other" "$work/nothing"
}

# a board's sheets released one by one, and their fold once; verify takes the fold for all of them
try_fold_released() {
	works 0 owners all "$vendor" "$work/fold.own"
	cp "$vendor" "$work/step"
	for n in 1 2 3 4 5 6 7 8 9; do
		piece "$n" "$((30 + 3 * n)) 0$n 1$n 2$n 3$n 4$n" "$((380 - n)) A$n"
		works 0 release --owners "$work/fold.own" --owner 1 "$work/step" "$i/$n" 0x00512000 "$work/next"
		mv "$work/next" "$work/step"
	done
	works 0 sheet fold "$i/1" "$i/2" "$i/3" "$i/4" "$i/5" "$i/6" "$i/7" "$i/8" "$i/9" "$o/year"
	grep -q '^entries 2$' "$work/out" || fail "not two entries"
	works 0 release --owners "$work/fold.own" --owner 1 "$vendor" "$o/year" 0x00512000 "$o/shipped"
	same "$o/shipped" "$work/step"
	works 0 verify "$vendor" "$o/year" "$o/shipped"
	works 0 verify "$vendor" "$i/1" "$i/2" "$i/3" "$i/4" "$i/5" "$i/6" "$i/7" "$i/8" "$i/9" "$o/shipped"
}

# what was set over, by name; names need the image that they are of
try_fold_names() {
	printf '%s\n' 'identity 54524541542D3031' 'revision 0x01020304' 'find 5452454154555F54' '0x28 2 SlotCount "Slots"' '0x32 4 Window' >"$i/names"
	poked "$vendor" "$i/A" 4096 TREATU
	piece a '40 01 02'
	piece b '41 09' '50 01 02 03 04'
	piece c '51 00 00'
	works 0 sheet fold --names "$i/names" --image "$i/A" "$i/a" "$i/b" "$i/c" "$o/named"
	grep -q '^0x0029: sheet 1 02 -> sheet 2 09, SlotCount' "$work/out" || fail "no name beside what was set over"
	grep -q '^0x0033: sheet 2 02 03 -> sheet 3 00 00, Window' "$work/out" || fail "no name beside the second"
	for words in "--names $i/names" "--image $i/A"; do
		# shellcheck disable=SC2086
		keeps "$o" fails_with 'pajurenda: sheet fold: --names goes with --image: names are held against its settings (see pajurenda sheet fold --help)' \
			sheet fold $words "$i/a" "$o/none"
	done
	keeps "$o" refuses 1 "$work/empty" 'an image has 72 to 16777216 bytes: the file has 0 bytes' sheet fold --names "$i/names" --image "$work/empty" "$i/a" "$o/none"
}

# which sheet it is, in words; nothing is written
try_fold_refused() {
	piece a '40 01 02'
	binds '40 01 02'
	try 2 sheet show "$i/text"
	cp "$work/err" "$work/told"
	keeps "$o" try 2 sheet fold "$i/a" "$i/text" "$o/none"
	prints 'refused 15'
	same "$work/err" "$work/told"
	poked "$i/a" "$i/later" 8 '\005'
	bound_a='54524541542D3031 "TREAT-01" revision 0x01020304 extended 0x0000'
	keeps "$o" refuses 16 "$i/later" "the sheets that are folded must all be for one identity, revision and extended number; the sheet is for \
54524541542D3031 \"TREAT-01\" revision 0x01020305 extended 0x0000, $i/a is for $bound_a" sheet fold "$i/a" "$i/a" "$i/later" "$i/text" "$o/none"
	keeps "$o" try 2 sheet fold "$i/a" "$i/text" "$i/later" "$o/none"
	prints 'refused 15'
	python3 - "$i/a" "$i/many" "$i/more" <<-'END'
	import sys
	head = open(sys.argv[1], "rb").read()[:12]
	def sheet(name, offsets):
	    m, out, bodies = len(offsets), b"", bytes(len(offsets))
	    for n, at in enumerate(offsets):
	        out += at.to_bytes(4, "little") + (1).to_bytes(2, "little") + (16 + 8 * m + n).to_bytes(2, "little")
	    open(name, "wb").write(head + m.to_bytes(2, "little") + bytes(2) + out + bodies)
	sheet(sys.argv[2], [2 * n for n in range(256)])
	sheet(sys.argv[3], [9001])
	END
	works 0 sheet fold "$i/many" "$i/many" "$o/most"
	grep -q '^entries 256$' "$work/out" || fail "not 256 entries"
	keeps "$o" refuses 29 "$i/more" "$rule_folded: it is sheet 3 of 3, and those before it fold into one sheet of 256 entries and 2320 bytes" \
		sheet fold "$i/many" "$i/many" "$i/more" "$o/none"
}

try_fold_files() {
	piece a '40 01 02'
	keeps "$o" fails_with 'pajurenda: sheet fold: SHEET.. and OUT are missing (see pajurenda sheet fold --help)' sheet fold
	keeps "$o" fails_with 'pajurenda: sheet fold: OUT is missing (see pajurenda sheet fold --help)' sheet fold "$i/a"
	cp "$i/a" "$o/a"
	keeps "$o" fails_with 'pajurenda: sheet fold: OUT is SHEET itself, which would be lost (see pajurenda sheet fold --help)' \
		sheet fold "$work/nothing" "$o/a" "$o/a"
	keeps "$o" errs 'No such file' sheet fold "$i/a" "$o/missing" "$o/none"
	keeps "$o" errs 'No such file' sheet fold "$i/a" "$o/missing/none"
}

# a document: the sheet, the sheets it is of, and what was set over, with its names
try_fold_json() {
	piece a '40 01 02 03'
	piece b '41 09 09 09'
	works 0 sheet fold --json "$i/a" "$i/b" "$o/one"
	sed -i '1,/"refusal"/d; /"identity/d' "$work/out"
	prints '  "revision": "0x01020304",' '  "extended": "0x0000",' '  "version": "1.2.3.4",' '  "length": 28,' '  "names": null,' '  "entries": [' \
		'    {"offset": 40, "length": 4, "bytes": "01090909"}' '  ],' '  "bytes": 4,' '  "sheets": [' \
		"    {\"file\": \"$i/a\", \"entries\": 1}," "    {\"file\": \"$i/b\", \"entries\": 1}" '  ],' '  "overwritten": 2,' '  "over": [' \
		'    {"offset": 41, "length": 2, "replaces_sheet": 1, "replaces": "0203", "sheet": 2, "bytes": "0909", "names": null}' '  ]' '}'
	works 0 sheet fold --json "$work/nothing" "$o/one"
	grep -qxF '  "over": []' "$work/out" || fail "something set over by no entry"
	works 0 sheet fold --json --names "$i/names" --image "$i/A" "$i/a" "$i/b" "$o/one"
	grep -qF '"names": [{"name": "SlotCount", "title": "Slots", ' "$work/out" || fail "no names beside what was set over"
	try 2 sheet fold --json "$i/a" "$i/text" "$o/none"
	grep -qxF '  "number": 15,' "$work/out" || fail "no document of a refusal"
	passed
}

# what stands there stays, unless it is asked for; no input is ever lost
try_fold_replace() {
	piece a '40 01 02 03'
	cp "$work/old" "$o/there"
	keeps "$o" barely errs 'is there already' sheet fold "$i/a" "$o/there"
	works 0 sheet fold --replace "$i/a" "$o/there"
	same "$o/there" "$i/a"
	cp "$i/names" "$o/names"
	keeps "$o" errs 'OUT is the file of names itself' sheet fold --replace --names "$o/names" --image "$i/A" "$i/a" "$o/names"
	rm "$o/there" "$o/names"
}

try_fold_three
try_fold_released
try_fold_names
try_fold_json
try_fold_replace
try_fold_refused
try_fold_files
