# shellcheck shell=sh disable=SC2034,SC2154,SC2162,SC2164
# Images with modules: what read, --modules and --words say, that they move, where audit --ranges puts a difference, and 25, 26 and 27. The
# images are made by make_modules.c, which knows where it put everything and prints the lines that the command must have.
#
# The image `three`: the header file at 72, a pad file, a file with a TE module at 296 (its section at 292) and a PE32 module at 516, the region at 936
# with 96 bytes, a raw file, a file at 1096 with a PE32+ module at 1124, the free end from 1528 to 1552. Its patch entries stand at 184, 188, 192.

driver_file=33CB97A0-F0AF-FE68-751E-4F808F80E8A7
driver="\"Core\" $driver_file"
peim=E032BC88-5958-2470-4DD0-682A4FF7C3C2

make_modules() {
	compiles "${CC:-cc}" || return 1
	what='the maker of modules'
	"${CC:-cc}" -std=c11 -Wall -Wextra -Wconversion -Werror -O1 "$here/make_modules.c" "$here/../cases/build.c" "$here/../cases/module_volume.c" \
		"$here"/../make/*.c "$here/../second/second.c" "$here/../second/modules.c" "$here/../second/sheet.c" "$here/../second/owners.c" \
		-o "$work/make_modules" || fail "it does not compile"
	for name in three inside; do "$work/make_modules" "$name" "$i/$name" >"$work/$name.lines" || fail "it ended with $?"; done
	"$work/make_modules" many "$i/many" || fail "it ended with $?"
}

# listed FILTER WORDS..: after the eleven lines of the header, `read WORDS` has those of the maker's lines that the filter takes
listed() {
	filter=$1
	shift
	works 0 read "$@" "$i/$name"
	sed '1,11d; /^volume /d; /^bytes at /d' "$work/out" >"$work/rest"
	# shellcheck disable=SC2086
	grep -e '^modules ' -e '^words ' $filter "$work/$name.lines" >"$work/wanted"
	same "$work/rest" "$work/wanted"
}

try_module_lists() {
	for name in three inside; do
		listed ''
		listed '-e ^module.[0-9]*.file' --modules
		listed '-e .at.[0-9]*.width.' --words
		listed '-e .' --modules --words
		listed '-e .' --words --modules
	done
	[ "$(grep -c ^ "$work/three.lines")" -eq 20 ] || fail "other lines of the maker"
	for words in --modules --words; do
		works 0 read "$words" "$vendor"
		[ "$(sed -n 13p "$work/out")" = 'modules 0' ] || fail "modules where there is none"
		[ "$(sed -n 14p "$work/out")" = 'words 5 (base word 1, patch words 4, image bases 0, relocation words 0)' ] || fail "other words"
	done
	[ "$(sed 1,14d "$work/out" | wc -l)" -eq 5 ] || fail "other words of the sample"
	passed
}

# a module cut out by the place and the length that are shown starts with its mark
try_module_cut() {
	for name in three inside; do
		run read --modules "$i/$name" | sed -n 's/^module .* kind \([^ ]*\) place \([0-9]*\) length \([0-9]*\) .*/\1 \2 \3/p' >"$work/places"
		[ -s "$work/places" ] || fail "no module"
		while read -r kind place length; do
			tail -c "+$((place + 1))" "$i/$name" | head -c "$length" >"$work/cut"
			mark=MZ
			[ "$kind" != TE ] || mark=VZ
			[ "$(head -c 2 "$work/cut")" = "$mark" ] || fail "no $mark at $place"
			[ "$(wc -c <"$work/cut")" -eq "$length" ] || fail "not $length bytes"
			passed
		done <"$work/places"
	done
}

# 64 modules and 30,000 relocation words: every line is there, in time, and where nobody reads them it ends
try_module_many() {
	works 0 read --modules --words "$i/many"
	[ "$(grep -c '^module [0-9]* file ' "$work/out")" -eq 64 ] || fail "not 64 modules"
	[ "$(grep -c '^module [0-9]* relocation word [0-9]* at ' "$work/out")" -eq 30000 ] || fail "not 30000 relocation words"
	grep -qx 'words 30081 (base word 1, patch words 16, image bases 64, relocation words 30000)' "$work/out" || fail "other counts"
	[ "$(wc -l <"$work/out")" -eq $((14 + 64 + 30081)) ] || fail "other lines"
	passed
	unheard read --words "$i/many"
	enough read --words "$i/many"
	unheard read --json --words "$i/many"
}

# an image that takes minutes: each command ends in its time, in words, and nothing is written; those before it in a list are told
try_module_endless() {
	"$work/make_modules" endless "$i/endless" || fail "it ended with $?"
	cd "$i"
	late='no answer after 1 second of the processor'"'s"' time: an ordinary image takes less than one, so this is no ordinary image; nothing was written (--seconds N allows more, 0 any)'
	keeps "$o" fails_with "pajurenda: read: $late" read --seconds 1 endless
	keeps "$o" fails_with "pajurenda: sheet empty: $late" --seconds=1 sheet empty endless "$o/none"
	keeps "$o" fails_with "pajurenda: release: $late" release "$all" --owner 1 endless "$work/nothing" keep "$o/none" --seconds 1
	keeps "$o" fails_with "pajurenda: audit: $late" audit --report "$o/none" --seconds 1 endless endless
	echo "$vendor $shipped
endless endless
$vendor $shipped" >list
	try 2 audit --seconds 1 --list list
	[ "$(sed 's/ base .*//' "$work/out")" = 'line 1 unexplained' ] || fail "the first line isn't there, or another is"
	says "pajurenda: audit: line 2 of the list: $late"
	rm endless list
	works 0 read --seconds 0 "$vendor"
	works 0 read --seconds 18446744073709551615 "$vendor"
	fails_with 'pajurenda: read: --seconds "x" is not a number: write hex as 0x00512000, decimal without a leading 0' read --seconds x "$vendor"
	fails_with 'pajurenda: read: --seconds has no N after it (see pajurenda read --help)' read "$vendor" --seconds
	fails_with 'pajurenda: read: --seconds is given twice (see pajurenda read --help)' read --seconds 1 --seconds 2 "$vendor"
	cd "$root"
}

# moved there and back every word of 4 and of 8 bytes has changed by the move, and no other byte
try_module_move() {
	cd "$i"
	works 0 sheet empty three three.sheet
	works 0 owners all three three.own
	works 0 release --owners three.own --owner 1 three three.sheet 0x00100000 three.moved
	works 0 audit three three.moved
	prints 'base 0x00100000' "settings 0 $of_maker" 'strays 0' 'bits 0' 'verdict explained' "$unchecked"
	works 0 read --words three.moved
	sed -n 's/^module \([0-9]*\) image base.* is //p; s/^module 0 relocation word 1 .* is //p; s/^patch word 2 .* is //p' "$work/out" >"$work/shown"
	lines 0xEEE1A47F 0x0000000000100100 0xFFFFFFFF0017FFEF 0x00110000 0x0000000100100000
	same "$work/shown" "$work/wanted"
	works 0 release --owners three.own --owner 1 three.moved three.sheet 0xFFF80000 three.back
	same three.back three
	cd "$root"
}

# in and beside image bases, relocation words and patch words; two modules of one file; a word's bytes are one range
try_module_ranges() {
	cp "$i/three.moved" "$i/t"
	for part in '290 320' '430 446' '630 636' '866 873' '1084 1090' '1458 1470' '1526 1530'; do
		# shellcheck disable=SC2086
		flip "$i/t" $part
	done
	ranges_are "$i/three" "$i/t" 1 'X 290..291 length 2 elsewhere' "X 292..311 length 20 module 0 $driver" \
		"X 312..319 length 8 image base in module 0 $driver" "X 320..320 length 1 module 0 $driver" "X 430..431 length 2 module 0 $driver" \
		"X 432..435 length 4 relocation word 0 in module 0 $driver" "X 436..443 length 8 relocation word 1 in module 0 $driver" \
		"X 444..446 length 3 relocation word 2 in module 0 $driver" "X 630..631 length 2 module 1 $driver" \
		"X 632..635 length 4 image base in module 1 $driver" "X 636..636 length 1 module 1 $driver" "X 866..867 length 2 module 1 $driver" \
		"X 868..871 length 4 patch word 2 in module 1 $driver" "X 872..873 length 2 module 1 $driver" 'X 1084..1085 length 2 elsewhere' \
		'X 1086..1089 length 4 patch word 1' 'X 1090..1090 length 1 elsewhere' "X 1458..1459 length 2 module 2 $peim" \
		"X 1460..1467 length 8 relocation word 0 in module 2 $peim" "X 1468..1470 length 3 module 2 $peim" \
		"X 1526..1527 length 2 module 2 $peim" 'X 1528..1530 length 3 elsewhere'
	cp "$i/three.moved" "$i/t"
	flip "$i/t" 838 856
	ranges_are "$i/three" "$i/t" 1 "X 838..839 length 2 module 1 $driver" "X 840..843 length 4 relocation word 1 in module 1 $driver" \
		"X 844..847 length 4 relocation word 2 in module 1 $driver" "X 848..851 length 4 module 1 $driver" \
		"X 852..855 length 4 relocation word 0 in module 1 $driver" "X 856..856 length 1 module 1 $driver"
}

# the region and a patch word in a module's data: a setting there is a setting, and the module is named too
try_module_around_region() {
	file=$(sed -n 's/^module 0 file \([^ ]*\) .*/\1/p' "$work/inside.lines")
	cp "$i/inside" "$i/t"
	flip "$i/t" 411 413
	ranges_are "$i/inside" "$i/t" 1 "X 411..411 length 1 region header in module 0 $file" "S 412..413 length 2 region offset 0x0020 in module 0 $file"
	cp "$i/inside" "$i/t"
	flip "$i/t" 443 444
	flip "$i/t" 348 348
	ranges_are "$i/inside" "$i/t" 1 "X 348..348 length 1 patch word 0 in module 0 $file" "S 443..443 length 1 region offset 0x003F in module 0 $file" \
		"X 444..444 length 1 module 0 $file"
}

# verify, --text, the page and --json name the same
try_module_reports() {
	cd "$i"
	cp three.moved t
	flip t 436 437
	flip t 1128 1128
	works 1 verify three three.sheet t
	[ "$(grep '^X ' "$work/out" | sed 's/ should .*//')" = "X 436..437 length 2 relocation word 1 in module 0 $driver
X 1128..1128 length 1 module 2 $peim" ] || fail "other ranges"
	works 1 audit --text t.text --report t.page three t
	grep -q "^X 436..437 length 2 relocation word 1 in module 0 $driver maker's EF FF is F0 00\$" t.text || fail "another text"
	for word in "relocation word 1 in module 0 &#34;Core&#34; $driver_file</td>" "<td class=\"where\">module 2 $peim</td>" '<dt>Modules</dt><dd>3</dd>' \
		'<dt>Words that a move changes</dt><dd>15</dd>' '<p class="count-right">14 of 15 words are what' \
		'<td class="number">436</td><td class="bytes">' 'aria-label="Modules"'; do
		grep -qF -e "$word" t.page || fail "the page has no $word"
		passed
	done
	works 1 audit --json three t
	grep -qF "\"place\": \"relocation word\", \"offset\": null, \"index\": 1, \"field\": null, \"module\": 0, \"module_name\": \"Core\", \"file\": \"$driver_file\"" "$work/out" || fail "another range in the document"
	grep -qF "\"place\": \"module\", \"offset\": null, \"index\": null, \"field\": null, \"module\": 2, \"module_name\": null, \"file\": \"$peim\"" "$work/out" || fail "another module in the document"
	cd "$root"
}

# the document of read has what the lines have
try_module_json() {
	[ -n "$python" ] || return 0
	cat >"$work/modules.py" <<'PYTHON'
import json, sys
d = json.load(sys.stdin)
n, inner = d["patches"], d["module_words"]
bases = [word for word in inner if word["kind"] == "image base"]
print("modules %d\nwords %d (base word 1, patch words %d, image bases %d, relocation words %d)" % (d["modules"], d["words"], n, len(bases), d["relocation_words"]))
assert len(bases) == d["modules"] == len(d["module_list"]) and d["words"] == 1 + n + len(inner) and len(inner) - len(bases) == d["relocation_words"]
for k, m in enumerate(d["module_list"]):
    assert list(m) == ["index", "name", "file", "file_place", "section", "kind", "place", "length", "image_base", "relocation_words"] and m["index"] == k
    assert m["file_place"] + 24 <= m["section"] == m["place"] - 4
    print("module %d file %s%s section %d kind %s place %d length %d image base %s relocation words %d" % (m["index"], m["file"],
          ' name "%s"' % m["name"] if m["name"] else "", *(m[key] for key in ("section", "kind", "place", "length", "image_base", "relocation_words"))))
def line(start, word):
    assert len(word["value"]) == 2 + 2 * word["width"]
    print("%s at %d width %d is %s" % (start, word["place"], word["width"], word["value"]))
line("base word", d["base_word"])
for word in d["patch_words"]:
    line("patch word %d entry %s" % (word["index"], word["entry"]), word)
for word in inner:
    assert list(word) == ["module", "kind", "index", "place", "width", "value"] and (word["index"] is None) == (word["kind"] == "image base")
    line("module %d %s%s" % (word["module"], word["kind"], "" if word["index"] is None else " %d" % word["index"]), word)
PYTHON
	for name in three inside many; do
		works 0 read --words --modules "$i/$name"
		sed '1,11d; /^volume /d; /^bytes at /d' "$work/out" >"$work/wanted_lines"
		works 0 read --json --words --modules "$i/$name"
		"$python" -I -S "$work/modules.py" <"$work/out" >"$work/again" 2>"$work/err" || fail "another document"
		same "$work/again" "$work/wanted_lines"
	done
	works 0 read --json "$i/three"
	[ "$(tail -n 4 "$work/out" | tr -d '\n ')" = '"modules":3,"words":15,"relocation_words":8}' ] || fail "other counts at the end"
	passed
}

# three_with POSITION OCTAL..: the image `three` with bytes put into it, as b
three_with() { poked three b "$@"; }

module_0="module 0 (counted from 0), TE, file $driver_file, section 292, place 296, length 200"
module_1="module 1 (counted from 0), PE32, file $driver_file, section 512, place 516, length 392"
module_2="module 2 (counted from 0), PE32, file $peim, section 1120, place 1124, length 404"

# 25: the file, the section or the module; the values that decided
try_module_25() {
	three_with 1096 '\000'
	values 25 b "file 5 (counted from 0) at 1096: name E032BC00${peim#E032BC88}, attributes 0x00, sum 0x78, size 432, V 1552" read b
	three_with 1120 '\000\000\000'
	values 25 b "section at 1120 of file 5 (counted from 0) at 1096, name $peim: type 0x10, size 0, the file ends at 1528" read b
	three_with 1121 '\377'
	values 25 b "section at 1120 of file 5 (counted from 0) at 1096, name $peim: type 0x10, size 65432, the file ends at 1528" read b
	three_with 516 '\000'
	values 25 b "$module_1, mark 005A, e_lfanew 64, mark there 50450000, c 936, z 96" read b
	three_with 580 '\000' 1128 '\000'
	values 25 b "$module_1, mark \"MZ\", e_lfanew 64, mark there 00450000, c 936, z 96" read b
	three_with 576 '\377\377\377\377'
	values 25 b "$module_1, mark \"MZ\", e_lfanew 4294967295, mark there past the file's end, c 936, z 96" read b
	three_with 297 '\000'
	values 25 b "$module_0, mark 5600, c 936, z 96" read b
	three_with 136 '\004\002' 522 '_T'
	values 25 b "$module_1, mark \"MZ\", e_lfanew 64, mark there 50450000, c 516, z 96" read b
	three_with 136 '\230\005' 140 '\140' 1438 '_T'
	values 25 b "$module_2, mark \"MZ\", e_lfanew 64, mark there 50450000, c 1432, z 96" read b
	three_with 136 '\270\005' 1470 '_T'
	values 25 b 'no module is at fault, files 6 up to 1528, V 1552, c 1464, z 96' read b
}

# every call says the same of the same image, and writes nothing; with --json the document has the number
try_module_calls() {
	three_with 516 '\000'
	text="$module_1, mark 005A, e_lfanew 64, mark there 50450000, c 936, z 96"
	keeps "$i" values 25 b "$text" release --owners three.own --owner 1 b three.sheet 0x00100000 none
	keeps "$i" values 25 b "$text" audit b three
	keeps "$i" values 25 b "$text" verify b three.sheet three
	keeps "$i" values 25 b "$text" setting b 40 2
	keeps "$i" values 25 b "$text" sheet empty b none
	for number in 25 26 27; do
		case $number in
		26) three_with 492 '\030\062' ;;
		27) three_with 489 '\102' ;;
		esac
		try 2 read --json b
		grep -qx "  \"number\": $number," "$work/out" || fail "no number in the document"
		grep -qx '  "index": 0,' "$work/out" || fail "an index"
		tells "b: refused $number $(name_of "$number"): "
	done
}

# 26: two equal entries, a patch word in a module's header, in a word, in a file's header; 27: an entry's type
try_module_26_27() {
	three_with 492 '\030\062'
	values 26 b "$module_0, by its own words" read b
	three_with 192 '\004\002'
	values 26 b "$module_1, patch entry 2 (counted from 0) points to 516" read b
	three_with 192 '\266\005'
	values 26 b "$module_2, patch entry 2 (counted from 0) points to 1462" read b
	three_with 192 '\110\004'
	values 26 b 'no module is at fault, files 6 up to 1528, V 1552, patch entry 2 (counted from 0) points to 1096' read b
	three_with 192 '\377\005'
	values 26 b 'no module is at fault, files 6 up to 1528, V 1552, patch entry 2 (counted from 0) points to 1535, in the free end from 1528 to V 1552' read b
	three_with 489 '\102'
	values 27 b "$module_0" read b
}

if make_modules; then
	try_module_lists
	try_module_cut
	try_module_many
	try_module_endless
	try_module_move
	try_module_ranges
	try_module_around_region
	try_module_reports
	try_module_json
	cd "$i"
	try_module_25
	try_module_calls
	try_module_26_27
	cd "$root"
	rm -f "$i/many"
else
	not_run="$not_run; images with modules (no compiler)"
fi
