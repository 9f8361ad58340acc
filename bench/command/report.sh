# shellcheck shell=sh disable=SC2034,SC2154,SC2162,SC2164
# The page to file. Another reader, read-page.py, takes it apart: it ends where a tag or an attribute could run or fetch something, where the
# page isn't whole, or where a map's marks aren't those of the ranges.

# page_of PAGE [TEXT]: what the page says, in lines, in page
page_of() {
	what="$what, its page"
	[ -n "$python" ] || return 0
	"$python" -I -S "$here/read-page.py" "$@" >"$work/page" 2>"$work/err" || fail "no such page"
	passed
}

# page_says LINE..: the page has each of these lines
page_says() {
	[ -n "$python" ] || return 0
	for line in "$@"; do
		grep -qxF -e "$line" "$work/page" || fail "the page does not say: $line"
		passed
	done
}

# reported STATUS WORDS..: with --report and --text the lines are the same, and the page's ranges are those of the text
reported() {
	works "$@"
	cp "$work/out" "$work/wanted_lines"
	rm -f page whole
	wanted=$1
	shift
	works "$wanted" "$@" --report page --text whole
	same "$work/out" "$work/wanted_lines"
	page_of page whole
	[ -n "$python" ] || return 0
	sed -n 's/^ranges //p' "$work/page" | sed 's/^\(.\) [a-z]*|\([^|]*\)|\([^|]*\)|\([^|]*\)|\([^|]*\)|\([^|]*\).*/\1 \2 length \3 \4 should \5 is \6/' |
		grep -v ' more' | tr -d ' ' >"$work/rows"
	sed "/^W /d; s/, .*//; s/ maker's / should /" whole | awk '{ split($2, ends, "[.][.]"); if (ends[2] - ends[1] < 24) print }' | tr -d ' ' >"$work/wanted_rows"
	same "$work/rows" "$work/wanted_rows"
	page_says "file Given as the maker's image|$vendor|8192|$(digest_of "$vendor")" "file Whole list|whole|$(wc -c <whole)|$(digest_of whole)" \
		"by $version $(run --version | sed -n 's/^proved with //p')"
}

try_audit_page() {
	cd "$i"
	reported 1 audit "$vendor" "$shipped"
	page_says 'title Audit: unexplained' "h1 $shipped" 'verdict unexplained (bad)' \
		'because 1 byte differs outside the settings, and neither the move nor a setting accounts for it.' \
		"file Shipped file|$shipped|8192|$(digest_of "$shipped")" 'selves Reads by itself|yes|yes|the same' 'selves Component|T|T|the same' \
		'selves Identity|54524541542D3031 “TREAT-01”|54524541542D3031 “TREAT-01”|the same' 'selves Revision|0x01020304|0x01020304|the same' \
		'selves Extended number|0x0000|0x0000|the same' 'selves Version|1.2.3.4|1.2.3.4|the same' \
		'selves Base|0xFFF80000|0x00100000|moved by -4293394432, -0xFFE80000' 'fact FSP header at: 100' \
		'fact Patch entries: 4' 'fact Region at: 4096' "fact Region's bytes: 400" "signed Signed for: unexplained, of $shipped with SHA-256 $(digest_of "$shipped")" \
		"user $(id -un) ($(id -u)) host $(uname -n)" 'order header, verdict, Differences from the maker'"'"'s image moved, signed, behind' \
		'fact Setting bytes that differ: 1' 'fact Bits of them: 1' 'fact Stray bytes: 1' 'ranges S setting|4136..4136|1|region offset 0x0028|01|00' \
		'ranges X stray|5000..5000|1|patch word 1|4C|34' 'right 4 of 5 words are what the move makes of them; --text FILE lists every one.' \
		'words patch word 1|4998|0x12345678|0x124C5678|0x12345678 wrong' \
		'marks image settings 1' 'marks image strays 1' 'marks region settings 1' 'marks region strays 0'
	[ -z "$python" ] || [ "$(grep -c '^words ' "$work/page")" -eq 1 ] || fail "words that are right are listed"
	grep '^W ' whole >"$work/rest"
	lines 'W 128..131 length 4 base word maker'"'"'s 0xFFF80000 should 0x00100000 is 0x00100000 right' \
		'W 4498..4501 length 4 patch word 0 maker'"'"'s 0xFFF80040 should 0x00100040 is 0x00100040 right' \
		'W 4998..5001 length 4 patch word 1 maker'"'"'s 0x12345678 should 0x124C5678 is 0x12345678 wrong' \
		'W 6001..6004 length 4 patch word 2 maker'"'"'s 0xFFFFFFFC should 0x0017FFFC is 0x0017FFFC right' \
		'W 8188..8191 length 4 patch word 3 maker'"'"'s 0xFFF81FF0 should 0x00101FF0 is 0x00101FF0 right'
	same "$work/rest" "$work/wanted"
	reported 0 audit "$vendor" "$root/crates/run_explained/data/shipped.bin"
	page_says 'title Audit: explained' 'verdict explained (open)' 'marks image strays 0'
	reported 0 audit "$vendor" "$o/moved"
	page_says "because Moved to the shipped base, the maker's image is the shipped file: no byte differs." 'marks image settings 0'
	reported 1 audit --ranges "$vendor" t
	reported 1 audit --bytes "$vendor" t
	reported 1 audit --json "$vendor" t
	cd "$root"
}

# two entries of the sheets as their rows have them
entry_64='0x0064 at 4196|4|AA BB CC DD = 0xDDCCBBAA|7F A4 C9 EE = 0xEEC9A47F'
entry_12C='0x012C at 4396|3|11 22 33|67 8C B1'

accounted="So file and sheets account for every byte: what differs from the maker's image are the words of the move, and the settings that the sheets, \
applied in order, change."

try_verify_page() {
	cd "$i"
	reported 0 verify "$vendor" one.sheet two.sheet released
	page_says 'title Verify: as released, owners and base not checked' 'h1 released' 'verdict as released, owners and base not checked (open)' "file Sheet 1|one.sheet|$(wc -c <one.sheet)|$(digest_of one.sheet)" \
		"file Sheet 2|two.sheet|$(wc -c <two.sheet)|$(digest_of two.sheet)" 'entries 0|0x0028 at 4136|2|01 00 = 0x0001|01 05 = 0x0501|as set; in part set again by a later sheet' \
		"entries 1|$entry_64|as set" 'entries 0|0x0029 at 4137|1|07|05|as set' "entries 2|$entry_12C|as set" \
		'entries 1|0x00C8 at 4296|1|F3|F3|changes nothing' "because Byte for byte, the shipped file is what releasing the maker's image with the sheets below, in \
their order, to its base makes. 1 of 5 entries changes nothing: the maker's image has these bytes already. $accounted"
	cp released b
	flip b 4197 4197
	flip b 4160 4161
	flip b 5000 5000
	poke b 4396 "\\$(printf %o "0x$(bytes_at "$vendor" 4396 1)")"
	reported 1 verify "$vendor" one.sheet two.sheet b
	page_says 'title Verify: not as released' 'verdict not as released (bad)' "because 5 bytes are not what the release makes: 2 in settings that a sheet \
sets (1 still as the maker's), 2 in settings that no sheet sets, 1 outside the settings." "entries 1|$entry_64|otherwise" \
		"entries 2|$entry_12C|in part still as the maker's" 'marks image sheets 2' 'marks image others 1' 'marks image strays 1' \
		'marks region sheets 2' 'marks region others 1' 'marks region strays 0'
	grep -q '^ranges S setting|4197..4197|1|region offset 0x0065|BB|BC|sheet 1, entry 1: neither' "$work/page" || [ -z "$python" ] || fail "who sets it"
	reported 1 verify "$vendor" one.sheet two.sheet "$o/moved"
	page_says "entries 1|$entry_64|still as the maker's" "entries 2|$entry_12C|still as the maker's"
	reported 0 verify "$vendor" "$work/nothing" "$o/moved"
	printf '40 2 1\n100 4 1\n' >own
	try 0 verify --report page --owners own --owner 1 v one.sheet first
	page_of page
	page_says 'title Verify: as released, base not checked' "file Owner list, 1 asks for sheet 1|own|15|$(digest_of own)"
	try 2 verify --report page --owners own --owner 2 v one.sheet first
	page_of page
	page_says 'title Verify: refused' "file Owner list, 2 asks for sheet 1|own|15|$(digest_of own)" \
		'because Refusal 24 OWNER of one.sheet: every byte that the sheet sets must be in a range of the owner who asks. Nothing was compared.'
	rm b own page
	cd "$root"
}

# ---- what it says of itself ----

try_said_page() {
	cd "$i"
	try 1 audit --report page --number 'R-17 <b>' --note "as 'agreed'" v t
	page_of page
	page_says 'report-number Report R-17 <b>' "remark Note: as 'agreed'" "path Given as the maker's image|$(pwd -P)/v" "path Shipped file|$(pwd -P)/t"
	grep -q "^fact Command line: .* audit .*--report page --number 'R-17 <b>' --note 'as '\\\\''agreed'\\\\''' v t\$" "$work/page" || [ -z "$python" ] || fail "another line"
	grep -q '^fact Proved, for every input: .*pajurenda_read .*pajurenda_contents .*pajurenda_release .*pajurenda_audit ' "$work/page" || [ -z "$python" ] ||
		fail "it doesn't say what is proved"
	grep -q '^fact Not checked: whether the file that is taken' "$work/page" || [ -z "$python" ] || fail "it doesn't say what wasn't checked"
	works 0 audit --report page v v
	page_of page
	grep -q '^fact Not checked: whether the settings are the wanted ones; ' "$work/page" || [ -z "$python" ] || fail "it doesn't say what wasn't checked"
	for words in '--note x v s' '--number 1 v s' '--note x --list list'; do
		# shellcheck disable=SC2086
		fails_with 'pajurenda: audit: --note and --number are for the page: --report FILE is missing (see pajurenda audit --help)' audit $words
	done
	fails_with 'pajurenda: verify: --number is one report'"'s: with --list a page is known by its line (see pajurenda verify --help)" \
		verify --number 1 --list list --reports .
	fails_with 'pajurenda: read: takes no option --note (see pajurenda read --help)' read --note x v
	rm page
	cd "$root"
}

# a file whose header was changed says other things of itself, each marked; the range has the field's name
try_changed_header() {
	cd "$i"
	changed v b 111 4 112 9 116 88 135 48 196 1
	try 1 audit --ranges --report page v b
	prints 'base 0xFFF80000' "settings 0 $of_maker" 'strays 5' 'bits 0' 'X 111..111 length 1 tables: header revision' 'X 112..112 length 1 tables: image revision' \
		'X 116..116 length 1 tables: identity' 'X 135..135 length 1 tables: component' 'X 196..196 length 1 tables: patch entry 3' 'verdict unexplained'
	page_of page
	page_says 'selves Reads by itself|yes|no: refusal 11 UPD|differs' 'selves Component|T|S|differs' \
		'selves Identity|54524541542D3031 “TREAT-01”|58524541542D3031 “XREAT-01”|differs' 'selves Revision|0x01020304|0x01020309|differs' \
		'selves Version|1.2.3.4|1.2.3.9|differs' 'selves Base|0xFFF80000|0xFFF80000|the same' 'ranges X stray|135..135|1|tables: component|10|30'
	rm page b
	cd "$root"
}

# ---- what can't be checked ----

# a refused pair has a page that says so, so that no old page stands for it; a pair that can't be read leaves all as it was
try_refused_page() {
	cd "$i"
	cp "$work/old" page
	cp "$work/old" whole
	try 2 audit --report page --text whole r s
	prints 'refused 14'
	same whole "$work/old"
	page_of page
	page_says 'title Audit: refused' 'verdict refused (bad)' "file Given as the maker's image|r|8192|$(digest_of r)" \
		'because Refusal 14 OVERLAP of r: a patch word must be clear of tables, region and earlier words; patch entry 2, counted from 0. Nothing was compared.'
	try 2 verify --report page v one.sheet "$work/empty" released
	prints 'refused 15'
	page_of page
	grep -q "^because Refusal 15 SHEET of $work/empty: a sheet must have 16 to 65535 bytes.*[.] Nothing was compared[.]\$" "$work/page" ||
		[ -z "$python" ] || fail "another refusal"
	try 2 audit --report page v "$work/above"
	page_of page
	page_says "file Shipped file|$work/above|more than 16777216|not taken: the file is longer than any image and wasn't read to its end"
	cp "$work/old" page
	keeps "$i" fails_with "pajurenda: $work/missing: No such file or directory" audit --report page --text whole v "$work/missing"
	keeps "$i" fails_with "pajurenda: $work/o: Is a directory" verify --report page v "$work/o" s
	cd "$root"
}

# a sha256sum that lies, or none, on the PATH: the digests are the library's, so nothing changes
try_own_digest() {
	cd "$i"
	mkdir "$work/tools"
	printf '#!/bin/sh\nprintf "%%064d  -\\n" 0\n' >"$work/tools/sha256sum"
	chmod 755 "$work/tools/sha256sum"
	for path in "$work/tools" "$work/tools:$PATH" "$work/none"; do
		what="audit --report with the PATH $path"
		wanted_digest=$(digest_of v)
		got=0
		(PATH=$path && run audit --replace --report page v s >"$work/out" 2>"$work/err") || got=$?
		status_was 1
		says
		page_of page
		page_says "file Given as the maker's image|v|8192|$wanted_digest"
	done
	rm -r "$work/tools"
	cd "$root"
}

# ---- names ----

# whatever a file is called, it is text: the page's reader knows no other tags than ours
try_hostile_names() {
	mkdir "$work/names"
	cd "$work/names"
	# shellcheck disable=SC2016
	for name in '<script>alert(1)<' '<!--' ']]>' '&lt;' '&#60;b&#62;' '"><img src=x onerror=alert(1)>' "' onload='x" '</title><script>x<' 'a
b' "$(printf 't\tu\001\033[31m')" "$(printf '\303\266 \342\202\254 \360\237\230\200')" '${x}' '`id`' '%s%n' '--' '-h'; do
		case $name in */*) name=$(printf '%s' "$name" | tr / '|') ;; esac
		cp "$shipped" "./$name"
		cp "$vendor" "./v$name"
		cp "$i/one.sheet" "./s$name"
		what="verify --report of $name"
		got=0
		run verify --report page --text whole -- "v$name" "s$name" "./$name" >"$work/out" 2>"$work/err" || got=$?
		status_was 1
		says
		page_of page
		[ -z "$python" ] || "$python" -I -S -c 'import re, sys
name = sys.argv[2]
shown = "".join("U+%04X" % ord(c) if ord(c) < 32 or ord(c) == 127 else c for c in name)
page = open(sys.argv[1], encoding="utf-8").read()
assert "\nh1 ./" + shown + "\n" in page, shown
assert "\nfile Given as the maker\x27s image|v" + shown + "|8192|" in page
assert "\nfile Sheet 1|s" + shown + "|" in page' "$work/page" "$name" 2>"$work/err" || fail "the page has another name"
		passed
		find . -type f -exec rm -- {} +
	done
	cp "$shipped" "$(printf 'a\342\200\256b\357\273\277c\302\205d\377e\355\240\200f\300\200g')"
	works 1 audit --report page "$vendor" a*
	page_of page
	page_says 'h1 aU+202EbU+FEFFcU+0085d�e���f��g'
	cd "$root"
	rm -r "$work/names"
}

# ---- files to write ----

try_report_words() {
	cd "$i"
	see_audit='(see pajurenda audit --help)'
	for option in --report --text; do
		for last in '' --json --; do
			# shellcheck disable=SC2086
			keeps "$i" fails_with "pajurenda: audit: $option has no FILE after it $see_audit" audit v s "$option" $last
		done
		keeps "$i" fails_with "pajurenda: audit: $option is given twice $see_audit" audit v s "$option" a "$option" b
		keeps "$i" fails_with "pajurenda: read: takes no option $option (see pajurenda read --help)" read v "$option" a
		keeps "$i" fails_with "pajurenda: audit: the file to write is VENDOR itself, which would be lost $see_audit" audit "$option" v v s
		keeps "$i" fails_with "pajurenda: audit: the file to write is SHIPPED itself, which would be lost $see_audit" audit v s "$option" ./s
		keeps "$i" fails_with 'pajurenda: verify: the file to write is a SHEET itself, which would be lost (see pajurenda verify --help)' \
			verify "$option=two.sheet" v one.sheet two.sheet released
	done
	keeps "$i" fails_with "pajurenda: audit: --report and --text name one file $see_audit" audit v s --report a --text a
	ln s same
	keeps "$i" fails_with "pajurenda: audit: the file to write is SHIPPED itself, which would be lost $see_audit" audit v s --report same
	ln page twin
	keeps "$i" fails_with "pajurenda: audit: --report and --text name one file $see_audit" audit v s --report page --text twin
	rm same twin
	keeps "$i" fails_with "pajurenda: audit: --reports goes with --list; of one pair --report FILE is the page $see_audit" audit v s --reports .
	for words in 'audit --report=p2 v s' 'audit v --report p2 s' '--report p2 audit v s' 'audit v s --report p2 --'; do
		rm -f p2
		# shellcheck disable=SC2086
		works 1 $words
		page_of p2
	done
	works 1 audit --report=--json v s
	page_of ./--json
	rm p2 ./--json
	cd "$root"
}

try_unwritten_pages() {
	cp "$work/old" "$o/page"
	cp "$work/old" "$o/whole"
	cd "$i"
	for option in report text; do
		keeps "$o" errs 'Is a directory' audit v s "--$option" "$o"
		keeps "$o" errs 'No such file' audit v s "--$option" "$o/missing/page"
		keeps "$o" errs 'Not a regular file' audit v s "--$option" /dev/null
	done
	keeps "$o" limited 'File too large' audit v s --report "$o/page"
	keeps "$o" limited 'File too large' verify v one.sheet t --report "$o/none"
	flip t 5100 6000
	keeps "$o" limited 'File too large' audit v t --text "$o/whole"
	rm "$o/page" "$o/whole"
	cd "$root"
}

# a disk that is full, of 1 MiB, and one that is read-only
try_disk_pages() {
	mkdir -p "$work/disk"
	if [ "$(id -u)" -ne 0 ] || ! mount -t tmpfs -o size=64k tmpfs "$work/disk" 2>/dev/null; then return 0; fi
	mounted=disk
	cp "$work/old" "$work/disk/page"
	head -c 61440 /dev/zero >"$work/disk/fill" 2>/dev/null || :
	keeps "$work/disk" errs 'No space left' audit "$i/v" "$i/s" --report "$work/disk/page"
	keeps "$work/disk" errs 'No space left' audit "$i/v" "$i/s" --report "$work/disk/none"
	mount -o remount,ro "$work/disk"
	keeps "$work/disk" errs 'Read-only file system' audit "$i/v" "$i/s" --report "$work/disk/page"
	umount "$work/disk"
	mounted=
}

# ---- large ----

# a pair of 16 MiB with a million differences apart from each other: seconds, a page below 2 MiB, the whole list beside it
try_large_page() {
	cp "$work/large" "$work/many"
	awk 'BEGIN { for (n = 0; n < 1000000; n++) printf "y0123456789abcde" }' | tr '0-9a-e' '\000' | dd of="$work/many" bs=65536 seek=4 conv=notrunc 2>/dev/null
	[ "$(wc -c <"$work/many")" -eq 16777216 ] || fail "the file is not as planned"
	start=$(date +%s)
	works 1 audit --ranges --report "$o/page" --text "$o/whole" "$work/large" "$work/many"
	took=$(($(date +%s) - start))
	[ "$took" -le 60 ] || fail "it took $took s"
	[ "$(wc -c <"$o/page")" -lt 2097152 ] || fail "the page has $(wc -c <"$o/page") bytes"
	[ "$(grep -c '^X ' "$o/whole")" -eq 1000000 ] || fail "the list has $(wc -l <"$o/whole") lines"
	page_of "$o/page" "$o/whole"
	page_says 'fact Stray bytes: 1000000' "rest … and 999000 more ranges with 999000 bytes. Every range is in $o/whole, the whole list."
	[ -z "$python" ] || [ "$(grep -c '^ranges ' "$work/page")" -eq 1000 ] || fail "not 1000 rows"
	works 1 audit --report "$o/page" "$work/large" "$work/many"
	page_of "$o/page" "$o/whole"
	page_says 'rest … and 999000 more ranges with 999000 bytes. The option --text FILE writes every one of them beside this page.'
	rm "$o/whole" "$o/page"
}

# a sheet with the most entries, and one with the longest body; the words of a long table
try_long_page() {
	row 256 >"$i/text"
	bind
	works 0 sheet make "$work/wide" "$i/text" "$i/most"
	printf '32 5A\n33 %s' "$(digits 65502)" >"$i/text"
	bind
	works 0 sheet make "$work/wide" "$i/text" "$i/longest"
	works 1 verify --report "$o/page" "$work/wide" "$i/most" "$i/longest" "$i/most" "$work/wide"
	page_of "$o/page"
	[ -n "$python" ] || return 0
	[ "$(grep -c '^entries ' "$work/page")" -eq 500 ] || fail "not 500 entries"
	page_says 'rest … and 14 more entries; pajurenda sheet show lists all.'
	grep -q '^entries 1|0x0021 at 8225|65502|5A \(5A \)*… 65478 more|00 \(00 \)*… 65478 more|' "$work/page" || fail "the long entry"
	[ "$(wc -c <"$o/page")" -lt 300000 ] || fail "the page has $(wc -c <"$o/page") bytes"
	passed
	rm "$o/page"
}

# ---- signals ----

# at moments from a seed, small files: the page is the old one or a whole new one, the list too, and nothing lies beside them
try_killed_pages() {
	timeout --foreground 5 true 2>/dev/null || return 0
	mkdir -p "$work/kp"
	cp "$i/t" "$i/kt"
	run audit --text "$work/wanted_text" "$i/v" "$i/kt" >/dev/null 2>&1 || :
	fresh=0
	for signal in INT TERM HUP KILL; do
		delays=$(awk -v seed="$seed" 'BEGIN { srand(seed); for (n = 0; n < 8; n++) printf "%.4f ", rand() * 0.03 }')
		for delay in $delays; do
			rm -f "$work/kp"/* "$work/kp"/.pajurenda.*
			cp "$work/old" "$work/kp/page"
			cp "$work/old" "$work/kp/whole"
			what="audit --report, ended by $signal after $delay"
			timeout --foreground -s "$signal" "$delay" ${emulator:+"$emulator"} "$command" audit --replace "$i/v" "$i/kt" --report "$work/kp/page" --text "$work/kp/whole" \
				>/dev/null 2>&1 || :
			cmp -s "$work/kp/whole" "$work/old" || cmp -s "$work/kp/whole" "$work/wanted_text" || fail "the list is neither the old one nor the new one"
			[ "$signal" != KILL ] || rm -f "$work/kp"/.pajurenda.*
			[ "$(ls -A "$work/kp")" = 'page
whole' ] || fail "left behind: $(ls -A "$work/kp")"
			cmp -s "$work/kp/page" "$work/old" || { fresh=$((fresh + 1)); page_of "$work/kp/page" "$work/kp/whole"; }
			passed
		done
	done
	rm -r "$work/kp"
}

# while the list of a large pair is being written
try_killed_writing() {
	timeout --foreground 5 true 2>/dev/null || return 0
	k=$work/kw
	mkdir "$k"
	for signal in TERM KILL; do
		turns=0
		hit=
		while [ -z "$hit" ]; do
			[ "$turns" -lt 20 ] || fail "no $signal of 20 came while it was writing"
			turns=$((turns + 1))
			rm -f "$k"/* "$k"/.pajurenda.*
			cp "$work/old" "$k/whole"
			${emulator:+"$emulator"} "$command" audit --replace "$work/large" "$work/many" --text "$k/whole" >/dev/null 2>&1 &
			process=$!
			while kill -0 "$process" 2>/dev/null; do
				found=
				for file in "$k"/.pajurenda.*; do [ ! -e "$file" ] || found=yes; done
				[ -z "$found" ] || break
			done
			kill -s "$signal" "$process" 2>/dev/null || :
			got=0
			wait "$process" 2>/dev/null || got=$?
			what="audit --text, ended by $signal"
			if [ "$got" -gt 128 ]; then hit=yes; fi
			[ "$signal" != KILL ] || rm -f "$k"/.pajurenda.*
			[ "$(ls -A "$k")" = whole ] || fail "left behind: $(ls -A "$k")"
			cmp -s "$k/whole" "$work/old" || [ "$(grep -c '^X ' "$k/whole")" -eq 1000000 ] || fail "neither the old list nor the new one"
			passed
		done
	done
	rm -r "$k" "$work/many"
}

for one in audit_page verify_page said_page changed_header refused_page own_digest hostile_names report_words unwritten_pages disk_pages large_page long_page killed_pages \
	killed_writing; do "try_$one"; done
