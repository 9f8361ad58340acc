# shellcheck shell=sh disable=SC2034,SC2154,SC2162,SC2164
# A mending's page, document and Intel HEX: each says what the lines say, of the file as it came; all are written together or not at all,
# over no input and over nothing that is there. What is refused has its document, and its page where one is asked for.

see_mend='(see pajurenda mend --help)'
open_mend='whether the settings are the wanted ones; verify VENDOR SHEET.. OUT says it by the sheets, audit --must FILE VENDOR OUT by a text'

# mend_words WORDS..: the folder that the mendings write to is empty before each
mend_words() {
	rm -rf "$m"
	mkdir "$m"
	works 0 mend "$@"
}

# a page of the file as it came, with both digests; the lines are those without a page
try_mend_page() {
	mend_words "$i/v" "$i/s" "$m/out"
	cp "$work/out" "$work/wanted_lines"
	mend_words --report "$m/page" --text "$m/whole" --hex "$m/text" --number 'R 7' --note 'from the field' "$i/v" "$i/s" "$m/out"
	same "$work/out" "$work/wanted_lines"
	page_of "$m/page" "$m/whole"
	page_says 'title Mend: mended' "h1 $i/s" 'report-number Report R 7' 'remark Note: from the field' 'verdict mended (open)' \
		"because 1 byte of the shipped file differed outside the settings. In $m/out it is the maker's again, moved, and no other byte was changed. \
What is left: 1 byte that differs, and it is a setting, as in the shipped file." "unchecked Not checked: $open_mend." \
		"file Given as the maker's image|$i/v|8192|$(digest_of "$vendor")" "file Shipped file, before|$i/s|8192|$(digest_of "$shipped")" \
		"file Mended file, after|$m/out|8192|$(digest_of "$m/out")" "file Mended file as Intel HEX|$m/text|$(wc -c <"$m/text")|$(digest_of "$m/text")" \
		"file Whole list|$m/whole|$(wc -c <"$m/whole")|$(digest_of "$m/whole")" 'order header, verdict, Put back, What is left: settings, signed, behind' \
		'ranges X stray|5000..5000|1|patch word 1|4C|34' 'ranges S setting|4136..4136|1|region offset 0x0028|01|00' \
		'words patch word 1|4998|0x12345678|0x124C5678|0x12345678 wrong' 'marks image settings 1' 'marks image strays 1'
	[ "$(digest_of "$m/out")" != "$(digest_of "$shipped")" ] || fail "both digests are one"
	cp "$m/out" "$i/mended"
	hex_text "$m/out" 0x00100000
	same "$m/text" "$work/wanted_text"
	works 1 audit --text "$i/whole" "$i/v" "$i/s"
	same "$m/whole" "$i/whole"
	rm "$i/whole"
}

# nothing to mend, with settings and without; several strays; a long list is cut
try_other_pages() {
	mend_words --report "$m/page" "$i/v" "$i/mended" "$m/out"
	same "$m/out" "$i/mended"
	page_of "$m/page"
	page_says 'title Mend: nothing to mend' 'verdict nothing to mend (open)' "because No byte outside the settings differs: there was nothing to put back, and \
$m/out has the shipped file's bytes. What is left: 1 byte that differs, and it is a setting, as in the shipped file." \
		"file Shipped file, before|$i/mended|8192|$(digest_of "$i/mended")" "file Mended file, after|$m/out|8192|$(digest_of "$i/mended")"
	harmed "$o/moved" 0 1 8191
	mend_words --report "$m/page" "$i/v" "$i/harmed" "$m/out"
	same "$m/out" "$o/moved"
	page_of "$m/page"
	page_says "because 3 bytes of the shipped file differed outside the settings. In $m/out each is the maker's again, moved, and no other byte was \
changed. No setting differs from the maker's: all of it is the maker's image, moved." "ranges X stray|0..1|2|elsewhere|$(bytes_at "$o/moved" 0 2)|$(bytes_at "$i/harmed" 0 2)"
	mend_words --report "$m/page" --text "$m/whole" "$root/crates/run_short/data/vendor.bin" "$root/crates/run_short/data/shipped.bin" "$m/out"
	page_of "$m/page" "$m/whole"
	works 0 audit "$root/crates/run_short/data/vendor.bin" "$m/out"
}

# the document as the lines, by another reader
cat >"$work/mended.py" <<'END'
import hashlib, json, sys
d = json.load(sys.stdin)
assert list(d) == ["format", "tool", "command", "files", "vendor", "vouched", "record", "shipped", "out", "hex", "report_number", "note", "notes", "agreed",
                   "number", "name", "index", "refusal", "names", "edition", "base", "base_wanted", "move", "against", "settings", "strays", "bits", "ranges",
                   "changed", "other", "must", "mended", "required", "not_checked", "verdict"], list(d)
assert (d["command"], d["number"], d["edition"], d["against"]) == ("mend", 0, 2, "the maker's image moved")
before, after = (open(name, "rb").read() for name in (d["shipped"], d["out"]))
assert d["mended"] == {"put_back": d["strays"], "sha256_before": hashlib.sha256(before).hexdigest(), "sha256_after": hashlib.sha256(after).hexdigest()}
mended = bytearray(before)
def shown(kind):
    for r in d["ranges"]:
        first, last = r["first"], r["last"]
        assert before[first:last + 1].hex().upper() == r["is"]
        if r["kind"] == "stray":
            mended[first:last + 1] = bytes.fromhex(r["should"])
        if r["kind"] != kind:
            continue
        where = r["place"]
        if where == "settings":
            where = "region offset 0x%04X" % r["offset"]
        elif where == "patch word":
            where += " %d" % r["index"]
        elif where == "tables":
            where += ": " + r["field"]
        print("%s %d..%d length %d %s" % ("SX"[kind == "stray"], first, last, r["length"], where))
print("base %s\nput back %d" % (d["base"], d["strays"]))
shown("stray")
print("settings %d\nbits %d" % (d["settings"], d["bits"]))
shown("setting")
print(d["verdict"])
assert bytes(mended) == after, "the ranges don't make the mended file"
END

# documented SHIPPED: the document says what the lines say, and its ranges make the mended file
documented() {
	mend_words "$i/v" "$1" "$m/out"
	cp "$work/out" "$work/wanted_lines"
	mend_words --json "$i/v" "$1" "$m/out"
	[ -n "$python" ] || return 0
	"$python" -I -S "$work/mended.py" <"$work/out" >"$work/again" 2>"$work/err" || fail "no such document"
	same "$work/again" "$work/wanted_lines"
}

try_mend_json() {
	documented "$i/s"
	documented "$i/mended"
	documented "$o/moved"
	harmed "$i/mended" 0 1 2 100 112 113 140 196 4096 4127 4498 4501 6000 8190 8191
	documented "$i/harmed"
	mend_words --json --hex "$m/text" --report "$m/page" --number 17 --note x "$i/v" "$i/s" "$m/out"
	grep -q "^  \"hex\": \"$m/text\",\$" "$work/out" && grep -q '^  "report_number": "17",$' "$work/out" || fail "what was written"
}

# refused_mend N FILE VENDOR SHIPPED: lines, document and page have the refusal, and nothing else is written
refused_mend() {
	rm -rf "$m"
	mkdir "$m"
	keeps "$m" try 2 mend --hex "$m/text" --text "$m/whole" "$3" "$4" "$m/out"
	prints "refused $1"
	cp "$work/err" "$work/wanted_words"
	grep -q "^$2: refused $1 " "$work/err" || fail "another refusal"
	try 2 mend --json --report "$m/page" --hex "$m/text" --text "$m/whole" "$3" "$4" "$m/out"
	same "$work/err" "$work/wanted_words"
	grep -q "^  \"number\": $1,\$" "$work/out" && grep -q '^  "out": null,$' "$work/out" && grep -q '^  "verdict": "refused"$' "$work/out" || fail "another document"
	[ "$(ls "$m")" = page ] || fail "more than the page was written: $(ls "$m")"
	page_of "$m/page"
	page_says 'title Mend: refused' 'verdict refused (bad)' "file Shipped file|$4|$(wc -c <"$4")|$(digest_of "$4")"
	grep -q "^because Refusal $1 [A-Z-]* of $2: .*[.] Nothing was compared, and nothing put back[.]\$" "$work/page" || [ -z "$python" ] || fail "the page says otherwise"
}

# the vendor's own, then 28 before 19 and 18, then these
try_mend_refused() {
	refused_mend 14 "$i/r" "$i/r" "$i/s"
	refused_mend 1 "$work/71" "$work/71" "$i/s"
	changed "$vendor" "$i/older" 111 1 104 60
	head -c 8191 "$i/s" >"$i/short"
	poked "$i/s" "$i/illegal" 128 '\001'
	for file in s short illegal; do refused_mend 28 "$i/older" "$i/older" "$i/$file"; done
	refused_mend 19 "$i/short" "$i/v" "$i/short"
	refused_mend 18 "$i/illegal" "$i/v" "$i/illegal"
	rm "$i/older" "$i/short" "$i/illegal"
}

# where one can't be written none is; no output is an input, or another output, or replaces what is there
try_mend_together() {
	rm -rf "$m"
	mkdir "$m"
	cd "$m"
	for words in '--hex away/text --report page --text whole' '--report away/page --hex text --text whole' '--text away/whole --hex text --report page'; do
		# shellcheck disable=SC2086
		keeps "$m" errs 'No such file or directory' mend $words "$i/v" "$i/s" out
	done
	keeps "$m" errs 'No such file or directory' mend --hex text --report page --text whole "$i/v" "$i/s" away/out
	cd "$root"
	lost='itself, which would be lost'
	for file in v:VENDOR s:SHIPPED; do
		keeps "$i" fails_with "pajurenda: mend: the file to write is ${file#*:} $lost $see_mend" mend "$i/v" "$i/s" "$i/${file%:*}"
		for option in --hex --report --text; do
			keeps "$i" fails_with "pajurenda: mend: the file to write is ${file#*:} $lost $see_mend" mend --replace $option "$i/${file%:*}" "$i/v" "$i/s" "$m/out"
		done
	done
	printf 'signed\n' >"$m/there"
	for option in --hex --report --text; do
		keeps "$m" fails_with "pajurenda: mend: $option and OUT name one file $see_mend" mend --replace $option "$m/there" "$i/v" "$i/s" "$m/../m/there"
		keeps "$m" errs 'it stays as it is, and nothing is written' mend $option "$m/there" "$i/v" "$i/s" "$m/out"
	done
	keeps "$m" fails_with "pajurenda: mend: --report and --hex name one file $see_mend" mend --report "$m/a" --hex "$m/a" "$i/v" "$i/s" "$m/out"
	keeps "$m" errs 'it stays as it is, and nothing is written' mend "$i/v" "$i/s" "$m/there"
	works 0 mend --replace --hex "$m/there" "$i/v" "$i/s" "$m/out"
	same "$m/out" "$i/mended"
}

# the forms that go together, and those that mend hasn't
try_mend_forms() {
	mend_words -q "$i/v" "$i/s" "$m/out"
	prints
	same "$m/out" "$i/mended"
	mend_words --bytes "$i/v" "$i/s" "$m/out"
	[ "$(sed -n '/^[SX] /p' "$work/out" | sed 's/ preceded by .*//')" = "X 5000..5000 length 1 patch word 1 maker's 4C is 34
S 4136..4136 length 1 region offset 0x0028 maker's 01 is 00" ] || fail "other bytes"
	rm "$m/out"
	keeps "$m" fails_with "pajurenda: mend: -q shows nothing: no other form goes with it $see_mend" mend -q --json "$i/v" "$i/s" "$m/out"
	keeps "$m" fails_with "pajurenda: mend: --json has both bytes and ranges: no other form goes with it $see_mend" mend --bytes --json "$i/v" "$i/s" "$m/out"
	keeps "$m" fails_with "pajurenda: mend: --note and --number are for the page: --report FILE is missing $see_mend" mend --note x "$i/v" "$i/s" "$m/out"
	for option in '--must x' '--list x' '--reports x' --ranges '--base 0x0'; do
		# shellcheck disable=SC2086
		keeps "$m" fails_with "pajurenda: mend: takes no option ${option%% *} $see_mend" mend $option "$i/v" "$i/s" "$m/out"
	done
	works 0 help mend
	for word in --bytes --json -q --report --text --hex --number --note --names --vendor-sha256 --replace; do grep -qF -e "$word" "$work/out" || fail "mend's help has no $word"; done
	grep -qx 'Exit status: 0 done, 2 refused or failed.' "$work/out" || fail "no exit status"
}

# the maker's image by its digest or by a record; settings by their names; a base word that may be damaged
try_mend_beside() {
	mend_words --vendor-sha256 "$(digest_of "$vendor")" "$i/v" "$i/s" "$m/out"
	[ "$(sed -n 1p "$work/out")" = "maker's image by --vendor-sha256" ] || fail "by whose word"
	rm "$m/out"
	keeps "$m" errs "pajurenda: mend: $i/v isn't the maker's image by --vendor-sha256: " mend --vendor-sha256 "$(digest_of "$shipped")" "$i/v" "$i/s" "$m/out"
	harmed "$h/shipped.bin" 7 7000
	mend_words "$h/shipped.bin.release.json" "$i/harmed" "$m/out"
	same "$m/out" "$h/shipped.bin"
	keeps "$h" fails_with "pajurenda: mend: the file to write is RECORD itself, which would be lost $see_mend" mend "$h/shipped.bin.release.json" "$i/harmed" "$h/shipped.bin.release.json"
	changed "$work/accident/shipped" "$i/kept" 4396 0
	harmed "$i/kept" 6000
	mend_words --names "$work/accident/B.bsf" --report "$m/page" "$work/accident/B" "$i/harmed" "$m/out"
	grep -q '^S 4396..4396 length 1 region offset 0x012C; gTreatTokenSpaceGuid_BypassRelay ("Bypass relay at restart") 01 Enabled -> 00 Disabled$' "$work/out" || fail "no name"
	same "$m/out" "$i/kept"
	page_of "$m/page"
	page_says "file Names|$work/accident/B.bsf|$(wc -c <"$work/accident/B.bsf")|$(digest_of "$work/accident/B.bsf")"
	poked "$o/moved" "$i/harmed" 130 '\070'
	mend_words --report "$m/page" "$i/v" "$i/harmed" "$m/out"
	grep -q ': the base word may be damaged$' "$work/out" || fail "nothing is said of the base word"
	page_of "$m/page"
	grep -q '^unchecked .*: the base word may be damaged[.]$' "$work/page" || [ -z "$python" ] || fail "the page says nothing of the base word"
}

# strays in the modules' words, their image bases and headers: all of them come back
try_mend_modules() {
	[ -f "$i/three.moved" ] || return 0
	cp "$i/three.moved" "$i/harmed"
	for part in '290 320' '430 446' '630 636' '866 873' '1458 1470'; do
		# shellcheck disable=SC2086
		flip "$i/harmed" $part
	done
	mend_words --report "$m/page" --text "$m/whole" "$i/three" "$i/harmed" "$m/out"
	same "$m/out" "$i/three.moved"
	page_of "$m/page" "$m/whole"
	works 1 audit --ranges "$i/three" "$i/harmed"
	grep '^X ' "$work/out" >"$work/wanted_lines"
	mend_words "$i/three" "$i/harmed" "$m/out"
	grep '^X ' "$work/out" >"$work/rows"
	same "$work/rows" "$work/wanted_lines"
}

m=$work/m
try_mend_page
try_other_pages
try_mend_json
try_mend_refused
try_mend_together
try_mend_forms
try_mend_beside
try_mend_modules
rm -rf "$m" "$i/mended" "$i/harmed" "$i/kept"
