# shellcheck shell=sh disable=SC2034,SC2154,SC2162,SC2164
# Intel HEX: what is written, what is taken back, and what isn't; the text of a release; where nothing can be written.

rule_text='the text must be, character for character, what an export writes of 72 to 16777216 bytes at a legal base'
hex_see='(see pajurenda hex'

# hex_text FILE BASE: the text of a file by python3, another hand
cat >"$work/hex.py" <<'END'
import sys
data, base = open(sys.argv[1], "rb").read(), int(sys.argv[2], 0)
def record(kind, address, body):
    whole = bytes([len(body), address >> 8 & 255, address & 255, kind]) + body
    return ":" + (whole + bytes([-sum(whole) & 255])).hex().upper() + "\n"
out = []
for at in range(0, len(data), 16):
    if at == 0 or (base + at) % 65536 == 0:
        out.append(record(4, 0, (base + at >> 16).to_bytes(2, "big")))
    out.append(record(0, base + at & 65535, data[at:at + 16]))
sys.stdout.write("".join(out) + record(1, 0, b""))
END
hex_text() { python3 "$work/hex.py" "$1" "$2" >"$work/wanted_text"; }

try_export() {
	works 0 hex export "$vendor" "$o/hex"
	hex_text "$vendor" 0xFFF80000
	same "$o/hex" "$work/wanted_text"
	prints 'base 0xFFF80000' "length $(wc -c <"$o/hex" | tr -d ' ')"
	works 0 hex export --base keep "$vendor" "$o/hex"
	same "$o/hex" "$work/wanted_text"
	head -c 72 "$vendor" >"$i/72"
	head -c 70000 /dev/zero >"$i/zeros"
	for case in "72 0x0 0x00000000" "72 0xFFFFF000 0xFFFFF000" "zeros 0x1000 0x00001000" "zeros 0xfffe0000 0xFFFE0000"; do
		# shellcheck disable=SC2086
		set -- $case
		works 0 hex export --base "$2" "$i/$1" "$o/hex"
		hex_text "$i/$1" "$2"
		same "$o/hex" "$work/wanted_text"
		prints "base $3" "length $(wc -c <"$o/hex" | tr -d ' ')"
	done
}

# there and back, at the image's own base and another; the longest too
try_back() {
	works 0 hex export "$vendor" "$o/hex"
	works 0 hex import "$o/hex" "$o/back"
	prints 'base 0xFFF80000' 'length 8192'
	same "$o/back" "$vendor"
	works 0 hex export "$work/large" "$o/hex" --base=0xff000000
	works 0 hex import "$o/hex" "$o/back"
	prints 'base 0xFF000000' 'length 16777216'
	same "$o/back" "$work/large"
	rm "$o/back" "$o/hex"
}

try_export_refused() {
	values 1 "$work/71" 'the file has 71 bytes' hex export --base 0x0 "$work/71" "$o/none"
	values 1 "$work/above" 'the file has more than 16777216 bytes' hex export --base 0x0 "$work/above" "$o/none"
	for base in 0x1 0xFFFFE001 0xFFFFF000 0x100000000 0xFFFFFFFFFFFFF000; do
		shown=$(printf '0x%08X' "$base")
		values 18 "$vendor" "$shown for 8192 bytes" hex export --base "$base" "$vendor" "$o/none"
	done
	no_base='has no 0x, and a base is hex: write 0x512000, or 0x7D000 where 512000 is decimal'
	keeps "$o" fails_with "pajurenda: hex export: BASE \"512000\" $no_base" hex export --base 512000 "$vendor" "$o/none"
	keeps "$o" errs 'No such file' hex export "$o/nothing" "$o/none"
}

# a file that doesn't read has no base of its own; with one it goes
try_unread() {
	what='hex export of an image that does not read'
	try 2 hex export "$refused" "$o/none"
	cp "$work/err" "$work/told_export"
	try 2 read "$refused"
	same "$work/err" "$work/told_export"
	works 0 hex export --base 0x0 "$refused" "$o/hex"
	hex_text "$refused" 0
	same "$o/hex" "$work/wanted_text"
}

# not_taken FILE: no text that export writes
not_taken() {
	count=$(wc -c <"$1" | tr -d ' ')
	keeps "$o" refuses 50 "$1" "$rule_text: it has $count characters" hex import "$1" "$o/none"
}

try_import_refused() {
	works 0 hex export --base 0x1000 "$i/72" "$work/small"
	tr 'A-F' 'a-f' <"$work/small" >"$work/t" && not_taken "$work/t"
	sed 's/$/\r/' "$work/small" >"$work/t" && not_taken "$work/t"
	{ cat "$work/small"; echo; } >"$work/t" && not_taken "$work/t"
	sed '$d' "$work/small" >"$work/t" && not_taken "$work/t"
	sed 2d "$work/small" >"$work/t" && not_taken "$work/t"
	sed 's/^:10\(.*\)..$/:10\100/' "$work/small" >"$work/t" && not_taken "$work/t"
	head -c "$(($(wc -c <"$work/small") - 1))" "$work/small" >"$work/t" && not_taken "$work/t"
	not_taken "$vendor"
	not_taken "$work/empty"
	sparse "$work/t" 46141469
	keeps "$o" refuses 50 "$work/t" "$rule_text: it has more than 46141468 characters" hex import "$work/t" "$o/none"
	rm "$work/t"
	keeps "$o" errs 'No such file' hex import "$o/nothing" "$o/none"
}

# document NAME..: python3 takes the document, which has these members and no others
document() {
	python3 -c 'import json, sys
d = json.load(open(sys.argv[1]))
said = " ".join(str(v) for k, v in d.items() if k not in ("format", "tool", "files", "refusal"))
sys.exit(list(d) != sys.argv[2].split() or said != sys.argv[3])' "$work/out" "$1" "$2" || fail "another document"
	passed
}

try_hex_json() {
	works 0 hex export --json --base 0x1000 "$i/72" "$o/hex"
	document 'format tool command files in out number name refusal base length' "hex export $i/72 $o/hex 0 ACCEPTED 0x00001000 232"
	works 0 hex import --json "$o/hex" "$o/back"
	document 'format tool command files in out number name refusal base length' "hex import $o/hex $o/back 0 ACCEPTED 0x00001000 72"
	same "$o/back" "$i/72"
	try 2 hex import --json "$vendor" "$o/back"
	document 'format tool command files in out number name refusal' "hex import $vendor $o/back 50 TEXT"
	says "$vendor: refused 50 TEXT: $rule_text: it has 8192 characters"
	try 2 hex export --json --base 0x1 "$vendor" "$o/back"
	document 'format tool command files in out number name refusal' "hex export $vendor $o/back 18 NEWBASE"
	try 2 hex export --json "$refused" "$o/back"
	told=$(sed -n 's/.*refused \([0-9]* [A-Z]*\):.*/\1/p' "$work/err")
	document 'format tool command files in out number name refusal' "hex export $refused $o/back $told"
	same "$o/back" "$i/72"
}

# what is programmed is what was released
try_release_hex() {
	works 0 release "$all" --owner=1 --hex "$o/hex" "$vendor" "$work/sheet" 0x00512000 "$o/released"
	works 0 hex import "$o/hex" "$o/back"
	prints 'base 0x00512000' 'length 8192'
	same "$o/back" "$o/released"
	works 0 release "$all" --owner=1 "$vendor" "$work/sheet" keep "$o/released" "--hex=$o/hex"
	works 0 hex import "$o/hex" "$o/back"
	prints 'base 0xFFF80000' 'length 8192'
	same "$o/back" "$o/released"
	cp "$work/old" "$o/released"
	keeps "$o" values 18 "$vendor" '0x00000001 for 8192 bytes' \
		release "$all" --owner=1 --hex "$o/hex" "$vendor" "$work/sheet" 0x1 "$o/released"
	keeps "$o" errs 'No such file' release "$all" --owner=1 --hex "$o/none/hex" "$vendor" "$work/sheet" keep "$o/released"
	lost="itself, which would be lost (see pajurenda release --help)"
	cp "$work/all" "$i/list"
	cp "$work/sheet" "$i/sheet"
	for pair in "OUT $o/released" "LIST $i/list" "SHEET $i/sheet" "IMAGE $i/v"; do
		picture "$o" >"$work/before_out"
		keeps "$i" fails_with "pajurenda: release: the file for --hex is ${pair%% *} $lost" \
			release --owners "$i/list" --owner=1 --hex "${pair#* }" "$i/v" "$i/sheet" keep "$o/released"
		picture "$o" >"$work/after_out"
		same "$work/after_out" "$work/before_out"
	done
	rm "$i/list" "$i/sheet"
	keeps "$o" fails_with "pajurenda: release: the file for --hex is OUT $lost" \
		release "$all" --owner=1 --hex "$o/new" "$vendor" "$work/sheet" keep "$o/new"
}

try_hex_words() {
	for words in 'hex export --help' 'help hex import' 'hex import help' 'hex nonsense --help'; do
		# shellcheck disable=SC2086
		help_is hex $words
	done
	fails_with "pajurenda: hex: export or import is missing $hex_see --help)" hex
	fails_with "pajurenda: hex: \"show\" is neither export nor import $hex_see --help)" hex show a
	fails_with "pajurenda: hex export: IMAGE and OUT are missing $hex_see export --help)" hex export
	fails_with "pajurenda: hex import: OUT is missing $hex_see import --help)" hex import a
	fails_with "pajurenda: hex export: one word too many: \"c\" $hex_see export --help)" hex export a b c
	fails_with "pajurenda: hex import: takes no option --base $hex_see import --help)" hex import --base 0x0 a b
	fails_with "pajurenda: hex export: --base has no BASE after it $hex_see export --help)" hex export a b --base
	keeps "$i" fails_with "pajurenda: hex export: OUT is IMAGE itself, which would be lost $hex_see export --help)" hex export "$i/v" "$i/v"
	keeps "$i" fails_with "pajurenda: hex import: OUT is TEXT itself, which would be lost $hex_see import --help)" hex import "$i/v" "$i/v"
}

# where the text or the bytes can't be written whole, none of them is
try_hex_unwritten() {
	limit=2
	keeps "$o" errs 'File too large' hex export "$vendor" "$o/hex"
	limit=
	works 0 hex export "$vendor" "$work/small"
	limit=2
	keeps "$o" errs 'File too large' hex import "$work/small" "$o/none"
	limit=
	rm -f "$o/hex" "$o/back" "$o/released"
}

try_export
try_back
try_export_refused
try_unread
try_import_refused
try_hex_json
try_release_hex
try_hex_words
try_hex_unwritten
