# shellcheck shell=sh disable=SC2034,SC2154,SC2162,SC2164
# Hand-off blocks: lists made by hand with each kind and each name, refusals at their boundaries, any bytes, long and endless dumps.
# What --json writes is turned back into lines by another reader, python3, and must be the lines without it.

rule_block='a block must have a header of 8 bytes and a length of 8 or more, in steps of 8, that ends within the buffer'
rule_first='the list must start with a block of type 1 and length 56'
rule_nothing='a list must go on up to its end block, of type 0xFFFF'
rule_kind='a resource (type 3) must have 48 bytes or more, a GUID block (type 4) 24 or more, the end block exactly 8'

# ---- lists by hand ----

# two NUMBER: its two bytes, the lower first
# shellcheck disable=SC2059
two() { printf "\\$(printf %o $(($1 % 256)))\\$(printf %o $(($1 / 256)))"; }

# header TYPE LENGTH: the first 8 bytes of a block
header() { two "$1"; two "$2"; printf '\000\000\000\000'; }

# block TYPE LENGTH: with zeros up to its length
block() { header "$1" "$2"; head -c $(($2 - 8)) /dev/zero; }

first() { block 1 56; }
end() { header 65535 8; }

# guid: 16 bytes whose usual form is 04030201-0605-0807-090A-0B0C0D0E0FFF
guid() { printf '\001\002\003\004\005\006\007\010\011\012\013\014\015\016\017\377'; }
as_text=04030201-0605-0807-090A-0B0C0D0E0FFF

# resource LENGTH OCTAL: a resource block with its type, attributes, start and size as they are stored
# shellcheck disable=SC2059
resource() {
	header 3 "$1"
	guid
	printf "$2"
	head -c $(($1 - 48)) /dev/zero
}

# the list of all kinds: 56 + 48 + 56 + 48 + 48 + 24 + 40 + 56 + 8 bytes, and some after the end that are no block
all_kinds() {
	first
	resource 48 '\000\000\000\000\007\074\000\000\000\000\020\000\000\000\000\000\000\360\377\000\000\000\000\000'
	resource 56 '\005\000\000\000\377\377\377\377\000\000\000\000\001\000\000\000\001\000\000\000\000\000\000\000'
	resource 48 '\010\000\000\000\000\000\000\000\000\020\000\000\000\000\000\000\000\000\000\000\000\000\000\000'
	resource 48 '\377\377\377\377\001\000\000\000\377\377\377\377\377\377\377\377\377\377\377\377\377\377\377\377'
	header 4 24
	guid
	header 4 40
	guid
	printf 'sixteen bytes...'
	first
	end
	printf '\001\002\003'
}

try_kinds() {
	all_kinds >"$i/kinds"
	works 0 handoff "$i/kinds"
	prints '0 HANDOFF length 56' \
		"56 RESOURCE_DESCRIPTOR length 48 resource 0 SYSTEM_MEMORY attributes 0x00003C07 start 0x00100000 size 16773120 last 0x010FEFFF owner $as_text" \
		"104 RESOURCE_DESCRIPTOR length 56 resource 5 MEMORY_RESERVED attributes 0xFFFFFFFF start 0x100000000 size 1 last 0x100000000 owner $as_text" \
		"160 RESOURCE_DESCRIPTOR length 48 resource 8 UNKNOWN attributes 0x00000000 start 0x00001000 size 0 last none owner $as_text" \
		"208 RESOURCE_DESCRIPTOR length 48 resource 4294967295 UNKNOWN attributes 0x00000001 start 0xFFFFFFFFFFFFFFFF \
size 18446744073709551615 last 0x1FFFFFFFFFFFFFFFD owner $as_text" \
		"256 GUID_EXTENSION length 24 name $as_text data at 280 length 0" \
		"280 GUID_EXTENSION length 40 name $as_text data at 304 length 16" \
		'320 HANDOFF length 56 unknown kind' '376 END_OF_HOB_LIST length 8'
	cp "$work/out" "$work/wanted_kinds"
	what='handoff /dev/stdin, a pipe'
	got=0
	# shellcheck disable=SC2002
	cat "$i/kinds" | run handoff /dev/stdin >"$work/out" 2>"$work/err" || got=$?
	status_was 0
	same "$work/out" "$work/wanted_kinds"
}

# the last byte of a resource: at and around 2^32 and 2^64
try_last() {
	for range in '\000\000\000\000\000\000\000\000 \001\000\000\000\000\000\000\000 start 0x00000000 size 1 last 0x00000000' \
		'\000\000\000\000\000\000\000\000 \377\377\377\377\377\377\377\377 start 0x00000000 size 18446744073709551615 last 0xFFFFFFFFFFFFFFFE' \
		'\377\377\377\377\377\377\377\377 \001\000\000\000\000\000\000\000 start 0xFFFFFFFFFFFFFFFF size 1 last 0xFFFFFFFFFFFFFFFF' \
		'\377\377\377\377\377\377\377\377 \002\000\000\000\000\000\000\000 start 0xFFFFFFFFFFFFFFFF size 2 last 0x10000000000000000' \
		'\000\000\000\000\000\000\000\200 \000\000\000\000\000\000\000\200 start 0x8000000000000000 size 9223372036854775808 last 0xFFFFFFFFFFFFFFFF' \
		'\000\360\377\377\000\000\000\000 \000\020\000\000\000\000\000\000 start 0xFFFFF000 size 4096 last 0xFFFFFFFF' \
		'\377\377\377\377\377\377\377\377 \000\000\000\000\000\000\000\000 start 0xFFFFFFFFFFFFFFFF size 0 last none'; do
		# shellcheck disable=SC2086
		set -- $range
		{ first; resource 48 "\\000\\000\\000\\000\\000\\000\\000\\000$1$2"; end; } >"$i/last"
		shift 2
		works 0 handoff "$i/last"
		[ "$(sed -n 2p "$work/out")" = "56 RESOURCE_DESCRIPTOR length 48 resource 0 SYSTEM_MEMORY attributes 0x00000000 $* owner $as_text" ] ||
			fail "not $*"
		passed
	done
}

# each name of the PI specification, and numbers that have none beside them
try_names() {
	names='0:UNKNOWN_0x0000 1:HANDOFF 2:MEMORY_ALLOCATION 5:FV 6:CPU 7:MEMORY_POOL 8:UNKNOWN_0x0008 9:FV2 10:LOAD_PEIM_UNUSED
		11:UEFI_CAPSULE 12:FV3 13:UNKNOWN_0x000D 256:UNKNOWN_0x0100 257:UNKNOWN_0x0101 4660:UNKNOWN_0x1234 65280:UNKNOWN_0xFF00
		65533:UNKNOWN_0xFFFD 65534:UNUSED'
	{
		first
		for pair in $names; do header "${pair%:*}" 8; done
		end
	} >"$i/names"
	set -- '0 HANDOFF length 56'
	place=56
	for pair in $names; do
		set -- "$@" "$place $(echo "${pair#*:}" | sed 's/^UNKNOWN_/UNKNOWN /') length 8 unknown kind"
		place=$((place + 8))
	done
	works 0 handoff "$i/names"
	prints "$@" "$place END_OF_HOB_LIST length 8"
	number=0
	for name in SYSTEM_MEMORY MEMORY_MAPPED_IO IO FIRMWARE_DEVICE MEMORY_MAPPED_IO_PORT MEMORY_RESERVED IO_RESERVED MEMORY_UNACCEPTED UNKNOWN; do
		poked "$i/kinds" "$i/named" 80 "\\$(printf %o $number)"
		works 0 handoff "$i/named"
		sed -n 2p "$work/out" | grep -q " resource $number $name attributes " || fail "resource type $number is not $name"
		passed
		number=$((number + 1))
	done
}

# ---- JSON ----

# the lines that a document stands for, and the refusal where there is one; any other field, order or form ends it
cat >"$work/lines.py" <<'END'
import json, re, sys
def own(pairs):
    keys = [key for key, _ in pairs]
    assert len(keys) == len(set(keys)), keys
    return dict(pairs)
document = json.load(sys.stdin, object_pairs_hook=own)
assert list(document) == ["format", "tool", "command", "files", "file", "blocks", "number", "name", "refusal", "place", "count"], list(document)
assert document["command"] == "handoff"
common = ["place", "type", "name", "length", "kind"]
more = {"handoff": [], "end": [], "unknown": [], "guid": ["guid", "data_place", "data_length"],
        "resource": ["resource", "resource_name", "attributes", "start", "size", "size_hex", "last", "owner"]}
address = re.compile("0x[0-9A-F]{8,17}$")
for block in document["blocks"]:
    assert list(block) == common + more[block["kind"]], block
    assert all(type(block[key]) is int for key in ("place", "type", "length"))
    name = block["name"] + (" 0x%04X" % block["type"] if block["name"] == "UNKNOWN" else "")
    line = "%d %s length %d" % (block["place"], name, block["length"])
    if block["kind"] == "unknown":
        line += " unknown kind"
    if block["kind"] == "guid":
        line += " name %s data at %d length %d" % (block["guid"], block["data_place"], block["data_length"])
    if block["kind"] == "resource":
        assert all(address.match(block[key]) for key in ("attributes", "start", "size_hex")), block
        size = int(block["size_hex"], 16)
        assert block["size"] == (size if size < 2 ** 53 else None), block
        assert block["last"] is None or address.match(block["last"]), block
        assert (block["last"] is None) == (size == 0), block
        if block["last"] is not None:
            assert int(block["last"], 16) == int(block["start"], 16) + size - 1, block
        line += " resource %d %s attributes %s start %s size %d last %s owner %s" % (
            block["resource"], block["resource_name"], block["attributes"], block["start"], size,
            block["last"] or "none", block["owner"])
    print(line)
assert document["count"] == len(document["blocks"])
if document["number"] == 0:
    assert document["name"] == "ACCEPTED" and document["blocks"][-1]["kind"] == "end"
    assert document["place"] == document["blocks"][-1]["place"]
else:
    assert document["place"] == sum(block["length"] for block in document["blocks"])
    print("refused %d" % document["number"])
END

# document_is COMMAND SCRIPT FILE STATUS: --json says what the lines say, by the script, with the same words on standard error
document_is() {
	try "$4" "$1" "$3"
	cp "$work/out" "$work/wanted_lines"
	cp "$work/err" "$work/wanted_words"
	try "$4" "$1" --json "$3"
	same "$work/err" "$work/wanted_words"
	[ -n "$python" ] || return 0
	"$python" -I -S "$2" <"$work/out" >"$work/again" 2>"$work/err" || fail "no such document"
	same "$work/again" "$work/wanted_lines"
}

# json_is FILE STATUS: so it is of handoff
json_is() { document_is handoff "$work/lines.py" "$@"; }

# head_is FILE: the document in out begins with its form, the tool and the file that was read
head_is() {
	head -n 7 "$work/out" | sed '3s/: {.*/: {},/' >"$work/rest"
	lines '{' '  "format": 1,' '  "tool": {},' '  "command": "handoff",' '  "files": [' \
		"    {\"file\": \"$1\", \"length\": $(wc -c <"$1" | tr -d ' '), \"sha256\": \"$(sha256sum <"$1" | sed 's/ .*//')\"}" '  ],'
	same "$work/rest" "$work/wanted"
}

# the document of a small list to the last letter
try_json_text() {
	{ first; resource 48 '\000\000\000\000\001\000\000\000\000\020\000\000\000\000\000\000\000\000\000\000\000\000\000\000'; end; } >"$i/small"
	works 0 handoff --json "$i/small"
	head_is "$i/small"
	tail -n +8 "$work/out" >"$work/rest"
	lines "  \"file\": \"$i/small\"," '  "blocks": [' '    {"place": 0, "type": 1, "name": "HANDOFF", "length": 56, "kind": "handoff"},' \
		"    {\"place\": 56, \"type\": 3, \"name\": \"RESOURCE_DESCRIPTOR\", \"length\": 48, \"kind\": \"resource\", \"resource\": 0, \
\"resource_name\": \"SYSTEM_MEMORY\", \"attributes\": \"0x00000001\", \"start\": \"0x00001000\", \"size\": 0, \"size_hex\": \"0x00000000\", \"last\": null, \
\"owner\": \"$as_text\"}," \
		'    {"place": 104, "type": 65535, "name": "END_OF_HOB_LIST", "length": 8, "kind": "end"}' '  ],' '  "number": 0,' \
		'  "name": "ACCEPTED",' '  "refusal": null,' '  "place": 104,' '  "count": 3' '}'
	same "$work/rest" "$work/wanted"
	try 2 handoff --json "$work/empty"
	head_is "$work/empty"
	tail -n +8 "$work/out" >"$work/rest"
	lines "  \"file\": \"$work/empty\"," '  "blocks": [],' '  "number": 32,' '  "name": "NOTHING",' \
		"  \"refusal\": {\"rule\": \"$rule_nothing\", \"values\": \"the file has 0 bytes\"}," '  "place": 0,' '  "count": 0' '}'
	same "$work/rest" "$work/wanted"
	says "$work/empty: refused 32 NOTHING at 0: $rule_nothing: the file has 0 bytes"
}

try_json() {
	python=$(python3 -c 'import json, sys; print(sys.executable)' 2>/dev/null) || python=
	[ -n "$python" ] || not_run="$not_run; JSON by another reader (no python3)"
	try_json_text
	json_is "$i/kinds" 0
	json_is "$i/names" 0
	json_is "$i/last" 0
	json_is "$work/empty" 2
}

# ---- refusals ----

# stops N PLACE RULE VALUES: the dump is refused there, after the line of the first block where there is one, the same for --json
stops() {
	set -- "$i/d: refused $1 $(name_of "$1") at $2: $3: $4" "$1" "$2"
	try 2 handoff "$i/d"
	if [ "$3" -eq 0 ]; then
		prints "refused $2"
	else
		prints '0 HANDOFF length 56' "refused $2"
	fi
	says "$1"
	json_is "$i/d" 2
}

# passes: a dump just inside the boundary
passes() {
	works 0 handoff "$i/d"
	json_is "$i/d" 0
}

# after_first TYPE LENGTH BYTES: a block that says it is so long, of so many bytes, after the first block; nothing follows
after_first() { { first; header "$1" "$2"; head -c $(($3 - 8)) /dev/zero; } >"$i/d"; }

# then_end TYPE LENGTH: such a block whole, and the end
then_end() { { first; block "$1" "$2"; end; } >"$i/d"; }

try_bytes_left() {
	for left in 1 4 7; do
		{ first; end | head -c "$left"; } >"$i/d"
		stops 30 56 "$rule_block" "$left bytes left"
		end | head -c "$left" >"$i/d"
		stops 30 0 "$rule_block" "$left bytes left"
	done
	{ first; end; } >"$i/d"
	passes
	first >"$i/d"
	stops 32 56 "$rule_nothing" 'the file has 56 bytes'
	: >"$i/d"
	stops 32 0 "$rule_nothing" 'the file has 0 bytes'
}

try_block_lengths() {
	for length in 0 4 7 9 12 15; do
		after_first 2 "$length" 16
		stops 30 56 "$rule_block" "type 0x0002, length $length, 16 bytes left"
	done
	after_first 2 16 8
	stops 30 56 "$rule_block" 'type 0x0002, length 16, 8 bytes left'
	after_first 2 16 15
	stops 30 56 "$rule_block" 'type 0x0002, length 16, 15 bytes left'
	after_first 2 65528 65527
	stops 30 56 "$rule_block" 'type 0x0002, length 65528, 65527 bytes left'
	after_first 2 65535 65535
	stops 30 56 "$rule_block" 'type 0x0002, length 65535, 65535 bytes left'
	after_first 2 65535 65536
	stops 30 56 "$rule_block" 'type 0x0002, length 65535, more than 65535 bytes left'
	then_end 2 8
	passes
	then_end 2 65528
	passes
}

try_first() {
	for pair in 0:56 2:56 3:56 257:56 65535:56 1:48 1:64 1:8; do
		block "${pair%:*}" "${pair#*:}" >"$i/d"
		end >>"$i/d"
		stops 31 0 "$rule_first" "type 0x$(printf %04X "${pair%:*}"), length ${pair#*:}"
	done
}

try_short_kinds() {
	for pair in 3:8 3:40 4:8 4:16 65535:16 65535:48; do
		then_end "${pair%:*}" "${pair#*:}"
		stops 33 56 "$rule_kind" "type 0x$(printf %04X "${pair%:*}"), length ${pair#*:}"
	done
	for pair in 3:48 3:56 4:24 4:32; do
		then_end "${pair%:*}" "${pair#*:}"
		passes
	done
}

# 32 before 30 before 31 before 33; the first block at fault decides, and nothing after the end block does
try_order() {
	{ header 3 4; head -c 100 /dev/zero; } >"$i/d"
	stops 30 0 "$rule_block" 'type 0x0003, length 4, 108 bytes left'
	block 3 40 >"$i/d"
	stops 31 0 "$rule_first" 'type 0x0003, length 40'
	after_first 3 44 48
	stops 30 56 "$rule_block" 'type 0x0003, length 44, 48 bytes left'
	{ first; block 4 16; header 2 4; } >"$i/d"
	stops 33 56 "$rule_kind" 'type 0x0004, length 16'
	{ first; end; header 2 4; } >"$i/d"
	passes
}

# ---- any bytes ----

# one to three bytes of the list of all kinds changed, among them for certain a 31, a 33 and a 30: whatever it says, it says so in both forms
try_any_lists() {
	awk -v seed="$seed" -v count=60 -v low=0 -v high=384 -v other=58 "$draw" >"$work/drawn"
	awk -v seed="$seed" -v count=60 'BEGIN { srand(seed + 1); split("0 56 58 106 162 258 282 322 378", at)
		for (n = 0; n < count; n++) print at[1 + int(rand() * 9)], int(rand() * 256) }' >>"$work/drawn"
	printf '0 2\n58 40\n58 44\n' >>"$work/drawn"
	numbers=
	while read -r bytes; do
		# shellcheck disable=SC2086
		changed "$i/kinds" "$i/any" $bytes
		got=0
		run handoff "$i/any" </dev/null >"$work/out" 2>"$work/err" || got=$?
		case $got in 0 | 2) ;; *) fail "exit status $got of any list" ;; esac
		numbers="$numbers $(sed -n 's/^refused //p' "$work/out")"
		json_is "$i/any" "$got"
	done <"$work/drawn"
	seen=$(echo "$numbers" | tr ' ' '\n' | sort -u | tr '\n' ' ')
	case $seen in *30*31*33*) ;; *) fail "the changed lists had no refusals but $seen" ;; esac
}

# ---- long and endless dumps ----

# a list of 8,187 blocks; one of 17 MB, more than an image may have; the same without its end
try_long_lists() {
	{ first; yes | head -n 8185 | tr -d '\n' | sed 's/y/\x02\x00\x08\x00\x00\x00\x00\x00/g'; end; } >"$i/d"
	[ "$(wc -c <"$i/d")" -eq 65544 ] || fail "the list is not as planned"
	works 0 handoff "$i/d"
	[ "$(wc -l <"$work/out")" -eq 8187 ] || fail "not a line for each of 8187 blocks"
	[ "$(tail -n 1 "$work/out")" = '65536 END_OF_HOB_LIST length 8' ] || fail "another end"
	json_is "$i/d" 0
	block 2 65528 >"$work/block"
	{ first; for _ in 1 2 3 4 5 6 7 8 9 10 11 12 13; do
		for _ in 1 2 3 4 5 6 7 8 9 10 11 12 13 14 15 16 17 18 19 20; do cat "$work/block"; done
	done; } >"$i/d"
	try 2 handoff "$i/d"
	[ "$(tail -n 2 "$work/out" | tr '\n' '|')" = '16971808 MEMORY_ALLOCATION length 65528 unknown kind|refused 32|' ] || fail "another end"
	says "$i/d: refused 32 NOTHING at 17037336: $rule_nothing: the file has 17037336 bytes"
	end >>"$i/d"
	works 0 handoff "$i/d"
	[ "$(wc -l <"$work/out")" -eq 262 ] || fail "not a line for each of 262 blocks"
}

# endless bytes that are no list; a list with 20 GB after it; a list that goes on for more than 64 MiB
try_endless() {
	try 2 handoff /dev/zero
	prints 'refused 30'
	says "/dev/zero: refused 30 BLOCK at 0: $rule_block: type 0x0000, length 0, more than 65535 bytes left"
	cp "$i/kinds" "$i/huge"
	if sparse "$i/huge" 20000000000 2>/dev/null; then
		works 0 handoff "$i/huge"
		same "$work/out" "$work/wanted_kinds"
	else
		not_run="$not_run; a dump of 20 GB (the file system has none)"
	fi
	rm -f "$i/huge"
	{ first; for _ in 1 2 3 4; do tail -c +57 "$i/d" | head -c 17037280; done; end; } >"$work/endless"
	errs 'File too large' handoff "$work/endless"
	errs 'File too large' handoff --json "$work/endless"
	rm "$work/endless" "$i/d"
}

# ---- words, files, output ----

try_handoff_words() {
	works 0 handoff --json "$i/kinds"
	cp "$work/out" "$work/wanted_json"
	for words in 'handoff D --json' '--json handoff D' 'handoff --json --json D' 'handoff --json -- D' '--json -- handoff D' 'handoff D --json --'; do
		# shellcheck disable=SC2046
		works 0 $(echo "$words" | sed "s|D|$i/kinds|")
		same "$work/out" "$work/wanted_json"
	done
	cp "$i/kinds" "$i/--json"
	(cd "$i" && works 0 handoff -- --json && same "$work/out" "$work/wanted_kinds")
	rm "$i/--json"
	see_handoff='(see pajurenda handoff --help)'
	fails_with "pajurenda: handoff: DUMP is missing $see_handoff" handoff
	fails_with "pajurenda: handoff: DUMP is missing $see_handoff" handoff --json
	fails_with "pajurenda: handoff: one word too many: \"b\" $see_handoff" handoff "$i/kinds" b
	fails_with "pajurenda: handoff: takes no option --bytes $see_handoff" handoff --bytes "$i/kinds"
	fails_with "pajurenda: handoff: unknown option --jason $see_handoff" handoff --jason "$i/kinds"
	fails_with 'pajurenda: setting: takes no option --words (see pajurenda setting --help)' setting --words "$vendor" 40 2
}

try_handoff_files() {
	fails_with "pajurenda: $work/missing: No such file or directory" handoff "$work/missing"
	fails_with "pajurenda: $work/o: Is a directory" handoff --json "$work/o"
	fails_with "pajurenda: $vendor/below: Not a directory" handoff "$vendor/below"
	try 2 handoff "$vendor"
	prints 'refused 30'
	keeps "$i" try 0 handoff "$i/kinds"
	printf 'no list' >"$i/a
b"
	try 2 handoff "$i/a
b"
	says "$i/a?b: refused 30 BLOCK at 0: $rule_block: 7 bytes left"
	rm "$i/a
b"
}

# also a list whose lines are more than standard output holds back
try_handoff_unheard() {
	{ first; for _ in 1 2 3 4 5 6 7 8 9 10; do tail -c +57 "$i/names" | head -c 144; done; end; } >"$i/long"
	unheard handoff "$i/kinds"
	unheard handoff --json "$i/kinds"
	unheard handoff "$i/long"
	unheard handoff --json "$i/long"
	unheard handoff "$work/empty"
	unheard handoff --json "$work/empty"
}

try_kinds
try_last
try_names
try_json
try_bytes_left
try_block_lengths
try_first
try_short_kinds
try_order
try_any_lists
try_long_lists
try_endless
try_handoff_words
try_handoff_files
try_handoff_unheard
