# shellcheck shell=sh disable=SC2034,SC2154,SC2162,SC2164
# The memory map and a place in it: lists made by hand, sizes in words, refusals at their boundaries, the base in a release.
# What --json writes is turned back into lines by another reader, python3, and must be the lines without it.

rule_above='a resource of type 0 or 5 must end at 2^64 or below'
rule_many='a list must have at most 128 resources of types 0 and 5'
rule_image='an image to be placed must have 1 to 16777216 bytes'
rule_nowhere='the image must lie whole in one free range, at a base that is a multiple of 4096, base plus size at most 2^32'

# ---- lists by hand ----

# eight DIGITS: a number of up to 16 hex digits, the lower byte first
# shellcheck disable=SC2059
eight() {
	digits=$(printf %16s "$1" | tr ' ' 0)
	while [ -n "$digits" ]; do
		rest=${digits%??}
		printf "\\$(printf %o "0x${digits#"$rest"}")"
		digits=$rest
	done
}

# range TYPE:START:SIZE: a resource, start and size in hex
range() {
	header 3 48
	guid
	two "${1%%:*}"
	printf '\000\000\000\000\000\000'
	between=${1#*:}
	eight "${between%:*}"
	eight "${between#*:}"
}

# memory RANGE..: a whole list of such resources
memory() {
	first
	for one in "$@"; do range "$one"; done
	end
}

# memory that overlaps, lies inside other memory, touches it, is empty and ends with the last of all bytes; reserved ranges that cut a
# start, a middle and an end, that lie where no memory is, and that are empty; a type that doesn't count
try_map() {
	memory 0:8000:4000 5:800:1000 0:1000:9000 0:2000:1000 1:5000:1000 0:C000:1000 5:5000:800 5:C800:1000 0:4000:0 0:FFFFFFFFFFFFF000:1000 \
		5:700000:10 5:6000:0 >"$i/map"
	keeps "$i" works 0 map "$i/map"
	prints 'free first 0x00001800 last 0x00004FFF size 0x00003800 (14 KiB)' \
		'free first 0x00005800 last 0x0000C7FF size 0x00007000 (28 KiB)' \
		'free first 0xFFFFFFFFFFFFF000 last 0xFFFFFFFFFFFFFFFF size 0x00001000 (4 KiB)' \
		'taken first 0x00001000 last 0x000017FF size 0x00000800 (2 KiB) by the block at 104' \
		'taken first 0x00005000 last 0x000057FF size 0x00000800 (2 KiB) by the block at 344' \
		'taken first 0x0000C800 last 0x0000CFFF size 0x00000800 (2 KiB) by the block at 392' \
		'taken none by the block at 536' 'taken none by the block at 584'
	cp "$work/out" "$work/wanted_map"
	what='map /dev/stdin, a pipe'
	got=0
	# shellcheck disable=SC2002
	cat "$i/map" | run map /dev/stdin >"$work/out" 2>"$work/err" || got=$?
	status_was 0
	same "$work/out" "$work/wanted_map"
	memory >"$i/d"
	works 0 map "$i/d"
	prints 'free none'
	memory 5:0:1000 >"$i/d"
	works 0 map "$i/d"
	prints 'free none' 'taken none by the block at 56'
	# one byte taken, by its place; none by a range of no bytes at 0
	memory 0:1000:1000 5:0:1001 5:0:0 5:1FFF:1 >"$i/d"
	works 0 map "$i/d"
	prints 'free first 0x00001001 last 0x00001FFE size 0x00000FFE (over 3 KiB)' \
		'taken first 0x00001000 last 0x00001000 size 0x00000001 (under 1 KiB) by the block at 104' \
		'taken none by the block at 152' \
		'taken first 0x00001FFF last 0x00001FFF size 0x00000001 (under 1 KiB) by the block at 200'
	memory 0:0:1000 0:3000:1000 5:800:3000 5:0:8000 >"$i/two"
	works 0 map "$i/two"
	prints 'free none' 'taken first 0x00000800 last 0x00000FFF size 0x00000800 (2 KiB) by the block at 152' \
		'taken first 0x00003000 last 0x000037FF size 0x00000800 (2 KiB) by the block at 152' \
		'taken first 0x00000000 last 0x00000FFF size 0x00001000 (4 KiB) by the block at 200' \
		'taken first 0x00003000 last 0x00003FFF size 0x00001000 (4 KiB) by the block at 200'
}

# a size in KiB or MiB where it is one, and how far it is beyond where it isn't
try_sizes() {
	for size in '1 0x00000001 (under 1 KiB)' '3FF 0x000003FF (under 1 KiB)' '400 0x00000400 (1 KiB)' '401 0x00000401 (over 1 KiB)' \
		'FFC00 0x000FFC00 (1023 KiB)' 'FFFFF 0x000FFFFF (over 1023 KiB)' '100000 0x00100000 (1 MiB)' '100001 0x00100001 (over 1 MiB)' \
		'100400 0x00100400 (1025 KiB)' '1000000 0x01000000 (16 MiB)' '100000000 0x100000000 (4096 MiB)' \
		'FFFFFFFFFFFFFFFF 0xFFFFFFFFFFFFFFFF (over 17592186044415 MiB)'; do
		memory "0:0:${size%% *}" >"$i/d"
		works 0 map "$i/d"
		sed 's/.* size //' "$work/out" >"$work/sizes"
		echo "${size#* }" >"$work/wanted"
		same "$work/sizes" "$work/wanted"
	done
	memory 0:8000000000000000:8000000000000000 0:0:8000000000000000 >"$i/all"
	works 0 map "$i/all"
	prints 'free first 0x00000000 last 0xFFFFFFFFFFFFFFFF size 0x10000000000000000 (17592186044416 MiB)'
}

# ---- JSON ----

cat >"$work/map.py" <<'END'
import json, re, sys
document = json.load(sys.stdin)
for member in ("format", "tool", "files"):
    del document[member]
common = ["command", "file", "number", "name", "refusal"]
assert document["command"] == "map"
assert (document["number"] == 0) == (document["refusal"] is None)
if document["number"] != 0:
    assert list(document) == common, list(document)
    sys.exit(print("refused %d" % document["number"]))
assert list(document) == common + ["free", "reserved"], list(document)
address = re.compile("0x[0-9A-F]{8,17}$")
def words(span):
    assert list(span) == ["first", "last", "size"] and all(address.match(v) for v in span.values()), span
    size = int(span["size"], 16)
    assert size == int(span["last"], 16) - int(span["first"], 16) + 1 > 0, span
    unit = 20 if size % 1048576 == 0 or (size > 1048576 and size % 1024 != 0) else 10
    exact = "" if size % (1 << unit) == 0 else "over "
    text = "under 1 KiB" if size < 1024 else "%s%d %s" % (exact, size >> unit, "KiB" if unit == 10 else "MiB")
    return "first %(first)s last %(last)s size %(size)s" % span + " (%s)" % text
for span in document["free"]:
    print("free", words(span))
if not document["free"]:
    print("free none")
for block in document["reserved"]:
    assert list(block) == ["place", "start", "size", "taken"] and type(block["place"]) is int, block
    assert address.match(block["start"]) and address.match(block["size"]), block
    for span in block["taken"]:
        assert int(block["start"], 16) <= int(span["first"], 16), block
        assert int(span["last"], 16) < int(block["start"], 16) + int(block["size"], 16), block
        print("taken", words(span), "by the block at %d" % block["place"])
    if not block["taken"]:
        print("taken none by the block at %d" % block["place"])
END

# map_is FILE STATUS: the document of a map says what its lines say
map_is() { document_is map "$work/map.py" "$@"; }

try_map_json() {
	memory 0:1000:9000 5:5000:800 >"$i/d"
	works 0 map --json "$i/d"
	sed -i '2,7d' "$work/out"
	prints '{' "  \"file\": \"$i/d\"," '  "number": 0,' '  "name": "ACCEPTED",' '  "refusal": null,' '  "free": [' \
		'    {"first": "0x00001000", "last": "0x00004FFF", "size": "0x00004000"},' \
		'    {"first": "0x00005800", "last": "0x00009FFF", "size": "0x00004800"}' '  ],' '  "reserved": [' \
		'    {"place": 104, "start": "0x00005000", "size": "0x00000800", "taken": [{"first": "0x00005000", "last": "0x000057FF", "size": "0x00000800"}]}' \
		'  ]' '}'
	memory >"$i/d"
	works 0 map --json "$i/d"
	sed -i '2,7d' "$work/out"
	prints '{' "  \"file\": \"$i/d\"," '  "number": 0,' '  "name": "ACCEPTED",' '  "refusal": null,' '  "free": [],' '  "reserved": []' '}'
	for list in map all two; do map_is "$i/$list" 0; done
	map_is "$work/empty" 2
}

# the document of a place: of a size, of an image, and of each refusal, by the dump or by the image
try_place_json() {
	works 0 place --json "$i/map" 0x3001
	sed -i '2,7d' "$work/out"
	prints '{' "  \"file\": \"$i/map\"," '  "image": null,' '  "number": 0,' '  "name": "ACCEPTED",' '  "index": 0,' '  "refusal": null,' '  "size": 12289,' \
		'  "base": "0x00006000"' '}'
	works 0 place --json "$i/map" "$vendor"
	grep -qxF "  \"image\": \"$vendor\"," "$work/out" || fail "no image"
	grep -qxF '  "size": 8192,' "$work/out" || fail "no size"
	grep -qxF '  "base": "0x00002000"' "$work/out" || fail "no base"
	for words in "37 $i/map 26625" "36 $i/map 0" "32 $work/empty 1" "14 $i/map $refused"; do
		# shellcheck disable=SC2086
		try 2 place --json ${words#* }
		grep -qxF "  \"number\": ${words%% *}," "$work/out" || fail "not refused with ${words%% *}"
		! grep -q '^refused' "$work/out" || fail "a line beside the document"
		passed
	done
}

# ---- refusals ----

# stopped N TEXT: both commands refuse the dump with that number and text; 30 to 33 are told as handoff tells them
stopped() {
	number=$1
	told="$i/d: refused $1 $(name_of "$1")$2"
	for words in "map $i/d" "place $i/d 1"; do
		# shellcheck disable=SC2086
		try 2 $words
		prints "refused $number"
		says "$told"
	done
	map_is "$i/d" 2
}

try_map_refused() {
	: >"$i/d"
	stopped 32 " at 0: $rule_nothing: the file has 0 bytes"
	first >"$i/d"
	stopped 32 " at 56: $rule_nothing: the file has 56 bytes"
	{ first; header 2 12; header 0 0; } >"$i/d"
	stopped 30 " at 56: $rule_block: type 0x0002, length 12, 16 bytes left"
	{ block 2 56; end; } >"$i/d"
	stopped 31 " at 0: $rule_first: type 0x0002, length 56"
	# the list's own refusals come first
	{ first; range 0:FFFFFFFFFFFFFFFF:2; block 3 40; end; } >"$i/d"
	stopped 33 " at 104: $rule_kind: type 0x0003, length 40"
	memory 0:0:1000 1:FFFFFFFFFFFFFFFF:2 5:FFFFFFFFFFFFFFFF:1 >"$i/d"
	works 0 map "$i/d"
	memory 0:0:1000 1:FFFFFFFFFFFFFFFF:2 5:FFFFFFFFFFFFFFFF:2 0:2:FFFFFFFFFFFFFFFF >"$i/d"
	stopped 34 ": $rule_above: that of type 5 at 152 has start 0xFFFFFFFFFFFFFFFF, size 0x00000002"
	# 128 ranges, an empty one among them, then 129; 34 is looked for in all of them before 35
	for one in 0 1 2 3 4 5 6 7; do
		for two in 0 1 2 3 4 5 6 7 8 9 A B C D E F; do range "0:$one${two}00:80"; done
	done >"$work/128"
	{ first; cat "$work/128"; range 1:0:FFFFFF; end; } >"$i/d"
	works 0 map "$i/d"
	[ "$(grep -c '^free ' "$work/out")" -eq 128 ] || fail "not 128 free ranges"
	{ first; cat "$work/128"; range 5:0:0; end; } >"$i/d"
	stopped 35 ": $rule_many: it has 129"
	{ first; cat "$work/128"; range 5:1:FFFFFFFFFFFFFFFF; range 0:1:FFFFFFFFFFFFFFFF; end; } >"$i/d"
	stopped 35 ": $rule_many: it has 130"
	{ first; cat "$work/128"; range 5:0:0; range 0:8000000000000001:8000000000000000; end; } >"$i/d"
	stopped 34 ": $rule_above: that of type 0 at 6248 has start 0x8000000000000001, size 0x8000000000000000"
	rm "$work/128"
}

# ---- the place ----

try_place() {
	for case in '1 0x00002000' '4096 0x00002000' '0x1000 0x00002000' '0x3000 0x00002000' '0x3001 0x00006000' '0x6800 0x00006000' '26624 0x00006000'; do
		works 0 place "$i/map" "${case% *}"
		prints "${case#* }"
	done
	refuses 37 "$i/map" "$rule_nowhere: 26625 bytes, free ranges 3 (pajurenda map shows them)" place "$i/map" 26625
	for size in 0 16777217 0xFFFFFFFFFFFFFFFF; do
		refuses 36 "$i/map" "$rule_image: SIZE is $(printf %u "$size")" place "$i/map" "$size"
	done
	works 0 place "$i/all" 16777216
	prints 0x00000000
	# a free range of exactly the image at a start that is no multiple; one that crosses 4 GiB
	memory 0:1001:1000000 >"$i/d"
	refuses 37 "$i/d" "$rule_nowhere: 16777216 bytes, free ranges 1 (pajurenda map shows them)" place "$i/d" 16777216
	memory 0:1001:1000FFF >"$i/d"
	works 0 place "$i/d" 16777216
	prints 0x00002000
	memory 0:FFFFF000:2000 >"$i/d"
	works 0 place "$i/d" 4096
	prints 0xFFFFF000
	refuses 37 "$i/d" "$rule_nowhere: 4097 bytes, free ranges 1 (pajurenda map shows them)" place "$i/d" 4097
}

# an image is as long as its file, and must read
try_place_image() {
	works 0 place "$i/map" "$vendor"
	prints 0x00002000
	works 0 place "$i/all" "$work/large"
	prints 0x00000000
	refuses 37 "$i/map" "$rule_nowhere: 16777216 bytes, free ranges 3 (pajurenda map shows them)" place "$i/map" "$work/large"
	what='place for an image that does not read'
	try 2 read "$refused"
	cp "$work/out" "$work/told_out"
	cp "$work/err" "$work/told_err"
	try 2 place "$i/map" "$refused"
	same "$work/out" "$work/told_out"
	same "$work/err" "$work/told_err"
	cp "$vendor" "$i/4096"
	(cd "$i" && works 0 place map 4096 && prints 0x00002000 && works 0 place map ./4096 && prints 0x00002000)
	memory 0:1000:2000 >"$i/d"
	(cd "$i" && works 0 place d 4096 && prints 0x00001000 && works 0 place d ./4096 && prints 0x00001000)
	memory 0:1000:1000 >"$i/d"
	(cd "$i" && works 0 place d 4096 && try 2 place d ./4096)
	rm "$i/4096"
}

# what place shows is what release takes; where it is refused nothing is released
try_place_release() {
	works 0 release "$all" --owner=1 "$vendor" "$work/sheet" "$(run place "$i/map" "$vendor")" "$o/placed"
	works 0 read "$o/placed"
	grep -qx 'base 0x00002000' "$work/out" || fail "not at the base that place shows"
	passed
	cp "$work/old" "$o/placed"
	memory 0:1001:1000 >"$i/d"
	base=$(run place "$i/d" "$vendor" 2>/dev/null) && fail "a base where there is none"
	keeps "$o" try 2 release "$all" --owner=1 "$vendor" "$work/sheet" "$base" "$o/placed"
	# shellcheck disable=SC2086
	keeps "$o" try 2 release "$all" --owner=1 "$vendor" "$work/sheet" $base "$o/placed"
	rm "$o/placed"
}

# ---- words, files, output ----

try_map_words() {
	see_map='(see pajurenda map --help)'
	see_place='(see pajurenda place --help)'
	fails_with "pajurenda: map: DUMP is missing $see_map" map
	fails_with "pajurenda: map: one word too many: \"b\" $see_map" map "$i/map" b
	fails_with "pajurenda: map: takes no option --base $see_map" map --base 0x0 "$i/map"
	fails_with "pajurenda: place: DUMP and IMAGE|SIZE are missing $see_place" place
	fails_with "pajurenda: place: IMAGE|SIZE is missing $see_place" place "$i/map"
	fails_with "pajurenda: place: one word too many: \"c\" $see_place" place "$i/map" 1 c
	fails_with "pajurenda: place: takes no option --base $see_place" place --base 0x0 "$i/map" 1
	no_size='is not a number: write hex as 0x00512000, decimal without a leading 0'
	fails_with "pajurenda: place: SIZE \"64K\" $no_size" place "$i/map" 64K
	fails_with 'pajurenda: place: SIZE "010" starts with 0: write 0x010 for hex or 10 for decimal' place "$i/map" 010
	fails_with 'pajurenda: place: SIZE "18446744073709551616" does not fit 64 bits' place "$i/map" 18446744073709551616
	fails_with "pajurenda: $work/missing: No such file or directory" place "$i/map" "$work/missing"
	fails_with "pajurenda: $work/missing: No such file or directory" place "$work/missing" 1
	fails_with "pajurenda: $work/missing: No such file or directory" map "$work/missing"
	fails_with "pajurenda: $work/o: Is a directory" map --json "$work/o"
	try 2 map /dev/zero
	prints 'refused 30'
	says "/dev/zero: refused 30 BLOCK at 0: $rule_block: type 0x0000, length 0, more than 65535 bytes left"
	unheard map "$i/map"
	unheard map --json "$i/map"
	unheard map "$work/empty"
	unheard place "$i/map" 1
	unheard place --json "$i/map" 1
	unheard place "$i/map" 0
}

try_map
try_sizes
try_map_json
try_place_json
try_map_refused
try_place
try_place_image
try_place_release
try_map_words
rm "$i/map" "$i/all" "$i/two" "$i/d"
