# shellcheck shell=sh disable=SC2034,SC2154,SC2162,SC2164
# Many boards: records in lists, and the history of a folder.

make_boards() {
	b=$work/b
	mkdir "$b" "$b/in"
	cd "$b"
	cp "$vendor" in/maker.bin
	printf 'TREAT-01\004\003\002\001\001\000\000\000\052\000\000\000\002\000\030\000\007\010' >in/other.sheet
	barely works 0 release "$all" --owner 1 in/maker.bin "$work/sheet" 0x00100000 one.bin
	barely works 0 release "$all" --owner 1 in/maker.bin "$work/sheet" 0x00200000 two.bin
	barely works 0 release "$all" --owner 1 --after two.bin.release.json two.bin in/other.sheet 0x00300000 three.bin
}

# records in the lists of verify and audit
try_record_lists() {
	printf '%s\n' 'one.bin.release.json one.bin' 'three.bin.release.json three.bin' 'three.bin.release.json two.bin' "in/maker.bin $work/sheet one.bin" >list
	works 1 verify --list list
	prints 'line 1 as released base 0x00100000 settings 0 strays 0 bits 0 one.bin.release.json one.bin' \
		'line 2 as released base 0x00300000 settings 0 strays 0 bits 0 three.bin.release.json three.bin' \
		'line 3 not as released base 0x00200000 settings 2 strays 0 bits 6 three.bin.release.json two.bin' \
		"line 4 as released base 0x00100000 settings 0 strays 0 bits 0 in/maker.bin $work/sheet one.bin" \
		'pairs 4 as released 3 not as released 1 refused 0 failed 0' "$unbased"
	printf '%s\n' 'one.bin.release.json one.bin' 'in/maker.bin two.bin' >list
	works 0 audit --list list
	prints 'line 1 explained base 0x00100000 settings 1 strays 0 bits 2 one.bin.release.json one.bin' \
		'line 2 explained base 0x00200000 settings 1 strays 0 bits 2 in/maker.bin two.bin' 'pairs 2 explained 2 unexplained 0 refused 0 failed 0' "$unchecked"
	printf '%s\n' 'missing.json one.bin' 'one.bin.release.json one.bin' >list
	try 2 verify --list list
	[ "$(sed -n 2p "$work/out")" = 'line 2 as released base 0x00100000 settings 0 strays 0 bits 0 one.bin.release.json one.bin' ] || fail "a missing record stops the next"
	rm list
	passed
}

# the document of a history as its lines
cat >"$work/history.py" <<'END'
import json, sys
d = json.load(open(sys.argv[1], encoding="ascii"))
assert list(d)[4:] == ["folder", "boards", "makers", "not_read", "count", "not_as_recorded", "failed"], list(d)
apart = lambda text: " ".join(text[i:i + 2] for i in range(0, len(text), 2))
label = lambda one: "".join(" " + one[key] for key in ("name", "bytes_words") if one.get(key))
for board in d["boards"]:
    print("board %d %s\n  image %s, %s" % (board["board"], board["record"], board["image"]["file"], board["standing"]))
    print("  maker's image %s %s" % (board["maker"]["sha256"], board["maker"]["file"]))
    print("  base %s, maker's %s" % (board["base"], board["makers_base"]))
    for step in board["steps"]:
        print("  step %d %s owner %d base %s sheet %s" % (step["step"], step["time"], step["owner"], step["base"], step["sheet"]["file"]))
    for one in board["settings"]:
        assert len(one["bytes"]) == 2 * one["length"], one
        print("  setting 0x%04X %s%s" % (one["offset"], apart(one["bytes"]), label(one)))
for maker in d["makers"]:
    print("maker's image %s boards %s" % (maker["sha256"], " ".join(str(one["board"]) for one in maker["bases"])))
    bases = len({one["base"] for one in maker["bases"]}) > 1
    if bases:
        print("  differ in the base: " + ", ".join("board %d at %s" % (one["board"], one["base"]) for one in maker["bases"]))
    for run in maker["differ"]:
        assert all(len(one["bytes"]) == 2 * run["length"] for one in run["each"]), run
        print("  differ at 0x%04X%s: %s" % (run["offset"], label(run), ", ".join("board %d has %s" % (one["board"], apart(one["bytes"])) for one in run["each"])))
    if not bases and not maker["differ"]:
        print("  alike in base and settings")
assert d["count"] == len(d["boards"]) and d["failed"] == len(d["not_read"])
print("boards %d images not as recorded %d records not to be read %d" % (d["count"], d["not_as_recorded"], d["failed"]))
END

# history_said STATUS FOLDER: the document of a history says what its lines say, and has the digest of every file that was read
history_said() {
	try "$1" history "$2"
	cp "$work/out" "$work/wanted_lines"
	cp "$work/err" "$work/wanted_words"
	try "$1" history --json "$2"
	same "$work/err" "$work/wanted_words"
	[ -n "$python" ] || return 0
	cp "$work/out" "$work/document"
	"$python" -I -S "$work/history.py" "$work/document" >"$work/out" 2>"$work/err" || fail "no such document"
	same "$work/out" "$work/wanted_lines"
	"$python" -I -S -c 'import hashlib, json, sys
for one in json.load(open(sys.argv[1]))["files"]:
    held = open(one["file"], "rb").read()
    assert one["length"] == len(held) and one["sha256"] == hashlib.sha256(held).hexdigest(), one' "$work/document" 2>"$work/err" || fail "another file or digest"
	passed
}

try_history() {
	history_said 0 .
	works 0 history .
	grep -v '^  step ' "$work/out" >"$work/steady"
	maker=$(digest_of "$vendor")
	lines 'board 1 ./one.bin.release.json' '  image one.bin, as recorded' "  maker's image $maker in/maker.bin" "  base 0x00100000, maker's 0xFFF80000" \
		'  setting 0x0028 01 00' 'board 2 ./three.bin.release.json' '  image three.bin, as recorded' "  maker's image $maker in/maker.bin" \
		"  base 0x00300000, maker's 0xFFF80000" '  setting 0x0028 01 00 07 08' 'board 3 ./two.bin.release.json' '  image two.bin, as recorded' \
		"  maker's image $maker in/maker.bin" "  base 0x00200000, maker's 0xFFF80000" '  setting 0x0028 01 00' "maker's image $maker boards 1 2 3" \
		'  differ in the base: board 1 at 0x00100000, board 2 at 0x00300000, board 3 at 0x00200000' \
		"  differ at 0x002A: board 1 has $(bytes_at "$vendor" 4138 2), board 2 has 07 08, board 3 has $(bytes_at "$vendor" 4138 2)" \
		'boards 3 images not as recorded 0 records not to be read 0'
	same "$work/steady" "$work/wanted"
	[ "$(grep -c '^  step [12] 20..-..-..T..:..:..Z owner 1 base 0x00[123]00000 sheet ' "$work/out")" -eq 4 ] || fail "other steps"
	flip three.bin 5 5
	rm two.bin
	history_said 1 .
	barely works 1 history --report page.html .
	grep -qx '  image three.bin, not as recorded' "$work/out" || fail "an image that isn't as recorded"
	grep -qx '  image two.bin, not there' "$work/out" || fail "an image that isn't there"
	grep -q '<strong>not as recorded</strong>' page.html || fail "the page's image"
	grep -q 'Board 2: 07 08' page.html || fail "where the page has them differ"
	barely errs 'page.html is there already: ' history --report page.html .
	keeps "$b" barely errs 'itself, a record, which would be lost' history --replace --report one.bin.release.json .
	flip one.bin.release.json 300 300
	history_said 2 .
	[ -z "$python" ] || grep -qxF '  "not_read": ["./one.bin.release.json"],' "$work/document" || fail "the record that can't be read"
	try 2 history .
	tells "one.bin.release.json: it isn't as it was written"
	[ "$(tail -n 1 "$work/out")" = 'boards 2 images not as recorded 1 records not to be read 1' ] || fail "other counts"
	fails_with "pajurenda: history: in has no release record (see pajurenda history --help)" history in
	fails_with 'pajurenda: missing: No such file or directory' history missing
	passed
}

# settings by the names that the record has
try_named_history() {
	mkdir named
	printf 'identity 54524541542D3031\nrevision 0x01020304\nfind %s\n0x28 2 SlotCount "Slots"\n  choice 0x0001 "One"\n' "$(bytes_at "$vendor" 4096 8 | tr -d " ")" >in/names
	got=0
	run setting --names in/names in/maker.bin SlotCount >"$work/out" 2>"$work/err" || got=$?
	what='setting by a name'
	[ "$got" -eq 0 ] || fail "the names for this test"
	barely works 0 release "$all" --owner 1 --names in/names in/maker.bin "$work/sheet" keep named/board.bin
	grep -qF '"names": [{"name": "SlotCount", "offset": "0x0028", "length": 2, "old_words": null, "new_words": "One"}]' named/board.bin.release.json ||
		fail "the record has other names"
	grep -qF '"names": {"file": "../in/names", "length": ' named/board.bin.release.json || fail "the record has no file of names"
	works 0 verify named/board.bin.release.json named/board.bin
	history_said 0 named
	works 0 history named
	grep -qx '  setting 0x0028 01 00 SlotCount One' "$work/out" || fail "no name in the history"
	passed
}

make_boards
try_record_lists
try_history
try_named_history
cd "$root"
