# shellcheck shell=sh disable=SC2034,SC2154,SC2162,SC2164
# A release's record: what it has, how it goes on, and that verify plays it again, file by file and byte by byte.

# makes_record WORDS..: one release with its record
makes_record() { barely works 0 release "$@"; }

# two owners of the sample's region, a sheet of each, and the history of both: at 0x00512000, then at 0x00600000
make_history() {
	h=$work/h
	mkdir "$h" "$h/in" "$h/out"
	cd "$h"
	cp "$vendor" in/maker.bin
	printf '40 2 1\n100 4 1\n200 1 2\n300 3 2\n' >in/own
	{ cat "$work/bound" && printf '40 01 00\n100 AA BB CC DD\n'; } >in/one.text
	{ cat "$work/bound" && printf '200 F4\n300 11 22 33\n'; } >in/two.text
	barely works 0 sheet make in/maker.bin in/one.text in/one.sheet
	barely works 0 sheet make in/maker.bin in/two.text in/two.sheet
	makes_record --owners in/own --owner 1 in/maker.bin in/one.sheet 0x00512000 out/first.bin
	prints 'base 0x00512000' 'move -4289126400' 'entries 2' 'set 0x0028 at 4136: 01 05 -> 01 00, 0x0501 -> 0x0001' \
		'set 0x0064 at 4196: 7F A4 C9 EE -> AA BB CC DD, 0xEEC9A47F -> 0xDDCCBBAA' 'record step 1 out/first.bin.release.json'
	makes_record --owners in/own --owner 2 --after out/first.bin.release.json out/first.bin in/two.sheet 0x00600000 shipped.bin
	[ "$(tail -n 1 "$work/out")" = 'record step 2 shipped.bin.release.json' ] || fail "no record told"
	passed
}

# every member, by another reader of JSON and another maker of digests
try_contents() {
	if ! command -v python3 >/dev/null; then
		not_run="$not_run; records read by Python (none here)"
		return
	fi
	python3 - "$h" <<'PYTHON' || fail "a record has other members or values"
import hashlib, json, os, sys
def held(folder, filed):
    bytes = open(os.path.join(folder, filed["file"]), "rb").read()
    assert filed["length"] == len(bytes) and filed["sha256"] == hashlib.sha256(bytes).hexdigest(), filed
top = sys.argv[1]
for name, steps in (("out/first.bin.release.json", 1), ("shipped.bin.release.json", 2)):
    path = os.path.join(top, name)
    text = open(path, "rb").read()
    record = json.loads(text)
    folder = os.path.dirname(path)
    assert list(record) == ["record", "format", "tool", "proved_with", "maker", "identity", "revision", "extended", "version", "base", "steps",
                            "record_sha256"], list(record)
    assert record["record"] == "pajurenda release" and record["format"] == 1
    assert (record["identity"], record["revision"], record["extended"], record["base"]) == ("54524541542D3031", "0x01020304", "0x0000", "0xFFF80000")
    held(folder, record["maker"])
    assert len(record["steps"]) == steps
    for number, step in enumerate(record["steps"], 1):
        assert list(step) == ["step", "time", "tool", "sheet", "owners", "owner", "names", "base_before", "base_after", "entries", "not_walked",
                              "result", "replaced"], list(step)
        assert step["step"] == number and step["owner"] == number and step["replaced"] is None and step["names"] is None
        for filed in ("sheet", "owners", "result"):
            held(folder, step[filed])
    assert record["steps"][0]["entries"] == [
        {"offset": "0x0028", "place": 4136, "old": "0105", "new": "0100", "names": None},
        {"offset": "0x0064", "place": 4196, "old": "7FA4C9EE", "new": "AABBCCDD", "names": None}]
    assert [s["base_after"] for s in record["steps"]] == ["0x00512000", "0x00600000"][:steps]
    at = text.rindex(b',\n  "record_sha256"')
    assert record["record_sha256"] == hashlib.sha256(text[:at]).hexdigest()
PYTHON
	passed
}

set_40='set 0x0028 at 4136: 01 05 -> 01 00, 0x0501 -> 0x0001'
set_100='set 0x0064 at 4196: 7F A4 C9 EE -> AA BB CC DD, 0xEEC9A47F -> 0xDDCCBBAA'
set_200='set 0x00C8 at 4296: F3 -> F4'
set_300='set 0x012C at 4396: 67 8C B1 -> 11 22 33'

# as released, from any folder, with files that were moved together, and with files moved beside the record
try_played() {
	for folder in . out / ; do
		cd "$h/$folder"
		works 0 verify "$h/shipped.bin.release.json" "$h/shipped.bin"
		cd "$h"
	done
	works 0 verify shipped.bin.release.json shipped.bin
	prints 'verdict as released' "maker's image by shipped.bin.release.json" 'record steps 2 shipped.bin.release.json' 'base 0x00600000' \
		'base wanted 0x00600000 by the record' 'move -4288151552' 'sheet 1 entries 2 owner 1 in/one.sheet' "$set_40" "$set_100" \
		'sheet 2 entries 2 owner 2 in/two.sheet' "$set_200" "$set_300" 'changed 0x0029 at 4137: 05 -> 00, sheet 1 entry 0 owner 1' \
		'changed 0x0064 at 4196: 7F A4 C9 EE -> AA BB CC DD, 0xEEC9A47F -> 0xDDCCBBAA, sheet 1 entry 1 owner 1' \
		'changed 0x00C8 at 4296: F3 -> F4, sheet 2 entry 0 owner 2' 'changed 0x012C at 4396: 67 8C B1 -> 11 22 33, sheet 2 entry 1 owner 2' \
		"settings 0 $of_release" 'strays 0' 'bits 0'
	cp -r "$h" "$work/elsewhere"
	works 0 verify "$work/elsewhere/shipped.bin.release.json" "$work/elsewhere/shipped.bin"
	cp in/* out
	cp shipped.bin.release.json "$work/flat.json"
	mkdir "$work/flat"
	cp in/* shipped.bin shipped.bin.release.json "$work/flat"
	works 0 verify "$work/flat/shipped.bin.release.json" "$work/flat/shipped.bin"
	rm -r "$work/flat" "$work/elsewhere"
	(cd out && rm maker.bin own one.text two.text one.sheet two.sheet)
	works 0 audit shipped.bin.release.json shipped.bin
	[ "$(sed -n 3p "$work/out")" = "settings 9 $of_maker" ] || fail "an audit by the record"
	passed
}

# the slips that went green before
try_slips() {
	works 0 release --owners in/own --owner 1 shipped.bin "$work/nothing" 0x00700000 wrong_base.bin
	works 1 verify shipped.bin.release.json wrong_base.bin
	[ "$(sed -n 5p "$work/out")" = 'base wanted 0x00600000 by the record, not held' ] || fail "another base goes"
	works 0 verify in/maker.bin in/one.sheet in/two.sheet wrong_base.bin
	[ "$(sed -n 1p "$work/out")" = 'verdict as released, owners and base not checked' ] || fail "what was not checked"
	works 1 verify --base 0x00600000 in/maker.bin in/one.sheet in/two.sheet wrong_base.bin
	works 0 verify --base 0x00700000 --owners in/own in/maker.bin --owner 1 in/one.sheet --owner 2 in/two.sheet wrong_base.bin
	[ "$(sed -n 1p "$work/out")" = 'verdict as released' ] || fail "all was checked"
	refuses_words 24 verify --owners in/own --owner 1 in/maker.bin in/one.sheet in/two.sheet shipped.bin
	refuses_words 24 verify --owners in/own in/maker.bin --owner 2 in/one.sheet --owner 1 in/two.sheet shipped.bin
	works 1 verify shipped.bin.release.json out/first.bin
	[ "$(sed -n 2p "$work/out")" = 'the file is what step 1 of the record made' ] || fail "which image it is"
	try 1 verify shipped.bin.release.json in/maker.bin
	grep -qx "the file is the record's maker's image" "$work/out" || fail "which image it is"
	try 0 audit shipped.bin in/maker.bin
	tells 'shipped.bin is given as the maker'\''s image, but shipped.bin.release.json has made it: it is a released image'
	try 0 audit in/maker.bin in/maker.bin
	grep -q 'are the same bytes: the maker' "$work/notes" || fail "the same bytes twice"
	works 0 release --owners in/own --owner 1 shipped.bin "$work/nothing" 0xFFF80000 back.bin
	try 0 audit back.bin shipped.bin
	tells "back.bin is given as the maker's image, but isn't that of shipped.bin.release.json, and has the settings of its result"
	works 0 release --owners in/own --owner 1 in/maker.bin "$work/nothing" 0x00600000 there.bin
	try 0 audit there.bin shipped.bin
	tells "there.bin is given as the maker's image, but isn't that of shipped.bin.release.json, and has the base of its result"
	cp in/maker.bin kept
	for file in back.bin:settings there.bin:base; do
		cp "${file%:*}" in/maker.bin
		errs "; it has the ${file#*:} of the record's result, so it may be a released image" verify shipped.bin.release.json shipped.bin
	done
	mv kept in/maker.bin
	rm back.bin there.bin
	works 0 audit in/maker.bin shipped.bin
	[ "$(sed -n 1p "$work/out")" = "maker's image by shipped.bin.release.json" ] || fail "who vouches"
	passed
}

refuses_words() {
	number=$1
	shift
	try 2 "$@"
	prints "refused $number"
}

# one --owner for all, before or after everything; several, each before the sheets that it is for
try_owner_words() {
	see_verify='(see pajurenda verify --help)'
	works 0 verify --owners in/own in/maker.bin in/one.sheet out/first.bin --owner 1
	works 0 verify --owners in/own in/maker.bin --owner 1 in/one.sheet out/first.bin
	fails_with "pajurenda: verify: no --owner stands before in/one.sheet: --owner N goes before each sheet that it is for, or once for all $see_verify" \
		verify --owners in/own in/maker.bin in/one.sheet --owner 2 in/two.sheet shipped.bin
	fails_with "pajurenda: verify: --owner 1 stands before no sheet $see_verify" \
		verify --owners in/own in/maker.bin --owner 1 --owner 2 in/one.sheet in/two.sheet shipped.bin
	fails_with "pajurenda: verify: --owner 2 stands before no sheet $see_verify" \
		verify --owners in/own in/maker.bin --owner 1 in/one.sheet in/two.sheet --owner 2 shipped.bin
	fails_with "pajurenda: release: --owner is given twice (see pajurenda release --help)" \
		release --owners in/own --owner 1 --owner 2 in/maker.bin in/one.sheet keep new.bin
	fails_with "pajurenda: verify: a record has its own owners: --owners and --owner go with sheets $see_verify" \
		verify --owners in/own --owner 1 shipped.bin.release.json shipped.bin
	fails_with "pajurenda: verify: --base 0x1000 is not the base of the record, 0x00600000 $see_verify" \
		verify --base 0x1000 shipped.bin.release.json shipped.bin
	works 0 verify --base 0x600000 shipped.bin.release.json shipped.bin
	fails_with "pajurenda: verify: in/maker.bin is no release record, and without one three words or more are wanted: VENDOR SHEET.. SHIPPED $see_verify" \
		verify in/maker.bin shipped.bin
}

# the record before: wanted of a released image, and the one that made it
try_after() {
	keeps "$h" barely errs 'out/first.bin is a released image, no maker'\''s: out/first.bin.release.json has made it; go on with that record by --after' \
		release --owners in/own --owner 2 out/first.bin in/two.sheet keep new.bin
	keeps "$h" barely errs "; it is what its step 1 made" release --owners in/own --owner 2 --after shipped.bin.release.json out/first.bin in/two.sheet keep new.bin
	keeps "$h" barely errs "; it is the maker's image of that record, so --after goes without" \
		release --owners in/own --owner 2 --after shipped.bin.release.json in/maker.bin in/two.sheet keep new.bin
	keeps "$h" barely errs 'in/own: it is no release record' release --owners in/own --owner 1 --after in/own in/maker.bin in/one.sheet keep new.bin
	keeps "$h" barely errs '--no-record goes with neither --record nor --after' release --owners in/own --owner 1 --no-record --record r in/maker.bin in/one.sheet keep new.bin
	keeps "$h" barely errs 'the record to write is the record of --after itself, which would be lost: name another by --record FILE' \
		release --owners in/own --owner 2 --replace --after shipped.bin.release.json shipped.bin in/two.sheet keep shipped.bin
	cp out/first.bin.release.json kept
	flip out/first.bin.release.json 400 400
	keeps "$h" barely errs "it isn't as it was written" release --owners in/own --owner 2 out/first.bin in/two.sheet keep new.bin
	mv kept out/first.bin.release.json
	makes_record --owners in/own --owner 1 --record r.json in/maker.bin in/one.sheet keep new.bin
	[ ! -e new.bin.release.json ] || fail "a second record"
	works 0 verify r.json new.bin
	barely works 0 release --owners in/own --owner 1 --no-record in/maker.bin in/one.sheet keep none.bin
	[ ! -e none.bin.release.json ] || fail "a record that nobody wanted"
	same new.bin none.bin
	rm r.json new.bin none.bin
}

# names of files with any signs that UTF-8 has; others have no place in a record
try_odd_names() {
	cp in/one.sheet "$(printf 'in/\303\251 "q" \\ .sheet')"
	makes_record --owners in/own --owner 1 in/maker.bin "$(printf 'in/\303\251 "q" \\ .sheet')" keep odd.bin
	works 0 verify odd.bin.release.json odd.bin
	bad=$(printf 'in/\377.sheet')
	cp in/one.sheet "$bad"
	keeps "$h" barely errs 'is not UTF-8 or can'\''t be found, so no record can name it; rename it, or give --no-record' \
		release --owners in/own --owner 1 in/maker.bin "$bad" keep worse.bin
	barely works 0 release --owners in/own --owner 1 --no-record in/maker.bin "$bad" keep worse.bin
	rm odd.bin odd.bin.release.json worse.bin "$bad" in/*q*
}

# a file that isn't as recorded is named, with its step; nothing is compared then
try_unrecorded() {
	for file in in/maker.bin:"the maker's image in/maker.bin" in/one.sheet:'step 1: the sheet in/one.sheet' \
		in/own:'step 1: the owner list in/own' in/two.sheet:'step 2: the sheet in/two.sheet'; do
		name=${file%%:*}
		cp "$name" kept
		printf 'x' >>"$name"
		errs "pajurenda: shipped.bin.release.json: ${file#*:} isn't as recorded: SHA-256 $(digest_of "$name"), recorded $(digest_of kept)" \
			verify shipped.bin.release.json shipped.bin
		mv "$name" gone
		errs "${file#*:} can't be had, so nothing was checked" verify shipped.bin.release.json shipped.bin
		rm gone
		mv kept "$name"
	done
	barely errs 'it is no release record' release --owners in/own --owner 1 --after in/maker.bin in/maker.bin in/one.sheet keep x
}

# forged CHANGE: the record with a text in it changed, and its digest made again
forged() {
	python3 -c 'import hashlib, re, sys
text = open("shipped.bin.release.json", "rb").read()
at = text.rindex(b",\n  \"record_sha256\"")
old, new = (word.encode() for word in sys.argv[1:3])
assert old in text[:at], old
text = text[:at].replace(old, new, 1)
open("forged.json", "wb").write(text + b",\n  \"record_sha256\": \"" + hashlib.sha256(text).hexdigest().encode() + b"\"\n}\n")' "$1" "$2" || fail "no forged record"
}

# a record that contradicts itself, whoever wrote it: another owner, another base, another result, another format
try_forged() {
	command -v python3 >/dev/null || return 0
	forged '"owner": 1' '"owner": 2'
	refuses_words 24 verify forged.json shipped.bin
	forged '"base_after": "0x00512000"' '"base_after": "0x00513000"'
	errs 'pajurenda: forged.json: step 1: what it makes isn'\''t as recorded: SHA-256 ' verify forged.json shipped.bin
	forged "\"sha256\": \"$(digest_of out/first.bin)\"" "\"sha256\": \"$(digest_of shipped.bin)\""
	errs 'pajurenda: forged.json: step 1: what it makes isn'\''t as recorded: SHA-256 ' verify forged.json shipped.bin
	forged '"base_after": "0x00600000"' '"base_after": "0x00601000"'
	errs 'pajurenda: forged.json: step 2: what it makes isn'\''t as recorded: SHA-256 ' verify forged.json shipped.bin
	forged '"format": 1' '"format": 2'
	errs "its format is another than this tool's, which is 1" verify forged.json shipped.bin
	forged '"owner": 1,' '"owner": 1, "owner": 1,'
	errs "it isn't a whole release record" verify forged.json shipped.bin
	forged '"time": ' '"when": '
	errs "it isn't a whole release record" verify forged.json shipped.bin
	rm forged.json
}

# any byte of a record changed, cut off or added: it isn't the record any more
try_changed_record() {
	length=$(wc -c <shipped.bin.release.json)
	for at in $(awk -v seed="$seed" -v size="$length" 'BEGIN { srand(seed); for (n = 0; n < 60; n++) printf "%d ", rand() * size }') 0 1 "$((length - 1))" \
		"$((length - 2))" "$((length - 10))"; do
		cp shipped.bin.release.json t.json
		flip t.json "$at" "$at"
		try 2 verify t.json shipped.bin
		grep -q -e "it isn't as it was written" -e 'it is no release record' -e 'is no release record' -e 'its format is another' "$work/err" || fail "a record with byte $at changed"
		passed
	done
	head -c "$((length - 1))" shipped.bin.release.json >t.json
	errs "it isn't as it was written" verify t.json shipped.bin
	{ cat shipped.bin.release.json && echo; } >t.json
	errs "it isn't as it was written" verify t.json shipped.bin
	rm t.json
}

make_history
try_contents
try_played
try_slips
try_owner_words
try_after
try_odd_names
try_unrecorded
try_forged
try_changed_record
cd "$root"
