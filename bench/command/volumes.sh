# shellcheck shell=sh disable=SC2034,SC2154,SC2162,SC2164
# What the library doesn't walk is said: further volumes, files of several components, tables before the patch table.

# fill COUNT OCTAL: so many bytes
fill() { head -c "$1" /dev/zero | tr '\000' "$2"; }

# the sample with a second volume of 4096 bytes and 100 bytes after it, which its header counts in
make_two_volumes() {
	v=$work/v
	mkdir "$v"
	cd "$v"
	cp "$vendor" two.bin
	fill 4196 '\000' >>two.bin
	poke two.bin 124 '\144\060\000\000'
	poke two.bin 8224 '\000\020\000\000\000\000\000\000_FVH'
}

volume_2='volume 2 at 8192 length 4096, not walked: a move leaves it as it is'
rest='bytes at 12288 length 100, in no volume, not walked: a move leaves it as it is'

try_read_volumes() {
	works 0 read two.bin
	[ "$(sed -n 12,14p "$work/out")" = "volume 1 at 0 length 8192
$volume_2
$rest" ] || fail "other volumes"
	works 0 read --json two.bin
	grep -qxF '  "volumes": [{"what": "volume", "place": 0, "length": 8192}, {"what": "volume", "place": 8192, "length": 4096}, {"what": "bytes", "place": 12288, "length": 100}],' "$work/out" ||
		fail "other volumes in the document"
	passed
	changed two.bin far.bin 8224 255
	works 0 read far.bin
	grep -qx 'volume 2 at 8192 length 4196, not walked: a move leaves it as it is' "$work/out" || fail "a volume that says more than is left"
	fill 8 '\000' | cat "$vendor" - >loose.bin
	poke loose.bin 124 '\010\040\000\000'
	works 0 read loose.bin
	grep -qx 'bytes at 8192 length 8, in no volume, not walked: a move leaves it as it is' "$work/out" || fail "bytes after the volume"
	passed
}

# a release says which volumes stay, on standard error and in the record; ranges say where they lie
try_release_volumes() {
	barely try 0 release "$all" --owner 1 two.bin "$work/nothing" 0x00100000 moved.bin
	says 'pajurenda: release: two.bin has more than one volume, and a move walks the first: volume 2 at 8192 length 4096 stays as it is, at the old base'
	grep -qF '"not_walked": [{"what": "volume", "place": 8192, "length": 4096}, {"what": "bytes", "place": 12288, "length": 100}]' moved.bin.release.json ||
		fail "the record has other volumes"
	works 0 verify moved.bin.release.json moved.bin
	cp moved.bin odd.bin
	flip odd.bin 0 0
	flip odd.bin 8300 8301
	flip odd.bin 12290 12290
	works 1 audit --ranges two.bin odd.bin
	[ "$(sed -n 5,7p "$work/out")" = 'X 0..0 length 1 elsewhere
X 8300..8301 length 2 in volume 2
X 12290..12290 length 1 after the volume' ] || fail "other places"
	works 1 audit --json --report page.html two.bin odd.bin
	grep -q '"place": "in volume", "offset": null, "index": 2,' "$work/out" || fail "the document's place"
	grep -q 'in volume 2' page.html || fail "the page's place"
	passed
}

# a ROM: FF, the sample, the sample as component I, FF
make_whole() {
	poked "$vendor" I.bin 135 '\100' 4103 'I'
	{ fill 4096 '\377' && cat "$vendor" I.bin && fill 512 '\377'; } >whole.rom
	told_parts='; components lie in it: T at 4096 length 8192, I at 12288 length 8192; pajurenda split FILE FOLDER writes each as a file of its own'
}

try_refused_whole() {
	try 2 read whole.rom
	prints 'refused 2'
	tells "the file has 20992 bytes$told_parts"
	cat "$vendor" I.bin >both.fd
	refuses 6 both.fd "header says 8192 bytes, the file has 16384; components lie in it: T at 0 length 8192, I at 8192 length 8192; pajurenda split FILE FOLDER writes each as a file of its own" \
		read both.fd
	fill 1000 '\000' | cat "$vendor" - >padded.fd
	refuses 6 padded.fd 'header says 8192 bytes, the file has 9192; components lie in it: T at 0 length 8192; pajurenda split FILE FOLDER writes each as a file of its own' read padded.fd
	refuses 6 whole_shipped 'header says 8192 bytes, the file has 16384; components lie in it: T at 0 length 8192, I at 8192 length 8192; pajurenda split FILE FOLDER writes each as a file of its own' \
		audit "$(cp both.fd whole_shipped && echo whole_shipped)" "$shipped"
}

identity='identity 54524541542D3031 "TREAT-01" version 1.2.3.4'

# parts_said WORDS..: the document of a split or a join says what its lines said, whose copy is in parts_lines; every digest is that of its file
parts_said() {
	works 0 "$@" --json
	[ -n "$python" ] || return 0
	"$python" -I -S -c 'import hashlib, json, sys
d = json.load(open(sys.argv[1], encoding="ascii"))
digest = lambda name: hashlib.sha256(open(name, "rb").read()).hexdigest()
rows = []
for part in d["components"]:
    where = "component %s at %d length %d base " % (part["component"], part["place"], part["length"])
    if d["command"] == "split":
        assert part["sha256"] == digest(part["out"]), part
        text = "" if part["identity_text"] is None else " \"%s\"" % part["identity_text"]
        rows.append((part["place"], "%s %s%s identity %s%s version %s" % (part["out"], where, part["base"], part["identity"], text, part["version"])))
    else:
        rows.append((len(rows), "%s%s -> %s %s" % (where, part["replaces_base"], part["base"], part["file"])))
if d["command"] == "join":
    assert d["sha256"] == digest(d["out"]) and d["length"] == len(open(d["out"], "rb").read()), d
for rest in d.get("left_over", ()):
    rows.append((rest["place"], "left over at %d length %d%s" % (rest["place"], rest["length"], "" if rest["all"] is None else ", all " + rest["all"])))
assert all(one["sha256"] == digest(one["file"]) for one in d["files"]) and d["files"][0]["file"] == d["file"]
print("\n".join(row for _, row in sorted(rows)))' "$work/out" >"$work/again" 2>"$work/err" || fail "no such document"
	same "$work/again" "$work/parts_lines"
}

try_split() {
	mkdir parts
	barely works 0 split whole.rom parts
	prints 'left over at 0 length 4096, all FF' "parts/1-T.fd component T at 4096 length 8192 base 0xFFF80000 $identity" \
		"parts/2-I.fd component I at 12288 length 8192 base 0xFFF80000 $identity" 'left over at 20480 length 512, all FF'
	same parts/1-T.fd "$vendor"
	same parts/2-I.fd I.bin
	cp "$work/wanted" "$work/parts_lines"
	barely parts_said split --replace whole.rom parts
	keeps "$v" barely errs 'parts/1-T.fd is there already: an image' split whole.rom parts
	rm parts/1-T.fd
	keeps "$v" barely errs 'parts/2-I.fd is there already: an image' split whole.rom parts
	barely works 0 split --replace whole.rom parts
	mkdir own
	cp whole.rom own/1-T.fd
	keeps "$v" barely errs 'own/1-T.fd is FILE itself, which would be lost: name another FOLDER' split --replace own/1-T.fd own
	rm -r own
	fails_with 'pajurenda: missing: No such file or directory' split whole.rom missing
	fails_with 'pajurenda: whole.rom: Not a directory' split whole.rom whole.rom
	fails_with "pajurenda: split: $work/old: at no place where a volume starts the library reads a component (see pajurenda split --help)" split "$work/old" parts
	fill 300 '\125' >odd
	cat odd "$vendor" odd >odd.rom
	errs 'at no place where a volume starts the library reads a component' split odd.rom parts
}

try_join() {
	barely works 0 release --no-record "$all" --owner 1 parts/1-T.fd "$work/sheet" 0x00100000 T.released
	barely works 0 join whole.rom T.released joined.rom
	prints 'component T at 4096 length 8192 base 0xFFF80000 -> 0x00100000 T.released'
	cp "$work/wanted" "$work/parts_lines"
	{ fill 4096 '\377' && cat T.released I.bin && fill 512 '\377'; } >wanted.rom
	same joined.rom wanted.rom
	barely parts_said join --replace whole.rom T.released joined.rom
	same joined.rom wanted.rom
	barely works 0 join --replace whole.rom parts/2-I.fd T.released joined.rom
	same joined.rom wanted.rom
	barely works 0 join --replace joined.rom parts/1-T.fd joined_again.rom
	same joined_again.rom whole.rom
	keeps "$v" barely errs 'joined.rom is there already: ' join whole.rom T.released joined.rom
	keeps "$v" barely errs 'OUT is FILE itself, which would be lost' join --replace whole.rom T.released ./whole.rom
	keeps "$v" barely errs 'OUT is a COMPONENT itself, which would be lost' join --replace whole.rom T.released T.released
	keeps "$v" barely errs 'goes where another component of this call is' join whole.rom T.released parts/1-T.fd new.rom
	keeps "$v" barely errs "two.bin is not as long as its component in whole.rom, so nothing is joined" join whole.rom two.bin new.rom
	changed "$vendor" other.bin 112 9
	keeps "$v" barely errs 'other.bin has no place: no component of whole.rom has its letter, identity, revision and extended number' join whole.rom other.bin new.rom
	cat whole.rom whole.rom >twice.rom
	keeps "$v" barely errs 'T.released could go to several places: twice.rom has more than one such component' join twice.rom T.released new.rom
	keeps "$v" refuses_words 2 join whole.rom whole.rom new.rom
	try 2 join --json whole.rom whole.rom new.rom
	[ -z "$python" ] || "$python" -I -S -c 'import json, sys
d = json.load(open(sys.argv[1]))
assert list(d)[4:] == ["number", "name", "index", "refusal"] and d["number"] == 2 and "components lie in it" in d["refusal"]["values"], d' "$work/out" 2>"$work/err" || fail "another refusal"
	for words in 'split odd parts' 'join whole.rom two.bin new.rom'; do
		# shellcheck disable=SC2086
		try 2 $words --json
		prints
	done
	fails_with 'pajurenda: join: three words or more are wanted: FILE COMPONENT.. OUT, not 2 (see pajurenda join --help)' join whole.rom T.released
}

# the words of refusals: a table before the patch table, a word in the free end, the OEM's component
try_words_of_refusals() {
	poked "$vendor" table.bin 175 'D'
	values 9 table.bin 'mark "FSPD" at p 172: another table stands there, and no FSPP after it, the section ends at 200' read table.bin
	poked table.bin tables.bin 184 'FSPP'
	values 9 tables.bin 'mark "FSPD" at p 172: another table stands before FSPP at 184, the section ends at 200' read tables.bin
	poked "$vendor" oem.bin 135 '\200'
	values 7 oem.bin 'it is 8, OEM' read oem.bin
	poked "$vendor" seven.bin 135 '\160'
	values 7 seven.bin 'it is 7' read seven.bin
}

make_two_volumes
try_read_volumes
try_release_volumes
make_whole
try_refused_whole
try_split
try_join
try_words_of_refusals
cd "$root"
