# shellcheck shell=sh disable=SC2034,SC2154,SC2162,SC2164
# --json of read, sheet show, audit and verify: what it writes is turned back into lines by another reader, python3, and must be the lines
# without it; that of handoff is tried with the hand-off blocks. docs/json.md names every member.

cat >"$work/document.py" <<'END'
import hashlib, json, re, sys
def own(pairs):
    keys = [key for key, _ in pairs]
    assert len(keys) == len(set(keys)), keys
    return dict(pairs)
text = sys.stdin.buffer.read().decode("ascii")
assert text.endswith("\n}\n")
d = json.loads(text, object_pairs_hook=own, parse_float=None, parse_constant=None)
assert list(d)[:4] == ["format", "tool", "command", "files"] and d.pop("format") == 1
assert list(d.pop("tool")) == ["version", "kit", "archive"]
for one in d.pop("files"):
    assert list(one) == ["file", "length", "sha256"] and (one["length"] is None) == (one["sha256"] is None), one
    assert one["sha256"] is None or one["sha256"] == hashlib.sha256(open(one["file"], "rb").read()).hexdigest(), one
def has(document, *names):
    assert list(document) == list(names), (list(document), names)
def whole(value):
    assert type(value) is int and abs(value) < 2 ** 53, value
    return value
def hexed(value, digits):
    assert re.fullmatch("0x[0-9A-F]{%d}" % digits, value), value
    return value
def octets(value):
    assert re.fullmatch("([0-9A-F]{2})+", value), value
    return value
def apart(value):
    return " ".join(re.findall("..", octets(value)))
def number(value):
    return "0x" + "".join(reversed(re.findall("..", value))) if len(value) in (4, 8, 16) else ""
def valued(value, setting):
    return apart(value) + (" = " + number(value) if setting and number(value) else "")
def parts(d, version):
    text = "" if d["identity_text"] is None else ' "%s"' % d["identity_text"]
    print("identity " + octets(d["identity"]) + text)
    print("revision " + hexed(d["revision"], 8))
    print("extended " + hexed(d["extended"], 4) + version + d["version"])
PARTS = ["identity", "identity_text", "revision", "extended", "version"]
def read(d):
    words = ["base_word", "patch_words", "module_words"] if "base_word" in d else []
    has(d, "command", "file", "number", "name", "index", "refusal", "length", "edition", "component", *PARTS, "base", "header", "patches", "end", "region", "volumes", "modules", "words",
        "relocation_words", *words)
    older = d["edition"] == 1
    assert older == (d["component"] is None) == (d["region"] is None) and d["edition"] in (1, 2)
    print("length %d\n%s" % (whole(d["length"]), "edition 1" if older else "component " + d["component"]))
    parts(d, "\nversion ")
    if older:
        assert not words and all(d[name] is None for name in ("patches", "end", "region", "modules", "words", "relocation_words"))
        print("base %s\nheader %d" % (hexed(d["base"], 8), whole(d["header"])))
        return
    print("base %s\nheader %d\npatches %d\nend %d" % (hexed(d["base"], 8), whole(d["header"]), whole(d["patches"]), whole(d["end"])))
    has(d["region"], "place", "size")
    print("region c %d z %d" % (whole(d["region"]["place"]), whole(d["region"]["size"])))
    assert d["volumes"] == [{"what": "volume", "place": 0, "length": d["volumes"][0]["length"]}]
    print("volume 1 at 0 length %d" % whole(d["volumes"][0]["length"]))
    print("modules %d\nwords %d (base word 1, patch words %d, image bases %d, relocation words %d)" % (whole(d["modules"]), whole(d["words"]), d["patches"],
          d["modules"], whole(d["relocation_words"])))
    for word in [d["base_word"]] if words else []:
        has(word, "place", "width", "value")
        print("base word at %d width %d is %s" % (whole(word["place"]), whole(word["width"]), hexed(word["value"], 8)))
    for n, word in enumerate(d["patch_words"] if words else []):
        has(word, "index", "entry", "place", "width", "value")
        assert word["index"] == n
        print("patch word %d entry %s at %d width %d is %s" % (n, hexed(word["entry"], 8), whole(word["place"]), whole(word["width"]), hexed(word["value"], 8)))
def sheet(d):
    has(d, "command", "sheet", "image", "number", "name", "index", "refusal", *PARTS, "length", "names", "entries")
    assert d["names"] is None
    parts(d, " # version ")
    beside, changing = d["image"] is not None, 0
    for entry in d["entries"]:
        has(entry, "offset", "length", "bytes", *(["replaces", "changes", "place", "names"] if beside else []))
        assert len(octets(entry["bytes"])) == 2 * whole(entry["length"])
        line = "0x%04X %s" % (whole(entry["offset"]), apart(entry["bytes"]))
        if beside:
            assert len(octets(entry["replaces"])) == len(entry["bytes"])
            changing += entry["changes"] > 0
            assert entry["names"] is None
            line += " was %s # at %d" % (apart(entry["replaces"]), whole(entry["place"]))
            old, new = number(entry["replaces"]), number(entry["bytes"])
            line += ", " + old + (" -> " + new if entry["changes"] else "") if old else ""
            line += ", changes %d of %d bytes" % (entry["changes"], entry["length"]) if entry["changes"] else ", changes nothing"
        print(line)
    print("# entries %d" % len(d["entries"]) + (", of which %d would change the image" % changing if beside else ""))
def ranges(d, verify):
    for r in d["ranges"]:
        has(r, "kind", "first", "last", "length", "place", "offset", "index", "field", "module", "module_name", "file", "should", "is", *(["set_by", "makers"] if verify else []), "names")
        assert r["names"] is None
        assert whole(r["last"]) - whole(r["first"]) + 1 == whole(r["length"]) == len(octets(r["should"])) // 2 == len(octets(r["is"])) // 2
        assert r["module"] is None and r["module_name"] is None and r["file"] is None
        assert (r["place"] == "settings") == (r["offset"] is not None) == (r["kind"] == "setting") and (r["place"] == "patch word") == (r["index"] is not None)
        place = {"settings": "region offset 0x%04X" % (r["offset"] or 0), "patch word": "patch word %s" % r["index"], "tables": "tables: %s" % r["field"]}.get(r["place"], r["place"])
        setting = r["kind"] == "setting"
        line = "%s %d..%d length %d %s %s %s is %s" % ("S" if setting else "X", r["first"], r["last"], r["length"], place, "should" if verify else "maker's",
            valued(r["should"], setting), valued(r["is"], setting))
        if verify and r["kind"] == "setting":
            by = r["set_by"]
            if by is None:
                assert r["makers"] is False
                line += ", no sheet sets it"
            else:
                has(by, "sheet", "entry")
                line += ", still as the maker's" if r["makers"] else ", neither the sheet's nor the maker's"
                line += ", entry %d of %s" % (by["entry"], d["sheets"][by["sheet"]]["file"])
        yield line
def check(d, verify):
    has(d, "command", "vendor", "vouched", "record", *(["sheets", "owners", "owner"] if verify else []), "shipped", "report_number", "note", "notes", "agreed", "number", "name", "index", "refusal",
        "names", "edition", "base", "base_wanted", "move", "against", "settings", "strays", "bits", "ranges", "changed", "other", "must", *(["accounted"] if verify else []), "required", "not_checked", "verdict")
    assert not verify or d["accounted"] is (d["verdict"] == "as released")
    assert d["names"] is None and d["must"] is None and d["required"] is None and d["record"] is None and d["vouched"] is None and d["other"] is None
    unchecked = d["not_checked"] or ""
    if verify:
        opened = [word for word, sign in (("owners", "whose"), ("base", "base;")) if sign in unchecked]
        print("verdict " + d["verdict"] + (", " + " and ".join(opened) + " not checked" if opened else ""))
        if unchecked:
            print("not checked " + unchecked)
    assert (d["edition"] == 1) == (d["move"] is None) and d["edition"] in ((2,) if verify else (1, 2))
    if d["edition"] == 1:
        print("edition 1 byte for byte; settings can't be told apart")
    print("base " + hexed(d["base"], 8))
    if verify:
        print("move %d" % whole(d["move"]))
        for n, one in enumerate(d["sheets"]):
            has(one, "file", "length", "entries", "owners", "owner")
            owner = "" if one["owner"] is None else "owner %d " % one["owner"]
            print("sheet %d entries %d %s%s" % (n + 1, one["entries"], owner, one["file"]))
        for one in d["changed"]:
            has(one, "offset", "place", "length", "makers", "is", "set_by")
            by = one["set_by"]
            owner = None if by is None else d["sheets"][by["sheet"]]["owner"]
            print("changed 0x%04X at %d, %s" % (one["offset"], one["place"], "no sheet sets it" if by is None else "sheet %d entry %d%s" % (
                by["sheet"] + 1, by["entry"], "" if owner is None else " owner %d" % owner)))
    else:
        assert d["changed"] is None
    print("settings %d (against %s)\nstrays %d\nbits %d" % (whole(d["settings"]), d["against"], whole(d["strays"]), whole(d["bits"])))
    for line in ranges(d, verify):
        print(line)
    if not verify:
        print("verdict " + d["verdict"])
    if not verify and unchecked:
        print("not checked " + d["not_checked"])
assert d["command"] == sys.argv[1], d["command"]
if d["number"] == 0:
    assert d["name"] == "ACCEPTED" and d["index"] == 0
    {"read": read, "sheet show": sheet, "audit": lambda d: check(d, False), "verify": lambda d: check(d, True)}[d["command"]](d)
else:
    files = {"read": ["file"], "sheet show": ["sheet", "image"], "audit": ["vendor", "vouched", "record", "shipped", "report_number", "note", "notes", "agreed"],
        "verify": ["vendor", "vouched", "record", "sheets", "owners", "owner", "shipped", "report_number", "note", "notes", "agreed"]}[d["command"]]
    more = ["refused", "required", "not_checked", "verdict"] if d["command"] in ("audit", "verify") else []
    has(d, "command", *files, "number", "name", "index", "refusal", *more)
    if more:
        assert d["verdict"] == "refused" and sys.argv[2] == d["refused"], d
    has(d["refusal"], "rule", "values")
    told = open(sys.argv[3], encoding="utf-8", errors="replace").read()
    assert told.endswith(d["refusal"]["values"] + "\n") and (d["number"] in (6, 18) or ": " + d["refusal"]["rule"] + ": " in told), (told, d["refusal"])
    print("refused %d\n%s %d" % (d["number"], d["name"], d["index"]))
END

# lines_of COMMAND [FILE]: the document in out as lines, in again; the file is the one that is refused
lines_of() {
	[ -n "$python" ] || return 0
	"$python" -I -S "$work/document.py" "$1" "${2-}" "$work/wanted_words" <"$work/out" >"$work/again" 2>"$work/err" || fail "no such document"
}

# said STATUS COMMAND WORDS..: the document says what the lines say
said() {
	works "$@"
	sed "/^set 0x/d; /^changed /s/: [^,]* -> .*\\(, no sheet\\)/\\1/; /^changed /s/: [^,]* -> .*\\(, sheet \\)/\\1/" "$work/out" >"$work/wanted_lines"
	wanted=$1
	shift
	works "$wanted" "$@" --json
	name=$1
	[ "$name" != sheet ] || name='sheet show'
	lines_of "$name"
	[ -z "$python" ] || same "$work/again" "$work/wanted_lines"
}

# said_refused N INDEX FILE WORDS..: the document has the refusal, and standard error the same words as without it
said_refused() {
	number=$1 index=$2 file=$3
	shift 3
	try 2 "$@"
	prints "refused $number"
	cp "$work/err" "$work/wanted_words"
	try 2 "$@" --json
	same "$work/err" "$work/wanted_words"
	name=$1
	[ "$name" != sheet ] || name='sheet show'
	lines_of "$name" "$file"
	[ -n "$python" ] || return 0
	lines "refused $number" "$(name_of "$number") $index"
	same "$work/again" "$work/wanted"
}

try_read_json() {
	said 0 read "$vendor"
	said 0 read --words "$vendor"
	poked "$vendor" "$i/odd" 123 '\377'
	said 0 read "$i/odd"
	poked "$vendor" "$i/odd" 116 '\040"%%\\~az0' 112 '\007\000\000\000' 128 '\000\020\000\000' 135 '\100' 4103 'I'
	said 0 read "$i/odd"
	poked "$vendor" "$i/odd" 180 '\000'
	said 0 read --words "$i/odd"
	works 0 read --json "$vendor"
	sed -i '2,7d' "$work/out"
	prints '{' "  \"file\": \"$vendor\"," '  "number": 0,' '  "name": "ACCEPTED",' '  "index": 0,' '  "refusal": null,' '  "length": 8192,' \
		'  "edition": 2,' '  "component": "T",' '  "identity": "54524541542D3031",' '  "identity_text": "TREAT-01",' '  "revision": "0x01020304",' \
		'  "extended": "0x0000",' '  "version": "1.2.3.4",' '  "base": "0xFFF80000",' '  "header": 100,' '  "patches": 4,' '  "end": 200,' \
		'  "region": {"place": 4096, "size": 400},' '  "volumes": [{"what": "volume", "place": 0, "length": 8192}],' '  "modules": 0,' '  "words": 5,' '  "relocation_words": 0' '}'
	said_refused 14 2 '' read "$refused"
	said_refused 1 0 '' read "$work/empty"
	works 0 read --json "$vendor" --words
	works 0 --json read "$vendor"
	unheard read --json "$vendor"
	unheard read --json "$work/empty"
	fails_with "pajurenda: $work/missing: No such file or directory" read --json "$work/missing"
}

try_sheet_json() {
	cd "$i"
	said 0 sheet show one.sheet
	said 0 sheet show one.sheet "$vendor"
	said 0 sheet show two.sheet released
	said 0 sheet show "$work/nothing" "$vendor"
	said_refused 15 0 '' sheet show "$work/empty"
	said_refused 15 0 '' sheet show "$work/empty" v
	said_refused 14 2 '' sheet show one.sheet r
	poked one.sheet b 11 '\002'
	said_refused 16 0 '' sheet show b v
	unheard sheet show --json one.sheet v
	cd "$root"
}

# the audit's document has both what --ranges and what --bytes say
try_audit_json() {
	cd "$i"
	for pair in v:v:0 v:s:1 v:released:0 v:t:1 many1:many2:1; do
		one=${pair%%:*}
		other=${pair#*:}
		works "${pair##*:}" audit --text whole "$one" "${other%:*}"
		sed -n '1,4p' "$work/out" >"$work/wanted_lines"
		grep -v '^W ' whole >>"$work/wanted_lines" || :
		sed -n '/^verdict /,$p' "$work/out" >>"$work/wanted_lines"
		works "${pair##*:}" audit --json "$one" "${other%:*}"
		lines_of audit
		[ -z "$python" ] || same "$work/again" "$work/wanted_lines"
		sed "/^W /d; s/ maker's .*//" whole >"$work/wanted_lines"
		works "${pair##*:}" audit --ranges "$one" "${other%:*}"
		grep '^[SX] ' "$work/out" >"$work/ranges" || :
		same "$work/ranges" "$work/wanted_lines"
	done
	said_refused 14 2 r audit r s
	said_refused 19 0 71 audit v 71
	poked s b 128 '\001'
	said_refused 18 0 b audit v b
	unheard audit --json v s
	unheard audit --json r s
	for form in --bytes --ranges; do
		fails_with 'pajurenda: audit: --json has both bytes and ranges: no other form goes with it (see pajurenda audit --help)' audit --json $form v s
	done
	cd "$root"
}

try_verify_json() {
	cd "$i"
	said 0 verify v one.sheet two.sheet released
	said 1 verify v one.sheet two.sheet t
	said 1 verify v two.sheet one.sheet s
	said_refused 15 0 "$work/empty" verify v one.sheet "$work/empty" released
	said_refused 19 0 71 verify v one.sheet 71
	printf '40 2 1\n100 4 1\n' >own
	said 0 verify --owners own --owner 1 v one.sheet first
	[ "$(run verify --json --owners own --owner 1 v one.sheet first | sed -n '/^  "owner/p' | tr -d '\n')" = '  "owners": "own",  "owner": 1,' ] || fail "who asked"
	[ "$(run verify --json v one.sheet first | sed -n '/^  "owner/p' | tr -d '\n')" = '  "owners": null,  "owner": null,' ] || fail "nobody asked"
	said_refused 24 0 one.sheet verify --owners own --owner 2 v one.sheet first
	said_refused 23 0 own verify --owners own --owner 3 v one.sheet first
	rm own
	said_refused 14 2 r verify r one.sheet s
	unheard verify --json v one.sheet t
	cd "$root"
}

# a_document STATUS WORDS..: a whole document, held against the schema
a_document() {
	try "$@"
	[ "$(tail -n 1 "$work/out")" = '}' ] && [ "$(head -n 1 "$work/out")" = '{' ] || fail "no document"
	grep -q '^  "format": 1,$' "$work/out" || fail "no format"
}

# every subcommand has a document, where it accepts and where it refuses
try_every_json() {
	cd "$i"
	{ bound v && echo '0x28 00 was 01'; } >text
	{ bound v && echo 'base any' && echo '0x28 01'; } >needs
	a_document 0 sheet empty --json v "$o/e.sheet"
	a_document 2 sheet empty --json r "$o/e.sheet"
	a_document 0 sheet start --json v "$o/text"
	a_document 2 sheet start --json r "$o/text2"
	a_document 0 sheet make --json v text "$o/one"
	grep -qF '{"offset": 40, "length": 1, "bytes": "00", "replaces": "01", "changes": 1, "place": 4136, "names": null}' "$work/out" || fail "another entry"
	echo '31 00' >>text
	a_document 2 sheet make --json v text "$o/none"
	grep -qF '"number": 15,' "$work/out" && grep -qF '"values": "line 5: offset 0x001F (the one before' "$work/out" || fail "another refusal"
	a_document 0 must show --json needs v
	a_document 2 must show --json needs r
	a_document 0 owners all --json v "$o/own"
	a_document 0 owners show --json "$o/own" v
	a_document 2 owners show --json v v
	a_document 0 setting --json v 40 2
	grep -qF '"setting": {"offset": 40, "place": 4136, "length": 2, "bytes": "0105", "names": null}' "$work/out" || fail "another setting"
	a_document 2 setting --json v 400 2
	a_document 0 release --json --owners "$o/own" --owner 1 v "$o/one" 0x00512000 "$o/out2"
	a_document 2 release --json --owners "$o/own" --owner 2 v "$o/one" 0x00512000 "$o/out3"
	grep -qF "owner 2 asks, offset 0x0028 is owner 1's by $o/own" "$work/out" || fail "whose it is isn't there"
	printf 'v s\nr s\nv 71\nmissing s\nv\n' >list
	a_document 2 audit --json --list list
	grep -q '^  "count": 5,$' "$work/out" || fail "not five pairs"
	printf 'v one.sheet two.sheet released\n' >list
	a_document 0 verify --json --list list --must needs
	a_document 1 verify --json --number 17 --note 'a "b"' v one.sheet s
	grep -q '^  "report_number": "17",$' "$work/out" && grep -qF '  "note": "a \"b\"",' "$work/out" || fail "another number or note"
	printf '3\n[ 1.5] 2\nreset\nx\n' >log
	a_document 2 station --json log
	: >log
	a_document 1 station --json log
	fails_with 'pajurenda: missing: No such file or directory' station --json missing
	[ ! -e "$o/none" ] && [ ! -e "$o/out3" ] && [ ! -e "$o/text2" ] || fail "a refused command has written"
	rm text needs list log "$o/e.sheet" "$o/text" "$o/one" "$o/own" "$o/out2"
	cd "$root"
}

# names that could end a string, or aren't text
try_json_names() {
	cd "$i"
	# shellcheck disable=SC1003
	for name in '"' '\' '",' 'a"b\c' '<script>' "$(printf 'n\tt\001\177')" "$(printf '\303\266\342\202\254\360\237\230\200')" "$(printf '\377\300\200\355\240\200\364\220\200\200x')"; do
		cp v "./$name"
		for words in 'read' 'sheet show one.sheet' 'audit v' 'verify v one.sheet' 'handoff' 'map'; do
			got=0
			# shellcheck disable=SC2086
			run $words "./$name" --json >"$work/out" 2>"$work/err" || got=$?
			[ "$got" -le 2 ] || fail "exit status $got"
			[ -n "$python" ] || continue
			printf '%s' "./$name" >"$work/name"
			"$python" -I -S -c 'import json, sys
text = sys.stdin.buffer.read().decode("ascii")
name = open(sys.argv[1], "rb").read()
wanted = name.decode("utf-8", "replace")
found = [value for value in json.loads(text).values() if type(value) is str and value.startswith("./")]
assert found == [wanted], (found, wanted)' \
				"$work/name" <"$work/out" 2>"$work/err" || fail "another name than $name in the document of $words"
			passed
		done
		rm "./$name"
	done
	cd "$root"
}

# every member that a document has is named in docs/json.md
try_json_names_told() {
	[ -n "$python" ] || return 0
	cd "$i"
	what='docs/json.md'
	printf 'v s\nr s\nmissing s\n' >list
	{ echo 'base any' && bound v; } >needs
	printf '3\n[1] 2\n' >log
	{
		run audit --json --list list || :
		run must show --json needs v || :
		run station --json log || :
		run setting --json v 40 2 || :
		run owners all --json v "$o/own" || :
		run owners show --json "$o/own" v || :
		run sheet make --json v "$work/good_text" "$o/sheet" || :
		run release --json --owners "$o/own" --owner 1 v "$o/sheet" keep "$o/out2" || :
		run hex export --json v "$o/hex" || :
		run read --json --words --modules "$root/crates/run_more/data/1/vendor.bin" || :
		run sheet show --json one.sheet v || :
		run audit --json r s || :
		run verify --json v one.sheet t || :
		run handoff --json kinds || :
		run map --json kinds || :
		run place --json kinds 4096 || :
	} 2>/dev/null | grep -o '"[a-z_]*":' | tr -d '":' | sort -u >"$work/members"
	rm -f list needs log "$o/own" "$o/sheet" "$o/out2" "$o/hex"
	[ "$(wc -l <"$work/members")" -ge 80 ] || fail "too few members: $(wc -l <"$work/members")"
	while read -r word; do
		# shellcheck disable=SC2016
		grep -qF -e "\`$word\`" "$root/docs/json.md" || fail "nothing of $word"
		passed
	done <"$work/members"
	cd "$root"
}

cp "$work/71" "$i/71"
cp "$i/released" "$i/t"
flip "$i/t" 4197 4203
flip "$i/t" 4998 5001
flip "$i/t" 6600 6615
cp "$root/crates/run_short/data/vendor.bin" "$i/many1"
cp "$root/crates/run_short/data/shipped.bin" "$i/many2"
try_read_json
try_sheet_json
try_audit_json
try_verify_json
try_every_json
try_json_names
try_json_names_told
