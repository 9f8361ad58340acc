# shellcheck shell=sh disable=SC2034,SC2154,SC2162,SC2164
# Names and what must be, through every command that takes them: words, texts that are wrong, documents, and reading back what is written.

# a text of names: a number, a choice, one with words that could be read otherwise, one of many bytes, one in the region's header
make_names() {
	cat >names <<-'END'
		identity 54524541542D3031
		revision 0x01020304
		find 5452454154555F54
		0x08 1 UpdRevision
		0x28 2 SlotCount "Slots"
		default 0x0501
		0x30 4 Window
		0x40 1 Speed "Fan speed"
		choice 00 "4"
		choice 01 "FF EE"
		choice 02 "as it was"
		choice 03 "Low # quiet"
		0x50 20 Serial
		0x128 1 BypassRelay "Bypass relay at restart"
		default 01
		choice 00 "Disabled"
		choice 01 "Enabled"
	END
	poked "$vendor" A 4096 TREATU 4392 '\001' 4160 '\002'
	for one in plain named; do bound A >"$one"; done
}

# makes_named LINE..: the sheet of these lines, by name
makes_named() {
	{ printf '%s\n' "$@" && cat plain; } >text
	works 0 sheet make --names names A text sheet
}

# no_named LINE FAULT TEXT: that line is at fault
no_named() {
	{ printf '%s\n' "$3" && cat plain; } >text
	keeps . fails_with "pajurenda: text: line $1: $2" sheet make --names names A text sheet
}

# each way to write a value, by name; offsets beside them
try_named_values() {
	makes_named '0x28 01 00' 'Speed = "4" was "as it was"' 'BypassRelay = Disabled was Enabled'
	cp sheet wanted
	for value in Disabled '"Disabled"' 00 0x00 0x0 '0x00 : 1' '  Disabled  # off'; do
		for was in '' ' was Enabled' ' was "Enabled"' ' was 01' ' was 0x1' ' was 0x01 : 1'; do
			case $value in *'#'*) was= ;; esac
			makes_named 'SlotCount = 01 00' 'Speed = 00' "BypassRelay = $value$was"
			same sheet wanted
		done
	done
	makes_named 'SlotCount = 0x0001' 'Speed = 0x00' 'BypassRelay=Disabled'
	same sheet wanted
	[ "$(grep '^set' "$work/out")" = 'set 0x0028 at 4136: 01 05 -> 01 00, 0x0501 -> 0x0001; SlotCount ("Slots") 01 05 = 0x0501 -> 01 00 = 0x0001
set 0x0040 at 4160: 02 -> 00; Speed ("Fan speed") 02 "as it was" -> 00 "4"
set 0x0128 at 4392: 01 -> 00; BypassRelay ("Bypass relay at restart") 01 Enabled -> 00 Disabled' ] || fail "the entries are told otherwise"
	makes_named '0x27 00 01 00 00' '0x128 00'
	grep -q '^set 0x0027 at 4135: .*; SlotCount ("Slots") 01 05 = 0x0501 -> 01 00 = 0x0001; 2 bytes without a name$' "$work/out" || fail "bytes without a name"
	makes_named '0x29 00' '0x51 00'
	grep -q '^set 0x0029 at 4137: 05 -> 00; SlotCount ("Slots") 01 05 = 0x0501 -> 01 00 = 0x0001$' "$work/out" || fail "a part of a setting"
	grep -q '^set 0x0051 at 4177: .. -> 00; Serial of 20 bytes$' "$work/out" || fail "a part of a long setting"
}

try_no_named_values() {
	{ echo 'BypasRelay = 00' && cat plain; } >text
	keeps . errs 'pajurenda: text: line 1: name "BypasRelay" is none of the names; the nearest: BypassRelay, ' sheet make --names names A text sheet
	[ "$(tr -cd , <"$work/err" | wc -c)" -eq 2 ] || fail "not three names"
	no_named 1 'name "BypassRelay" has no = after it: write NAME = VALUE' 'BypassRelay 00'
	no_named 1 'a value is missing after =' 'BypassRelay ='
	no_named 1 'BypassRelay has 1 byte, not 2' 'BypassRelay = 00 00'
	no_named 1 'SlotCount has 2 bytes, not 1' 'SlotCount = 01'
	no_named 1 '"0x0100" does not fit 1 byte' 'BypassRelay = 0x0100'
	no_named 1 'BypassRelay has 1 byte, not 2' 'BypassRelay = 0x0000 : 2'
	no_named 1 '"0x00" is a number, and numbers have 1 to 8 bytes: write the bytes apart' 'Serial = 0x00'
	no_named 1 '"Off" is no choice of BypassRelay, which has "Disabled" 0x00, "Enabled" 0x01' 'BypassRelay = Off'
	no_named 1 '"On" is no choice of SlotCount, which has none: write bytes or a number' 'SlotCount = On'
	no_named 1 '"4" could be bytes or a number: write = 0x4 : 1 for a number; a byte has two digits' 'Speed = 4'
	no_named 1 '""Disabled" has no quote at its end' 'BypassRelay = "Disabled'
	no_named 1 'BypassRelay, offset 0x0128: was 00, but A has 01: the line was written for other bytes than these' 'BypassRelay = Enabled was Disabled'
	{ echo 'UpdRevision = 00' && cat plain; } >text
	keeps . values 17 text "line 1: offset 0x0008 length 1, the region's size z is 0x0190" sheet make --names names A text sheet
	{ echo 'BypassRelay = Disabled' && cat plain; } >text
	keeps . errs 'a name needs --names FILE' sheet make A text sheet
}

# every setting of a begun text, its # taken away, sets what is there
try_started() {
	rm -f begun
	works 0 sheet start --names names A begun
	prints 'names 6 of names'
	[ "$(grep -c '^# [A-Z][A-Za-z]* = ' begun)" -eq 5 ] || fail "not the five settings"
	grep -qx '# SlotCount = 0x0501 was 0x0501 # 0x0028 at 4136, 2 bytes 01 05, "Slots"' begun || fail "a number"
	grep -qx '# Speed = 02 was 02 # 0x0040 at 4160, 1 byte, "Fan speed"' begun || fail "words with was in them"
	keeps . fails_with 'pajurenda: sheet make: begun: it has no entry, so its sheet would set nothing; sheet empty writes such a sheet '"$see_make" \
		sheet make --names names A begun sheet
	keeps . fails_with 'pajurenda: sheet start: begun is there already: nothing is begun over it (see pajurenda sheet start --help)' sheet start A begun
	sed 's/^# \([A-Z][A-Za-z]* = \)/\1/' begun >text
	works 0 sheet make --names names A text sheet
	[ "$(grep -c '^set .*, changes nothing; ' "$work/out")" -eq 5 ] || fail "they change something"
	works 0 sheet start A other
	works 0 sheet start "$vendor" third
	keeps . values 14 "$refused" "$entry_of_r" sheet start "$refused" fourth
}

# other names for the same settings are the same; `setting` by either
try_setting_by_name() {
	works 0 setting --names names A BypassRelay
	prints 'names 6 of names' 'offset 0x0128' 'place 4392' 'length 1' 'bytes 01' 'name BypassRelay ("Bypass relay at restart") 01 Enabled'
	works 0 setting --names names A 0x128 1
	[ "$(sed -n '$p' "$work/out")" = 'name BypassRelay ("Bypass relay at restart") 01 Enabled' ] || fail "no name"
	works 0 setting --names names A 0x27 4
	prints 'names 6 of names' 'offset 0x0027' 'place 4135' 'length 4' "$(sed -n 5p "$work/out")" "$(sed -n 6p "$work/out")" 'name SlotCount ("Slots") 01 05 = 0x0501'
	errs 'pajurenda: setting: name "Bypass" is none of the names; the nearest: ' setting --names names A Bypass
	values 17 A "offset 0x0008 length 1, the region's size z is 0x0190" setting --names names A UpdRevision
	fails_with 'pajurenda: setting: LENGTH is missing; a NAME alone needs --names FILE (see pajurenda setting --help)' setting A BypassRelay
	fails_with 'pajurenda: sheet show: --names goes with IMAGE: names are held against its settings (see pajurenda sheet show --help)' \
		sheet show --names names sheet
	errs 'missing: No such file' setting --names missing A 0x28 2
	errs 'pajurenda: A: ' setting --names A A 0x28 2
	poked A Z 4096 XREATU
	errs 'pajurenda: names: ' setting --names names Z 0x28 2
}

# window_of IMAGE: the value of Window there, as it is shown
window_of() { run setting --names names "$1" Window | sed -n 's/^name Window //p'; }

# two ranges of one setting: each line has the whole of it, as it is afterwards
try_named_ranges() {
	flip_at=$(printf '%o' $(($(od -An -tu1 -j4144 -N1 A) ^ 1)))
	poked A changed 4144 "\\$flip_at" 4146 '\252'
	works 0 audit --ranges --names names A changed
	[ "$(grep '^S ' "$work/out")" = "S 4144..4144 length 1 region offset 0x0030; Window $(window_of A) -> $(window_of changed)
S 4146..4146 length 1 region offset 0x0032; Window $(window_of A) -> $(window_of changed)" ] || fail "a part of the value"
	works 0 audit --names names A changed
	[ "$(grep '^S ' "$work/out")" = 'S 4144 Window
S 4146 Window' ] || fail "no names in the list"
	works 0 audit --bytes --names names A changed
	grep -q '^S 4146 .. AA Window$' "$work/out" || fail "no names beside the bytes"
}

# ---- what must be ----

# no_must LINE FAULT TEXT..: a text that says nothing of what must be, by the fault of that line; 0 for none
no_must() {
	at=": line $1"
	[ "$1" -ne 0 ] || at=
	fault=$2
	shift 2
	{ cat plain && printf '%s\n' "$@"; } >must
	keeps . fails_with "pajurenda: must$at: $fault" must show --names names must A
	keeps . fails_with "pajurenda: must$at: $fault" audit --names names --must must A A
}

try_no_must() {
	no_must 0 'no line says which base the shipped file must be at: write base 0x00512000, or base any (see pajurenda must show --help)' '0x128 00'
	no_must 4 'a value is missing after the name' 'base'
	no_must 4 'base "512000" has no 0x, and a base is hex: write 0x512000, or 0x7D000 where 512000 is decimal' 'base 512000'
	no_must 4 'base "keep" is not hex: write it as 0x00512000, or any for whatever base' 'base keep'
	no_must 4 '"x" is one word too many' 'base any x'
	no_must 5 '"0100" could be bytes or a number: write 01 00 for bytes, or = 0x0100 : 2 for a number' 'base any' '0x128 0100'
	no_must 5 '"Off" is no choice of BypassRelay, which has "Disabled" 0x00, "Enabled" 0x01' 'base any' 'BypassRelay = Off'
	{ cat plain && echo 'base any'; } >must
	fails_with 'pajurenda: must show: must: it requires nothing (see pajurenda must show --help)' must show must A
	{ cat plain && printf 'base any\n31 00\n'; } >must
	values 17 must "line 5: offset 0x001F length 1, the region's size z is 0x0190" must show must A
	{ cat plain && printf 'base any\n40\n'; } >must
	values 17 must "line 5: offset 0x0028 length 0, the region's size z is 0x0190" must show must A
	printf 'base any\n0x128 00\n' >must
	fails_with "pajurenda: must: it does not say which image it is for. If its offsets are those of A itself, write into it:
    $treat
    revision 0x01020304
$(echo "$what_for" | sed 's/sheet make/must show/')" must show must A
	fails_with 'pajurenda: must: show is missing (see pajurenda must --help)' must
	fails_with 'pajurenda: must show: IMAGE is missing (see pajurenda must show --help)' must show a
	fails_with 'pajurenda: missing: No such file or directory' audit --must missing A A
	{ cat plain && printf 'base any\nBypassRelay = Disabled\n'; } >must
	fails_with 'pajurenda: audit: the file to write is the file of what must be itself, which would be lost (see pajurenda audit --help)' \
		audit --must must --report must A A
	fails_with 'pajurenda: audit: the file to write is the file of names itself, which would be lost (see pajurenda audit --help)' \
		audit --names names --text names A A
}

# lines in any order, by offset and by name, of one byte and of many; explained into a text that explains the same
try_must_show() {
	{ cat plain && printf 'BypassRelay = Disabled was Enabled\nbase 0x00512000 # there\n0x28 01 05\n0x27 = 0x1 : 4\n'; } >must
	works 0 must show --names names must A
	cp "$work/out" shown
	prints '# names 6 of names' "$treat" 'revision 0x01020304' 'extended 0x0000 # version 1.2.3.4' 'base 0x00512000 # the image is at 0xFFF80000' \
		'0x0128 00 was 01 # line 4, at 4392, the image has it otherwise; BypassRelay ("Bypass relay at restart") 01 Enabled -> 00 Disabled' \
		'0x0028 01 05 was 01 05 # line 6, at 4136, 0x0501, the image has it; SlotCount ("Slots") 01 05 = 0x0501' "$(sed -n 8p shown)" \
		'# entries 3, of which the image has 1'
	works 0 must show shown A
	sed 's/ # .*//' "$work/out" | grep -v '^#' >second
	sed 's/ # .*//' shown | grep -v '^#' >first
	same second first
}

# held and not held, of a file that is otherwise explained, that isn't, and that doesn't read
try_must_held() {
	{ cat plain && printf 'base any\n0x28 01 05\n0x128 = 0x01 : 1\n'; } >must
	works 0 audit --must must A A
	prints 'base 0xFFF80000' "settings 0 $of_maker" 'strays 0' 'bits 0' "must base any, is 0xFFF80000, maker's 0xFFF80000: held" \
		"must 0x0028 at 4136 01 05 = 0x0501, is 01 05 = 0x0501, maker's 01 05 = 0x0501: held" "must 0x0128 at 4392 01, is 01, maker's 01: held" \
		'verdict explained, as required'
	poked A changed 4137 '\004'
	works 1 audit --must must A changed
	grep -qx "must 0x0028 at 4136 01 05 = 0x0501, is 01 04 = 0x0401, maker's 01 05 = 0x0501: not held" "$work/out" || fail "it is held"
	[ "$(tail -n 1 "$work/out")" = 'verdict explained, not as required' ] || fail "another verdict"
	poked A changed 5000 '\004'
	works 1 audit --must must A changed
	[ "$(tail -n 1 "$work/out")" = 'verdict unexplained, as required' ] || fail "another verdict"
	poked A changed 100 'X'
	works 1 audit --must must A changed
	grep -qx "must 0x0128 at 4392 01, is not to be read, maker's 01: not held" "$work/out" || fail "what doesn't read is held"
	{ cat plain && printf 'base 0xFFF81000\n'; } >must
	works 1 audit --must must A A
	[ "$(sed -n 5,6p "$work/out")" = "must base 0xFFF81000, is 0xFFF80000, maker's 0xFFF80000: not held
verdict explained, not as required" ] || fail "the base is held"
}

# ---- documents ----

try_named_json() {
	[ -n "$python" ] || return 0
	{ cat plain && printf 'base any\nBypassRelay = Disabled\n'; } >must
	makes_named 'BypassRelay = Disabled'
	works 0 release "$all" --owner=1 A sheet keep shipped
	for words in '0 audit --must must A shipped' '1 audit --must must A A' '0 verify --must must A sheet shipped' '1 verify --must must A sheet A'; do
		wanted=${words%% *}
		# shellcheck disable=SC2086
		works "$wanted" ${words#* } --names names --json
		"$python" -I -S -c 'import json, sys
d = json.load(sys.stdin)
held = sys.argv[1] == "0"
assert [name for name in list(d)[-5:] if name != "other"] == ["must", *(["accounted"] if d["command"] == "verify" else []), "required", "not_checked", "verdict"], list(d)
assert d["names"] == {"file": "names", "count": 6, "passed": 0, "compared": 2, "differ": 0, "first": []}, d["names"]
assert d["required"] == ("as required" if held else "not as required") and (d["command"] == "verify" or d["not_checked"] is None)
assert d["must"]["base"] == {"must": None, "is": "0xFFF80000", "makers": "0xFFF80000", "held": True}
assert d["must"]["settings"] == [{"line": 5, "offset": 296, "place": 4392, "length": 1, "name": "BypassRelay", "must": "00", "is": "00" if held else "01",
    "makers": "01", "held": held}], d["must"]
for one in d["ranges"]:
    name = one["names"][0]
    assert list(name) == ["name", "title", "offset", "length", "should", "should_words", "is", "is_words"]
    assert (name["name"], name["title"], name["should"]) == ("BypassRelay", "Bypass relay at restart", one["should"])
    assert {name["should_words"], name["is_words"]} == {"Enabled", "Disabled"}' "$wanted" <"$work/out" 2>"$work/err" || fail "another document"
		passed
	done
	works 0 audit --json A shipped
	grep -qx "  \"not_checked\": \"${unchecked#not checked }\"," "$work/out" || fail "the document doesn't say what wasn't checked"
	grep -qx '  "required": null,' "$work/out" || fail "something was required"
	works 0 sheet show --json --names names sheet A
	grep -q '"place": 4392, "names": \[{"name": "BypassRelay", "title": "Bypass relay at restart", "offset": 296, "length": 1, "replaces": "01", "replaces_words": "Enabled", "bytes": "00", "bytes_words": "Disabled"}\]}$' "$work/out" || fail "another entry"
	passed
}

# ---- any names ----

# names of up to 12 bytes from a seed, by offset, some with choices; the image has the defaults
draw_names='BEGIN { srand(seed); print "identity 54524541542D3031\nrevision 0x01020304\nfind 5452454154555F54"
	for (at = 32 + int(rand() * 9); at < 380; at += length_of + int(rand() * rand() * 30)) {
		length_of = 1 + int(rand() * rand() * 12)
		printf "0x%X %d Name%d \"%s\"\n", at, length_of, at, rand() < 0.5 ? "a title" : "x"
		for (k = 0; length_of <= 8 && k < 6 && rand() < 0.6; k++) printf "choice 0x%X \"%s\"\n", k, rand() < 0.3 ? 10 * k : "choice " k " of it" } }'

try_any_names() {
	for turn in 1 2 3 4 5 6; do
		awk -v seed="$((seed * 50 + turn))" "$draw_names" >drawn
		rm -f begun
		works 0 sheet start --names drawn A begun
		sed 's/^# \(Name[0-9]* = \)/\1/' begun >text
		works 0 sheet make --names drawn A text sheet
		[ "$(grep -c '^set .*, changes nothing' "$work/out")" -eq "$(grep -c '^0x' drawn)" ] || fail "not every setting is begun as it is"
		# shellcheck disable=SC2059
		printf "$(awk -v seed="$((seed * 70 + turn))" "$draw_sheet")" >any
		works 0 sheet show --names drawn any A
		cp "$work/out" text
		works 0 sheet make A text sheet
		same sheet any
		works 0 sheet make --names drawn A text sheet
		same sheet any
	done
}

mkdir "$work/by_name"
cd "$work/by_name"
make_names
for one in named_values no_named_values started setting_by_name named_ranges no_must must_show must_held named_json any_names; do "try_$one"; done
cd "$root"
