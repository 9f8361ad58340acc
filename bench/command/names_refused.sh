# shellcheck shell=sh disable=SC2016,SC2034,SC2154,SC2162,SC2164
# Names of settings: what refuses a file, hostile files, five thousand names, names that are drawn, files that are cut and changed. By the
# program and with the files of names.sh.

# ---- what refuses a file ----

# a file that is none of the forms, or is for another image
try_others() {
	none='FILE: no block of it is for this region: the image has TREATU_M, the file has'
	id='identity 54524541542D3031'
	rev='revision 0x01020304'
	reason 'NO_FORM: FILE: it begins with Nothing: neither a BSF, nor its YAML form, nor names of our own' 'Nothing of it'
	reason 'NO_FORM: FILE: it begins with : neither a BSF, nor its YAML form, nor names of our own' '' '# StructDef' '/* configs: */'
	printf 'StructDef\n\000EndStruct\n' >"$n/f"
	with="show $n/f TREATU_M 0x40"
	named 'refused NO_FORM: FILE: it has a byte 0, so it is no text: neither a BSF, nor its YAML form, nor names of our own'
	reason "NO_MARK: $none none" StructDef EndStruct
	reason "NO_MARK: $none treatu_m, TREATU_, TREATU_MM" StructDef \
		'Find "treatu_m"' 'Find "TREATU_"' 'Find "TREATU_MM"' EndStruct
	reason "NO_MARK: $none none" 'configs:' '  - A :' '    length : 1'
	reason 'OTHER: FILE: line 1: these names are for identity 54524541542D3032, the image has 54524541542D3031' 'identity 54524541542D3032'
	reason 'OTHER: FILE: line 2: these names are for revision 0x1020305, the image has 0x1020304' "$id" 'revision 0x01020305'
	reason 'OTHER: FILE: line 3: these names are for extended 0x1, the image has 0x0' "$id" "$rev" 'extended 1'
	with="show $n/text TREATU_M 0x40:0x0102"
	named 'refused OTHER: FILE: it has no extended line: write extended 0x0102 if it is for this image'
	reason 'OTHER: FILE: it has no identity line: write identity 54524541542D3031 if it is for this image' "$rev" 'find TREATU_M' '0x20 1 A'
	reason 'OTHER: FILE: it has no revision line: write revision 0x01020304 if it is for this image' "$id" 'find TREATU_M' '0x20 1 A'
	reason "NO_MARK: FILE: line 1: no find line stands before the first name: write find 5452454154555F4D if they are this region's" \
		'0x20 1 A' "$id"
	reason "NO_MARK: $none TREATU_T" "$id" "$rev" 'find TREATU_T' '0x20 1 A'
}

# a BSF that isn't whole, or whose offsets can't be known
try_broken() {
	m='Find "TREATU_M"'
	lost="can't be followed, and the offsets after it hang on it"
	out='A lies outside the region, which ends at 0x40: these names are of another image'
	reason 'BROKEN: FILE: line 1: StructDef has no EndStruct' StructDef "$m" '$A 1 bytes'
	reason 'BROKEN: FILE: line 2: List has no EndList' 'StructDef EndStruct' 'List &A' 'Selection 1 , "One"' 'Page "P" EndPage'
	reason 'BROKEN: FILE: line 1: Page has no EndPage' 'Page "P"' 'Page "Q"' EndPage
	reason 'BROKEN: FILE: line 1: a part has no EndGlobalData' 'GlobalDataDef' "StructDef $m \$A 1 bytes EndStruct"
	reason 'BROKEN: FILE: line 1: a part has no EndInfoBlock' BeginInfoBlock "StructDef $m \$A 1 bytes EndStruct"
	reason 'BROKEN: FILE: line 2: a comment has no end' "StructDef $m" '/* $A 1 bytes' EndStruct
	reason "BROKEN: FILE: line 3: */ $lost" "StructDef $m" '/* $A 1 bytes /* $B 1 bytes */' '$C 1 bytes */' EndStruct
	reason 'BROKEN: FILE: line 3: a second block has the region'"'"'s mark TREATU_M' "StructDef $m" '$A 1 bytes' "$m" EndStruct
	reason 'BROKEN: FILE: line 3: B does not start at a whole byte' "StructDef $m" '$A 3 bits' '$B 1 bytes' EndStruct
	for unknown in '#IF 1' 'Align 4' '$A bytes' '$A 1' '$A 1 words' 'Skip 1' 'Skip -1 bytes' '$A 010 bytes' '$A 0x1G bytes' '"A" 1 bytes'; do
		first=$(echo "$unknown" | sed 's/ .*//; s/"//g')
		reason "BROKEN: FILE: line 2: $first $lost" "StructDef $m" "$unknown" 'EndStruct'
	done
	reason "OUTSIDE: FILE: line 2: $out" "StructDef $m" '$A 57 bytes' EndStruct
	for far in 4294967296 0x100000000 18446744073709551615 0xFFFFFFFFFFFFFFFF 0x1FFFFFFFFFFFFFFF; do
		reason "OUTSIDE: FILE: line 3: $out" "StructDef $m" \
			"Skip $far bytes Skip $far bytes Skip $far bits" '$A 1 bytes' EndStruct
		reason "OUTSIDE: FILE: line 4: $out" "$id" "$rev" 'find TREATU_M' "$far 1 A"
		reason "OUTSIDE: FILE: line 4: $out" "$id" "$rev" 'find TREATU_M' "0x20 $far A"
	done
	reason "BROKEN: FILE: line 2: Skip $lost" "StructDef $m" 'Skip 18446744073709551616 bytes' EndStruct
}

# a text of our own with a line that isn't understood
try_lines() {
	head='find TREATU_M'
	line='a line is offset, length and name; or identity, revision, extended, find, default or choice, and its value'
	while IFS='|' read -r wanted text; do
		reason "BROKEN: FILE: line 4: $wanted" "$id" "$rev" "$head" "$text"
	done <<LINES
$line|BypassRelay
$line|0x20 BypassRelay 1
$line|0x20 0 A
$line|020 1 A
a name is wanted after offset and length: letters, digits, _ . [ ]|0x20 1
a name is wanted after offset and length: letters, digits, _ . [ ]|0x20 1 1A
a name is wanted after offset and length: letters, digits, _ . [ ]|0x20 1 A=1
the display name stands in quotes|0x20 1 A Relay
a text in quotes has no end|0x20 1 A "Relay
more is one word too many|0x20 1 A "Relay" more
default and choice stand after the name that they are of|default 01
a second block has the region's mark TREATU_M|find TREATU_M
eight bytes in hex are wanted here, two digits each|find TREATU
TREATU_T is not the text of the bytes before it|find 5452454154555F53 "TREATU_T"
0x is not a number|revision 0x
LINES
	while IFS='|' read -r wanted text; do
		reason "BROKEN: FILE: line 5: $wanted" "$id" "$rev" "$head" '0x20 2 A' "$text"
	done <<LINES
B lies over A of line 4|0x21 1 B
a value is the setting's bytes, two digits each, or a number after 0x|default 01
a value is the setting's bytes, two digits each, or a number after 0x|default 0102
a value is the setting's bytes, two digits each, or a number after 0x|default 512
a default is a value alone|default 01 02 "One"
the number does not fit the setting's length|default 0x10000
a default is a value alone|default 0x1 03
the words of a choice stand in quotes|choice 01 02 One
the words of a choice stand in quotes|choice 01 02 03 "One"
LINES
}

# ---- hostile files ----

# long NAME COUNT: so many letters
long() { head -c "$1" /dev/zero | tr '\000' "$2"; }

# texts that a terminal would act on, that are not UTF-8, that turn around what stands beside them, or that are too long
try_hostile() {
	esc=$(printf '\033[31m')
	{
		printf 'StructDef\nFind "TREATU_M"\n$Esc 1 bytes\n$%s 1 bytes\n$Bad\377 1 bytes\n$Last 1 bytes\nEndStruct\n' "$(long 10000 A)"
		printf 'List &%s\nSelection 1 , "%sOn\007"\nEndList\n' "$(long 10000 L)" "$esc"
		printf 'Page "P"\nCombo $Esc, "a\tb%s\342\200\256c\377\303\251", &%s,\n' "$esc" "$(long 10000 L)"
		printf 'EditNum $Last, "%s", HEX,\nEndPage\n' "$(long 10000 T)"
	} >"$n/f"
	with="show $n/f TREATU_M 0x40"
	named 'BSF 2' "$(printf '0x0008 1 Esc ("a b?[31m?c?\303\251") line 3 choices 1:?[31mOn?')" \
		"0x000B 1 Last (\"$(long 253 T)..\") line 6" 'FILE: 2 parts of it were passed over, the first at line 4'
	printf 'Nothing\033[31m' >"$n/f"
	named 'refused NO_FORM: FILE: it begins with Nothing: neither a BSF, nor its YAML form, nor names of our own'
	reason "BROKEN: FILE: line 2: $(long 41 Z).. $lost" "StructDef $m" "$(long 10000 Z)" EndStruct
	: >"$n/f"
	with="show $n/f TREATU_M 0x40"
	named 'refused NO_FORM: FILE: it begins with : neither a BSF, nor its YAML form, nor names of our own'
}

# shares: pages that agree, that go by order, and that do neither, on names that several blocks have
try_shares() {
	cat >"$n/f" <<'BSF'
StructDef
Find "TREATU_T"
$Same 1 bytes $Each 1 bytes $Odd 1 bytes
Find "TREATU_M"
$Same 1 bytes $Each 1 bytes $Odd 1 bytes
Find "TREATU_S"
$Odd 1 bytes
EndStruct
List &A Selection 1,"One" EndList
List &A Selection 1,"Two" EndList
List &B Selection 1,"One" EndList
Page "T" Combo $Same, "Same", &B, Combo $Each, "Of T", &B, Combo $Odd, "Odd T", &B, EndPage
Page "M" Combo $Same, "Same", &B, Combo $Each, "Of M", &A, Combo $Odd, "Odd M", &B, EndPage
Page "N" Combo $Nowhere, "N", &B EndPage
BSF
	with="show $n/f TREATU_M 0x40"
	named 'BSF 3' '0x0008 1 Same ("Same") line 5 choices 1:One' '0x0009 1 Each ("Of M") line 5' '0x000A 1 Odd line 5' \
		'FILE: 3 parts of it were passed over, the first at line 12'
}

# five thousand names, in a BSF and in a text of our own
try_many() {
	awk -v g="$g" 'BEGIN {
		print "StructDef\nFind \"TREATU_M\""
		for (i = 0; i < 5000; i++) printf "$%sSetting%d 1 bytes $_DEFAULT_ = 0x%02X\n", g, i, i % 256
		print "EndStruct\nList &L\nSelection 1 , \"One\"\nEndList\nPage \"P\""
		for (i = 4999; i >= 0; i--) printf "Combo $%sSetting%d, \"Setting number %d\", &L,\n", g, i, i
		print "EndPage" }' >"$n/many"
	"$work/names_try" text "$n/many" TREATU_M 65536 >"$n/as-text"
	for file in many as-text; do
		with="speed $n/$file TREATU_M 65536"
		named '5000 names'
	done
}

# names that are drawn, in each form, read and read back; and every file above cut and changed
try_drawn() {
	what='names that are drawn'
	"$work/names_try" random "$seed" 150 >"$work/out" 2>"$work/err" || fail 'not read as written'
	passed
	for form in bsf yaml text once; do
		what="$form cut and changed"
		"$work/names_try" any "$n/$form" TREATU_M 0x40 "$seed" 2000 >"$work/out" 2>"$work/err" || fail 'not as it must be'
		grep -q '^[1-9][0-9]* of 2000 read$' "$work/out" || fail 'none is read'
		passed
	done
}

if [ -x "$work/names_try" ]; then
	try_others
	try_broken
	try_lines
	try_hostile
	try_shares
	try_many
	try_drawn
fi
