# shellcheck shell=sh disable=SC2016,SC2034,SC2154,SC2162,SC2164
# Names of settings in each of the forms, by a program over command/names*.c alone: files of ours with every statement, lookups, defaults
# that differ, and what is written of names and reads back. What refuses a file is in names_refused.sh.

n=$work/n
mkdir "$n"

# build_names: under the sanitizers where they run here; none where there is no compiler
build_names() {
	checked='-g -O1 -fsanitize=address,undefined -fno-sanitize-recover=all'
	# shellcheck disable=SC2086
	compiles "${CC:-cc}" $checked || checked=
	compiles "${CC:-cc}" || return 1
	what='names_try'
	# shellcheck disable=SC2086
	"${CC:-cc}" -std=c11 -Wall -Wextra -Wconversion -Werror $checked -I"$root/include" -I"$root/command" "$here/names_try.c" \
		"$here/names_draw.c" "$root"/command/names*.c "$root/command/signs.c" "$root/command/messages.c" -o "$work/names_try" ||
		fail "it does not compile"
}

# named LINE..: the program on the words in with, with these lines
named() {
	what="names_try $with"
	got=0
	# shellcheck disable=SC2086
	"$work/names_try" $with >"$work/out" 2>"$work/err" || got=$?
	status_was 0
	says
	prints "$@"
}

# looked_up WORD LINE..: pairs, each a word looked up in the file in with and what is said of it
looked_up() {
	while [ $# -gt 1 ]; do
		what="names_try find $with $1"
		got=0
		# shellcheck disable=SC2086
		"$work/names_try" find $with "$1" >"$work/out" 2>"$work/err" || got=$?
		status_was 0
		prints "$2"
		shift 2
	done
}

# reason LINE TEXT..: the file n/f, which is the text's lines, is refused with that line
reason() {
	line=$1
	shift
	printf '%s\n' "$@" >"$n/f"
	with="show $n/f TREATU_M 0x40"
	named "refused $line"
}

# ---- a BSF with every statement ----

write_bsf() {
	cat >"$n/bsf" <<'BSF'
/** @file
  $InAComment 4 bytes
**/
GlobalDataDef
    SKUID = 0, "DEFAULT"
EndGlobalData

StructDef
    Find "TREATU_T"
        $gTreatPkgTokenSpaceGuid_Revision        1 bytes    $_DEFAULT_ = 0x01
        Skip 23 bytes
        $gTreatPkgTokenSpaceGuid_BypassRelay     1 bytes    $_DEFAULT_ = 0x00
        Something that nobody knows
    Find "TREATU_M"
        $gTreatPkgTokenSpaceGuid_Revision        1 bytes    $_DEFAULT_ = 0x01
        Skip 23 bytes // to the settings
        $gTreatPkgTokenSpaceGuid_BypassRelay     1 bytes    $_DEFAULT_ = 0x01
        $gTreatPkgTokenSpaceGuid_Low             3 bits     $_DEFAULT_ = 0x1
        Skip 1 bits
        $gTreatPkgTokenSpaceGuid_High            4 bits     $_DEFAULT_ = 0x2
        $gTreatPkgTokenSpaceGuid_Whole          16 bits     $_DEFAULT_ = 0x1234
        $gTreatPkgTokenSpaceGuid_Nothing         0 bytes    $_DEFAULT_ = 0x00
        $gTreatPkgTokenSpaceGuid_Limit           4 bytes    $_DEFAULT_ = 512000
        $gTreatPkgTokenSpaceGuid_Table           6 bytes    $_DEFAULT_ = 0xA0, 0xA2, 0xA4
        $gTreatPkgTokenSpaceGuid_Long            4 bytes    $_DEFAULT_ = {0x01, 0x02,
            0x03, 0x04}
        $gTreatPkgTokenSpaceGuid_Text            4 bytes    $_DEFAULT_ = "ab"
        $gTreatPkgTokenSpaceGuid_Stride          1 bytes /* in bytes */ $_DEFAULT_ = 0x02 $Same 1 bytes $Same 1 bytes
        $gOtherPkgTokenSpaceGuid_Mode            2 bytes
        $gTreatPkgTokenSpaceGuid_TooLarge        1 bytes    $_DEFAULT_ = 0x100
    Find "TREATU_S"
        $gTreatPkgTokenSpaceGuid_Revision        1 bytes    $_DEFAULT_ = 0x01
        $gTreatPkgTokenSpaceGuid_Mode            2 bytes
EndStruct

List &EN_DIS
    Selection 0x1 , "Enabled"
    Selection 0x0 , "Disabled"
EndList

List &Strides
    Selection 0 , "1"
    Selection 2 , "4"
    Selection 3 , "Four (always)"
    Selection 4 , "Four (always)"
EndList

BeginInfoBlock
    PPVer       "0.1"
    Description "Treatment"
EndInfoBlock

Surprise "outside"

Page "Treatment"
    Page "Inner"
#IF $gTreatPkgTokenSpaceGuid_Limit > 1
    Combo $gTreatPkgTokenSpaceGuid_BypassRelay, "Bypass relay at restart", &EN_DIS,
        Help "Whether the relay is passed by."
             "A second line."
    EndPage
    EditNum $gTreatPkgTokenSpaceGuid_Limit, "Limit", DEC,
        Help "How much."
             "Valid range: 0 ~ 0xFFFFFFFF"
    EditText $gTreatPkgTokenSpaceGuid_Text, "A text",
        Help "Words."
    Table $gTreatPkgTokenSpaceGuid_Table "A table",
        Column "First", 1 bytes, HEX
        Column "Second", 1 bytes, HEX,
        Help "Rows."
    Combo $gTreatPkgTokenSpaceGuid_Stride, "Stride", &Strides,
    Combo $gTreatPkgTokenSpaceGuid_Whole, "Whole", &NoSuchList,
EndPage
BSF
}

# the block of M; passed over: what nobody knows (in T's block, and outside), three names that aren't whole bytes or no bytes, a default
# that does not fit, a list that isn't there
try_bsf() {
	write_bsf
	with="show $n/bsf TREATU_M 0x40"
	g=gTreatPkgTokenSpaceGuid_
	named 'BSF 12' \
		"0x0008 1 ${g}Revision brief Revision line 15 default 01" \
		"0x0020 1 ${g}BypassRelay (\"Bypass relay at restart\") brief BypassRelay line 17 default 01 Enabled choices 1:Enabled, 0:Disabled" \
		"0x0022 2 ${g}Whole (\"Whole\") brief Whole line 21 default 34 12" \
		"0x0024 4 ${g}Limit (\"Limit\") brief Limit line 23 default 00 D0 07 00" \
		"0x0028 6 ${g}Table (\"A table\") brief Table line 24 default A0 A2 A4 00 00 00" \
		"0x002E 4 ${g}Long brief Long line 25 default 01 02 03 04" \
		"0x0032 4 ${g}Text (\"A text\") brief Text line 27 default 61 62 00 00" \
		"0x0036 1 ${g}Stride (\"Stride\") brief Stride line 28 default 02 \"4\" choices 0:1, 2:4, 3:Four (always), 4:Four (always)" \
		'0x0037 1 Same line 28' '0x0038 1 Same line 28' \
		"0x0039 2 gOtherPkgTokenSpaceGuid_Mode brief Mode line 29" \
		"0x003B 1 ${g}TooLarge brief TooLarge line 30" \
		'FILE: 7 parts of it were passed over, the first at line 13'
	with="show $n/bsf TREATU_S 0x0B"
	named 'BSF 2' "0x0008 1 ${g}Revision brief Revision line 32 default 01" "0x0009 2 ${g}Mode brief Mode line 33" \
		'FILE: 2 parts of it were passed over, the first at line 13'
	with="show $n/bsf TREATU_T 0x40"
	named "refused BROKEN: FILE: line 13: Something can't be followed, and the offsets after it hang on it"
	with="show $n/bsf TREATU_I 0x40"
	named 'refused NO_MARK: FILE: no block of it is for this region: the image has TREATU_I, the file has TREATU_T, TREATU_M, TREATU_S'
	with="show $n/bsf TREATU_M 0x3B"
	named "refused OUTSIDE: FILE: line 30: ${g}TooLarge lies outside the region, which ends at 0x3B: these names are of another image"
	sed 's/$/\r/' "$n/bsf" >"$n/returns"
	with="text $n/bsf TREATU_M 0x40"
	"$work/names_try" text "$n/returns" TREATU_M 0x40 >"$work/returns"
	# shellcheck disable=SC2046
	named "$(cat "$work/returns")"
}

# ---- looking up ----

try_lookups() {
	with="$n/bsf TREATU_M 0x40"
	looked_up gTreatPkgTokenSpaceGuid_Limit 'gTreatPkgTokenSpaceGuid_Limit at 0x0024' Limit 'gTreatPkgTokenSpaceGuid_Limit at 0x0024' \
		Same 'several: Same at 0x0037' Mode 'gOtherPkgTokenSpaceGuid_Mode at 0x0039' limit 'unknown, near Limit Text Same' \
		BypasRelay 'unknown, near BypassRelay Table Same' gTreatPkgTokenSpaceGuid_Tabel 'unknown, near Table Text Whole' \
		0x07 none 0x08 gTreatPkgTokenSpaceGuid_Revision 0x1F none 0x21 none 0x2D gTreatPkgTokenSpaceGuid_Table \
		0x2E gTreatPkgTokenSpaceGuid_Long 0x3C none 0xFFFFFFFF none BypassRelay=Disabled '00 Disabled' BypassRelay=disabled unknown \
		Stride=4 '02 "4"' 'Stride=Four (always)' several Limit=4 unknown
	head -c 32 /dev/zero >"$n/region"
	printf '\001\377\064\022\000\320\007\000\240\242\244\000\000\001\001\002\003\004' >>"$n/region"
	printf 'ab\000\000\001\000\000\000\000\000' >>"$n/region"
	with="differ $n/bsf TREATU_M 0x40 $n/region"
	named '2 of 7 differ' 'gTreatPkgTokenSpaceGuid_Table ("A table") at 0x0028: A0 A2 A4 00 00 00, found A0 A2 A4 00 00 01' \
		'gTreatPkgTokenSpaceGuid_Stride ("Stride") at 0x0036: 02 "4", found 01'
}

# names that the settings end before are left out
try_short() {
	head -c 45 "$n/region" >"$n/short"
	with="differ $n/bsf TREATU_M 0x40 $n/short"
	named '0 of 3 differ'
}

# words that could be something else where a value stands are shown in quotes; a choice of a setting that is longer than a number
try_words() {
	{
		printf 'StructDef\nFind "TREATU_M"\n$A 1 bytes\n$Wide 10 bytes $_DEFAULT_ = 1\nEndStruct\nList &L\n'
		value=0
		for words in was 'As it was' Add '1 to 2' 'a:b' 'No #1' 'a=b' 'Wasp or waste' Enabled; do
			printf 'Selection %s , "%s"\n' "$value" "$words"
			value=$((value + 1))
		done
		printf 'EndList\nPage "P"\nCombo $A, "A", &L,\nCombo $Wide, "W", &L,\nEndPage\n'
	} >"$n/words"
	with="$n/words TREATU_M 0x40"
	looked_up A=was '00 "was"' 'A=As it was' '01 "As it was"' A=Add '02 "Add"' 'A=1 to 2' '03 "1 to 2"' A=a:b '04 "a:b"' \
		'A=No #1' '05 "No #1"' A=a=b '06 "a=b"' 'A=Wasp or waste' '07 Wasp or waste' A=Enabled '08 Enabled' \
		Wide=Enabled '08 00 00 00 00 00 00 00 00 00 Enabled' \
		"$(head -c 256 /dev/zero | tr '\000' A)" 'unknown, near'
	{ head -c 32 /dev/zero && printf '\000\001\000\000\000\000\000\000\000\001\000'; } >"$n/wide"
	sed 's/TREATU_M"/&\nSkip 24 bytes/' "$n/words" >"$n/shifted"
	with="differ $n/shifted TREATU_M 0x40 $n/wide"
	named '1 of 1 differ' 'Wide ("W") at 0x0021: 01 00 00 00 00 00 00 00 00 00 "As it was", found 01 00 00 00 00 00 00 00 01 00'
}

# ---- the YAML form, and a text of our own ----

write_yaml() {
	cat >"$n/yaml" <<'YAML'
## @file
variable:
  BASE                           : 0x00512000  # where it lies

template:
  A_TMPL: >
    - $ACTION :

configs:
  - $ACTION      :
      page         : PG00::"Treatment"
  - $ACTION      :
      find         : TREATU_T
  - TREATU_T     :
    - Signature    :
        length       : 0x08
        value        : 0x545F555441455254
    - !expand { A_TMPL : [ 1 ] }
    - $ACTION      :
        find         : TREATU_M
    - TREATU_M     :
      - Signature    :
          length       : 0x08
      - Revision     :
          name         : Reserved
          type         : Reserved
          length       : 0x0001
          value        : 0x01
      - BsfSkip0     :
          option       : $SKIP
          length       : 0x0017
          value        : {00, 00, 00}
      - BypassRelay  :
          name         : Bypass relay at restart
          type         : Combo
          option       : $EN_DIS
          condition    : $BASE > 1
          help         : >
                         length : 8

                         - Not : a setting
          length       : 0x0001
          value        : 0x01
      - Bits         :
        - $STRUCT      :
            name         : BIT_FIELD_STRUCT
            length       : 0x02
            value        : {0x12, 0x34}
        - Low          :
            length       : 3b
        - High         :
            length       : 5b
        - Whole        :
            name         : 'Whole'
            length       : 1B
      - Base         :
          type         : EditNum, HEX, (0x0, 0xFFFFFFFF)
          length       : 1D
          value        : $(BASE)
      - Words        :
          struct       : UINT16
          length       : 6
          value        : { 0:0W, 0x1234, 2 }
      - Mode         :
          name         : Mode
          type         : Combo
          option       : >
                         0:None, as before;
                         1:I/O,2; 2:MMIO
          length       : 1
      - Unclear      :
          type         : Combo
          option       : 0:None, as before, 1:Some
          length       : 1
          value        : $(NOTHING)
          colour       : red
YAML
}

try_yaml() {
	write_yaml
	with="show $n/yaml TREATU_M 0x40"
	named 'YAML 7' '0x0008 1 Revision line 24 default 01' \
		'0x0020 1 BypassRelay ("Bypass relay at restart") line 33 default 01 Enable choices 0:Disable, 1:Enable' \
		'0x0022 1 Whole ("Whole") line 53' '0x0023 4 Base line 56 default 00 20 51 00' '0x0027 6 Words line 60 default 34 12 02 00 00 00' \
		'0x002D 1 Mode ("Mode") line 64 choices 0:None, as before, 1:I/O,2, 2:MMIO' '0x002E 1 Unclear line 71' \
		'FILE: 6 parts of it were passed over, the first at line 18'
	with="show $n/yaml TREATU_T 0x40"
	named "refused BROKEN: FILE: line 18: -?!expand?{?A_TMPL?:?[?1?]?} can't be followed, and the offsets after it hang on it"
	sed 's/length       : 1D/length       : four/' "$n/yaml" >"$n/f"
	with="show $n/f TREATU_M 0x40"
	named "refused BROKEN: FILE: line 56: four can't be followed, and the offsets after it hang on it"
	sed 's/length       : 3b/length       : 2b/' "$n/yaml" >"$n/f"
	named 'refused BROKEN: FILE: line 53: Whole does not start at a whole byte'
}

# a text of our own; what is written of any form reads back to the same text
try_text() {
	cat >"$n/text" <<'TEXT'
# written by hand
identity 54524541542D3031 "TREAT-01"
revision 0x01020304
find "TREATU_T"
0x20 1 BypassRelay "Another relay"
	default 0xFF
find 5452454154555F4D "TREATU_M"     # the region of M
0x24 4 Limit
	default 0x0007D000
	choice 00 00 00 00 "None # at all"
32 1 BypassRelay "Bypass relay at restart" # in the settings' first byte
	choice 00 "Disabled"
	choice 01 "Enabled"
	default 01
TEXT
	with="show $n/text TREATU_M 0x40"
	named 'TEXT 2' '0x0020 1 BypassRelay ("Bypass relay at restart") line 11 default 01 Enabled choices 0:Disabled, 1:Enabled' \
		'0x0024 4 Limit line 8 default 00 D0 07 00 choices 0:None # at all'
	sed 's/^revision.*/&\nextended 0x0102/' "$n/text" >"$n/extended"
	with="find $n/extended TREATU_M 0x40:0x0102 Limit"
	named 'Limit at 0x0024'
	for form in bsf yaml text extended words; do
		what="what is written of $form"
		size=0x40
		[ "$form" != extended ] || size=0x40:0x0102
		"$work/names_try" text "$n/$form" TREATU_M "$size" >"$n/once" || fail "not written"
		"$work/names_try" text "$n/once" TREATU_M "$size" >"$n/twice" || fail "not read back"
		same "$n/once" "$n/twice"
		[ "$(grep -c '^0x' "$n/once")" -gt 1 ] || fail "no names in it"
	done
}

if build_names; then
	try_bsf
	try_lookups
	try_short
	try_words
	try_yaml
	try_text
else
	not_run="$not_run; names (no compiler)"
fi
