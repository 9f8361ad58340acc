# shellcheck shell=sh disable=SC2034,SC2154,SC2162,SC2164
# Texts that make no sheet: each has its line named, and OUT is kept; the library's own refusals, and what is no text of a sheet at all.

rule_field='a setting must have a byte or more, at offsets 32 to z-1 of the region'

# text OCTAL: the file t
# shellcheck disable=SC2059
text() { printf -- "$1" >t; }

# no_text LINE FAULT OCTAL: it can't be read as a sheet, by the fault of that line
no_text() {
	text "$3"
	keeps "$o" fails_with "pajurenda: t: line $1: $2" sheet make v t "$o/out"
}

# no_sheet N LINE VALUES OCTAL: the library refuses the sheet of the lines up to that one
no_sheet() {
	text "$4"
	keeps "$o" values "$1" t "line $2: $3" sheet make v t "$o/out"
}

try_rules_of_lines() {
	text '# c\n\n40 00\n31 00\n'
	keeps "$o" refuses 15 t "$rule_sheet: line 4: offset 0x001F (the one before ends at 0x0029) length 1, entries so far 2, bytes 34" \
		sheet make v t "$o/out"
	no_sheet 15 2 'offset 0x0028 (the one before ends at 0x0029) length 1, entries so far 2, bytes 34' '40 00\n40 00'
	no_sheet 15 3 'offset 0x0029 (the one before ends at 0x002A) length 2, entries so far 2, bytes 36' '40 00 01\n#\n41 02 03'
	no_sheet 15 1 'offset 0x0028 (the one before ends at 0x0000) length 0, entries so far 1, bytes 24' '40'
	no_sheet 15 2 'offset 0x0032 (the one before ends at 0x0029) length 0, entries so far 2, bytes 33' '40 01\n50 # nothing\n60 01'
	text '\n40 00\r\n399 00 01\n'
	keeps "$o" refuses 17 t "$rule_field: line 3: offset 0x018F length 2, the region's size z is 0x0190" sheet make v t "$o/out"
	no_sheet 17 1 "offset 0x001F length 1, the region's size z is 0x0190" '31 00\n30 00\n'
	no_sheet 17 2 "offset 0x0190 length 1, the region's size z is 0x0190" '40 00\n400 00\n40 00'
	no_sheet 17 1 "offset 0x0000 length 2, the region's size z is 0x0190" '0x0 00 01'
	no_sheet 17 1 "offset 0xFFFFFFFF length 2, the region's size z is 0x0190" '4294967295 00 01'
	makes v "$work/good_text" "$o/out" 1 25
	cp "$work/old" "$o/out"
}

# each part alone, in the form that the output has
try_other_images() {
	text "40 00\\nrevision 0x01020305\\n"
	keeps "$o" refuses 16 t "$rule_identity: line 2: revision 0x01020305, v has revision 0x01020304" \
		sheet make v t "$o/out"
	no_sheet 16 1 'revision 0x02020304, v has revision 0x01020304' 'revision 33686276'
	no_sheet 16 1 'extended 0x0100, v has extended 0x0000' 'extended 256\n40 00\n31 00'
	no_sheet 16 3 'extended 0x0001, v has extended 0x0000' 'revision 0x01020304\n40 00\nextended 0x1'
	no_sheet 16 1 'identity 54524541542D3032 "TREAT-02", v has identity 54524541542D3031 "TREAT-01"' 'identity 54524541542D3032 "TREAT-02"'
	no_sheet 16 1 'identity 0000000000000000, v has identity 54524541542D3031 "TREAT-01"' 'identity 0000000000000000'
	no_sheet 16 2 'identity 20524541542D3031 " REAT-01", v has identity 54524541542D3031 "TREAT-01"' \
		'revision 0x01020304\nidentity 20524541542D3031 " REAT-01"'
}

# a part that is named again, the same or another: the library isn't asked again, however many such lines there are
try_parts_twice() {
	no_text 2 '"identity" is named twice' 'identity 54524541542D3031\nidentity 54524541542D3031'
	no_text 3 '"revision" is named twice' 'revision 0x01020304\n40 00\nrevision 0x01020305'
	no_text 2 '"extended" is named twice' 'extended 0\nextended'
	{ cat "$work/bound" && yes 'revision 0x01020304' | head -n 700000; } >t
	keeps "$o" fails_with 'pajurenda: t: line 3: "revision" is named twice' sheet make v t "$o/out"
	{ cat "$work/bound" "$work/bound" && echo 'base any'; } >t
	keeps "$o" fails_with 'pajurenda: t: line 3: "identity" is named twice' must show t v
}

# a number or bytes that could be taken for others
try_no_numbers() {
	how='is not a number: write hex as 0x00512000, decimal without a leading 0; or identity, revision or extended, and its value; '
	how="${how}a name needs --names FILE"
	no_text 1 "offset \"4x\" $how" '4x 00'
	no_text 2 "offset \"offset\" $how" '\noffset 40 00'
	no_text 1 "offset \"Identity\" $how" 'Identity 54524541542D3031'
	no_text 1 "offset \"-1\" $how" '-1 00'
	no_text 1 "offset \"40:\" $how" '40: 00'
	no_text 1 "offset \"\"40\"\" $how" '"40" 00'
	no_text 1 'offset "040" starts with 0: write 0x040 for hex or 40 for decimal' '040 00'
	no_text 1 'offset "2A" has no 0x: write 0x2A for hex' '2A 00'
	no_text 1 'offset "0X28" has a capital X: write 0x28 for hex' '0X28 00'
	no_text 3 'offset "4294967296" does not fit 32 bits' '40 00\n\n4294967296 00'
	no_text 1 'offset "0x100000028" does not fit 32 bits' '0x100000028 00'
	no_text 1 'offset "18446744073709551616" does not fit 32 bits' '18446744073709551616 00'
	no_text 1 'revision "4294967296" does not fit 32 bits' 'revision 4294967296'
	no_text 1 'extended "0x10000" does not fit 16 bits' 'extended 0x10000'
	no_text 1 'revision "01020304" starts with 0: write 0x01020304 for hex or 1020304 for decimal' 'revision 01020304'
	no_text 1 'revision "1.2" is not a number: write hex as 0x00512000, decimal without a leading 0' 'revision 1.2'
	no_text 1 'identity "5452" is not eight bytes in hex, two digits each' 'identity 5452'
	no_text 1 'identity "54524541542D30310" is not eight bytes in hex, two digits each' 'identity 54524541542D30310'
	no_text 1 'identity "TREAT-01" is not eight bytes in hex, two digits each' 'identity TREAT-01'
	for part in identity revision extended; do no_text 2 'a value is missing after the name' "\\n$part # 0"; done
	no_text 1 '"2" is one word too many' 'revision 0x01020304 2'
	no_text 1 '""TREAT-02"" is one word too many' 'identity 54524541542D3031 "TREAT-02"'
	no_text 1 '""TREAT-01"" is one word too many' 'identity 54524541542D3031 "TREAT-01" "TREAT-01"'
	no_text 1 '"x" is one word too many' 'identity 54524541542D3031 "TREAT-01"x'
}

# what could be bytes or a number has both ways to write it
try_no_bytes() {
	no_text 1 '"00512000" could be bytes or a number: write 00 51 20 00 for bytes, or = 0x00512000 : 4 for a number' '40 00512000'
	no_text 1 '"0100" could be bytes or a number: write 01 00 for bytes, or = 0x0100 : 2 for a number' '40 = 0100'
	no_text 2 '"FFEE" could be bytes or a number: write FF EE for bytes, or = 0xFFEE : 2 for a number' '\n40 00 FFEE'
	no_text 1 '"0" could be bytes or a number: write = 0x0 : 1 for a number; a byte has two digits' '40 0'
	no_text 2 '"012" could be bytes or a number: write = 0x012 : 2 for a number; a byte has two digits' '40 01\n41 00 012'
	no_text 1 '"1048576" could be bytes or a number: write = 0x1048576 : 4 for a number; a byte has two digits' '40 = 1048576'
	no_text 1 '"0102030405060708090A" could be bytes or a number: write 01 02 03 04 05 06 07 08 .. for bytes' '40 0102030405060708090A'
	number='is a number: write = before it and its width after it, as = 0x0000EEFF : 4, or bytes without 0x'
	no_text 1 "\"0x01\" $number" '40 0x01'
	value='is no value: write bytes apart, as FF EE, or a number with its width, as = 0x0000EEFF : 4'
	for word in 0g 00,01 Disabled '"Disabled"' 0X01 -1; do no_text 1 "\"$word\" $value" "40 00 $word"; done
	no_text 1 "\"was\" $value" '40 00 was 00 was 00'
	no_text 1 '"0x01" has no width: write it with its width in bytes, as = 0x0000EEFF : 4' '40 = 0x01'
	for width in 0 -1 x '' 00; do no_text 1 "width \"$width\" is not 1 to 8" "40 = 0x01 : $width"; done
	no_text 1 '"0x01" is a number, and numbers have 1 to 8 bytes: write the bytes apart' '40 = 0x01 : 9'
	no_text 1 '"0x0100" does not fit 1 byte' '40 = 0x0100 : 1'
	no_text 1 '"0x10000000000000000" does not fit 8 bytes' '40 = 0x10000000000000000 : 8'
	no_text 1 'a value is missing after =' '40 ='
	no_text 1 'a value is missing after was' '40 00 was # 00'
	no_text 1 'what is replaced has 1 byte, not 2' '40 00 was 00 00'
	no_text 1 '"0x0100" does not fit 1 byte' '40 00 was 0x0100'
	long=gggggggggggggggggggggggggggggggggggggggg
	no_text 1 "\"$long..\" $value" "40 00 ${long}g"
}

# a text that says nothing of the image, of all of it or of a part; what is missing is shown as it is to be written
try_unbound() {
	for lines in '' 'identity 54524541542D3031' 'revision 0x01020304' 'extended 0'; do
		text "40 00\\n$lines"
		missing=
		[ "${lines#identity}" != "$lines" ] || missing="
    $treat"
		[ "${lines#revision}" != "$lines" ] || missing="$missing
    revision 0x01020304"
		keeps "$o" fails_with "pajurenda: t: it does not say which image it is for. If its offsets are those of v itself, write into it:$missing
$what_for" sheet make v t "$o/out"
	done
	echo >>t
	sed -n 's/^    //p' "$work/err" >>t
	works 0 sheet make v t "$o/sheet"
	rm "$o/sheet"
}

# what a line says it replaces must be there, whatever else the line is
try_was() {
	was='the line was written for other bytes than these'
	no_text 1 "offset 0x0028: was 01 04, but v has 01 05: $was" '40 01 00 was 01 04'
	no_text 2 "offset 0x0028: was 00, but v has 01: $was" '# x\n0x28 = 0x0 : 1 was 0x00'
	no_text 1 "offset 0x0028: was 05 01, but v has 01 05: $was" '40 05 01 was 05 01'
	no_text 3 "offset 0x018F: was B7, but v has B6: $was" '40 01\n\n399 B7 was B7'
	no_sheet 17 1 "offset 0x001F length 1, the region's size z is 0x0190" '31 00 was 00'
}

# what a reader does not see may not stand in the text; of a sheet given as the text it is said
try_hidden() {
	for byte in 000 001 007 010 013 014 033 177; do
		hex=$(printf '0x%02X' "$((0$byte))")
		no_text 1 "control character $hex" "\\$byte"
		no_text 2 "control character $hex" "40 00\\n# \\$byte\\n41 00"
		no_text 2 "control character $hex" "40 00\\n41 00\\$byte"
	done
	no_text 1 'control character 0x0D' '40 00\r41 00'
	no_text 1 'control character 0x0D' '40 00\r\r\n'
	no_text 1 'control character 0x00' '4\0000\000 \0000\0000\000\n\000'
	no_text 1 "offset \"$(printf '\303\266')\" $how" '\303\266'
	cp "$work/sheet" t
	keeps "$o" fails_with 'pajurenda: sheet make: t is a sheet already; sheet show prints the text of one (see pajurenda sheet make --help)' \
		sheet make v t "$o/out"
	cp v t
	keeps "$o" errs 'pajurenda: t: line 1: control character 0x' sheet make v t "$o/out"
}

# long lines, files without an end, and what is no file
try_odd_files() {
	{ printf '# ' && head -c 1000000 /dev/zero | tr '\000' x && printf '\n40 01 00\n' && cat "$work/bound"; } >t
	makes v t "$o/sheet" 1 26
	same "$o/sheet" "$work/sheet"
	{ printf '40 01 00' && head -c 1000000 /dev/zero | tr '\000' ' ' && printf '#\n' && cat "$work/bound"; } >t
	makes v t "$o/sheet" 1 26
	same "$o/sheet" "$work/sheet"
	head -c 1000000 /dev/zero | tr '\000' 0 >t
	zeros=0000000000000000000000000000000000000000
	keeps "$o" fails_with "pajurenda: t: line 1: offset \"$zeros..\" is not a number" sheet make v t "$o/out"
	{ printf '40' && head -c 100000 /dev/zero | tr '\000' 0 | sed 's/../ 00/g' && head -c 100000 /dev/zero | tr '\000' 0 | sed 's/../ 00/g'; } >t
	keeps "$o" fails_with 'pajurenda: t: line 1: more than 65535 bytes' sheet make v t "$o/out"
	{ printf '40 ' && head -c 1000000 /dev/zero | tr '\000' 0; } >t
	keeps "$o" fails_with "pajurenda: t: line 1: \"$zeros..\" could be bytes or a number: write 00 00 00 00 00 00 00 00 .. for bytes" \
		sheet make v t "$o/out"
	{ head -c 1000000 /dev/zero | tr '\000' '\n' && printf '40'; } >t
	keeps "$o" values 15 t 'line 1000001: offset 0x0028 (the one before ends at 0x0000) length 0, entries so far 1, bytes 24' sheet make v t "$o/out"
	for file in /dev/zero "$work/larger"; do
		keeps "$o" fails_with "pajurenda: $file: File too large" sheet make v "$file" "$o/out"
	done
	cp "$work/good_text" t
	keeps "$o" errs 'No such file' sheet make v t "$o/missing/out"
	keeps "$o" errs 'Is a directory' sheet make v t "$o"
	keeps "$o" errs 'it does not say which image it is for' sheet make v /dev/null "$o/out"
	keeps "$o" fails_with "pajurenda: $o: Is a directory" sheet make v "$o" "$o/out"
	keeps "$o" fails_with "pajurenda: missing: No such file or directory" sheet make v missing "$o/out"
	rm "$o/sheet"
}

# a pipe with a name is read as what comes through it, and never written to
try_named_pipe() {
	rm -f t
	mkfifo t
	{ printf '40 01 00\n' && cat "$work/bound"; } >t &
	makes v t "$o/sheet" 1 26
	wait
	same "$o/sheet" "$work/sheet"
	rm t "$o/sheet"
	mkfifo "$o/pipe"
	cp "$work/good_text" t
	keeps "$o" errs 'Not a regular file' sheet make v t "$o/pipe"
	keeps "$o" errs 'Not a regular file' sheet empty v "$o/pipe"
	rm "$o/pipe"
}

# lost COMMAND INPUT WORDS..: OUT is that input, under its own name or another, and nothing is written
lost() {
	line="pajurenda: $1: OUT is $2 itself, which would be lost (see pajurenda $1 --help)"
	shift 2
	keeps "$i" fails_with "$line" "$@"
}

try_out_is_input() {
	text '40 00'
	cp "$work/sheet" s26
	ln -s v by_link
	ln t by_name
	lost 'sheet empty' IMAGE sheet empty v v
	lost 'sheet empty' IMAGE sheet empty v by_link
	lost 'sheet empty' IMAGE sheet empty by_link ./v
	lost 'sheet make' IMAGE sheet make v t v
	lost 'sheet make' IMAGE sheet make v t by_link
	lost 'sheet make' TEXT sheet make v t t
	lost 'sheet make' TEXT sheet make v t by_name
	lost release SHEET release "$all" --owner=1 v s26 keep s26
	lost release SHEET release "$all" --owner=1 v s26 0x00100000 "$i/s26"
	keeps "$i" errs 'is a sheet already' sheet make v s26 by_name
	rm by_link by_name s26
}

cd "$i"
cp "$work/old" "$o/out"
printf '40 00' >"$work/old_text"
{ printf '40 00\n' && cat "$work/bound"; } >"$work/good_text"
for one in rules_of_lines other_images parts_twice no_numbers no_bytes unbound was hidden odd_files named_pipe out_is_input; do
	"try_$one"
done
cd "$root"
