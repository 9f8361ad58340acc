# shellcheck shell=sh disable=SC2034,SC2154,SC2162,SC2164
# Refusals: the number for scripts, the file, the rule and the values for people. The files are named as they were given, so the runs are
# in the folder of the images; no refusal writes anything there.

rule_volume="the volume's header must have the mark _FVH, an even length h from 72 to V, a sum of 0 and any extended header within V, \
V within the file"
rule_file="the volume's first file must be 912740BE-2284-4734-B971-84B027353F0C, not large, its header's sum 0, its size s 28 \
or more, and lie within V"
rule_header="the section must start with FSPH, of revision 3 or more and a length L from 72 (from revision 6 on, 80) to 256, or of \
revision 1 and a length of 60 or 64, with 4+L within the section's size"
rule_table="a patch table FSPP, of revision 1 and at most 1024 entries, must follow the header or its FSPE of \
24 bytes or more, within the section"
rule_sheet='a sheet must have 16 to 65535 bytes: contents (at most 256 entries in order, none empty), then bodies without a gap or a rest'
rule_identity="the sheet must be for the image's identity, revision and extended number"
rule_base='must be a multiple of 4096, base plus length at most 2^32'

# image FILE POSITION OCTAL..: the vendor's image with bytes put into it
image() {
	name=$1
	shift
	poked "$vendor" "$name" "$@"
}

# ---- an image's own, 1 to 14; 22 is in reserved.sh ----

try_lengths() {
	refuses 1 "$work/empty" 'an image has 72 to 16777216 bytes: the file has 0 bytes' read "$work/empty"
	values 1 "$work/71" 'the file has 71 bytes' read "$work/71"
	values 1 "$work/above" 'the file has more than 16777216 bytes' read "$work/above"
	values 1 /dev/zero 'the file has more than 16777216 bytes' read /dev/zero
	values 1 /dev/null 'the file has 0 bytes' read /dev/null
	values 1 "$work/larger" 'the file has more than 16777216 bytes' read "$work/larger"
}

# h, V and x are at 48, 32 and 52; the sum is over the first 36 words
try_volume() {
	image b 40 X
	refuses 2 b "$rule_volume: mark \"XFVH\", h 72, V 8192, sum 0xFFF9, x 0, the file has 8192 bytes" read b
	image b 43 '\000'
	values 2 b 'mark 5F465600, h 72, V 8192, sum 0xB800, x 0, the file has 8192 bytes' read b
	image b 32 '\001\040'
	values 2 b 'mark "_FVH", h 72, V 8193, sum 0x0001, x 0, the file has 8192 bytes' read b
	image b 48 '\107'
	values 2 b 'mark "_FVH", h 71, V 8192, x 0, the file has 8192 bytes' read b
	image b 48 '\377\377'
	values 2 b 'mark "_FVH", h 65535, V 8192, x 0, the file has 8192 bytes' read b
	image b 39 '\377'
	values 2 b 'mark "_FVH", h 72, V 18374686479671631872, sum 0xFF00, x 0, the file has 8192 bytes' read b
	image b 52 '\110'
	values 2 b 'mark "_FVH", h 72, V 8192, sum 0x0048, x 72, e 174754, the file has 8192 bytes' read b
	image b 52 '\110' 88 '\023\001'
	values 2 b 'mark "_FVH", h 72, V 8192, sum 0x0048, x 72, e 131347, the file has 8192 bytes' read b
	image b 52 '\377\377'
	values 2 b 'mark "_FVH", h 72, V 8192, sum 0xFFFF, x 65535, the file has 8192 bytes' read b
	head -c 72 "$vendor" >b
	values 2 b 'mark "_FVH", h 72, V 8192, sum 0x0000, x 0, the file has 72 bytes' read b
}

# an extended header of 8 KiB makes f 8240; the sum at 50 is made right again: x 48 and one word of e more
try_file() {
	good='name 912740BE-2284-4734-B971-84B027353F0C, attributes 0x00'
	image b 72 '\277'
	refuses 3 b "$rule_file: f 72, V 8192, name 912740BF-2284-4734-B971-84B027353F0C, attributes 0x00, sum 0x01, s 128" read b
	image b 80 '\001\002\003\004\005\006\007\010'
	values 3 b 'f 72, V 8192, name 912740BE-2284-4734-0102-030405060708, attributes 0x00, sum 0x1F, s 128' read b
	image b 91 '\001'
	values 3 b 'f 72, V 8192, name 912740BE-2284-4734-B971-84B027353F0C, attributes 0x01, sum 0x01, s 128' read b
	image b 89 '\377' 92 '\033\000\000' 95 '\377'
	values 3 b "f 72, V 8192, $good, sum 0x9B, s 27" read b
	image b 94 '\377'
	values 3 b "f 72, V 8192, $good, sum 0xFF, s 16711808" read b
}

# the volume's sum is made right again after each edit; f comes to stand past what is there
try_file_outside() {
	poked "$vendor" b 52 '\110' 88 '\000\020\000\000' 50 '\001\001'
	sum=$(run read b 2>&1 | sed -n 's/.*sum 0x\([0-9A-F]*\),.*/\1/p')
	[ -n "$sum" ] || fail "no sum to make right"
	old=$(od -An -tu2 -j50 -N2 b)
	new=$(((old - 0x$sum + 65536) % 65536))
	poke b 50 "\\$(printf %o $((new % 256)))\\$(printf %o $((new / 256)))"
	values 3 b 'f 4168, V 8192, name E2BD9873-2C07-7651-9BC0-E50A2F54799E, attributes 0x32, sum 0xFE, s 10583127' read b
	poke b 88 '\270\037'
	values 3 b 'f 8192, V 8192, no 24 bytes in the file there' read b
}

try_section() {
	image b 99 '\030'
	refuses 4 b "the header file's section must be of type 0x19 and of size 76 (64 where the header's revision is 1) to s-24: type 0x18, size 104, s 128" read b
	image b 96 '\113'
	values 4 b 'type 0x19, size 75, s 128, header revision 3' read b
	image b 96 '\151'
	values 4 b 'type 0x19, size 105, s 128' read b
}

try_header() {
	image b 103 X
	refuses 5 b "$rule_header: mark \"FSPX\" at H 100, revision 3, L 72, section size 104" read b
	image b 111 '\002'
	values 5 b 'mark "FSPH" at H 100, revision 2, L 72, section size 104' read b
	image b 104 '\107'
	values 5 b 'mark "FSPH" at H 100, revision 3, L 71, section size 104' read b
	image b 107 '\001'
	values 5 b 'mark "FSPH" at H 100, revision 3, L 16777288, section size 104' read b
}

# a real image's length, as the file was cut by one byte
try_size() {
	image vendor.bin 124 '\000\000\010\000'
	sparse vendor.bin 524287
	refuses 6 vendor.bin 'header says 524288 bytes, the file has 524287' read vendor.bin
	refuses 6 vendor.bin 'header says 524288 bytes, the file has 524287' audit vendor.bin s
	sparse vendor.bin 524288
	works 0 read vendor.bin
}

try_component() {
	image b 135 '\000'
	refuses 7 b 'the component must be 1 (T), 2 (M), 3 (S) or 4 (I): it is 0' read b
	image b 135 '\200'
	values 7 b 'it is 8, OEM' read b
}

try_own_base() {
	image b 128 '\001'
	refuses 8 b "the image's own base $rule_base: 0xFFF80001 for 8192 bytes" read b
	image b 128 '\000\360\377\377'
	values 8 b '0xFFFFF000 for 8192 bytes' read b
	image b 128 '\000\010\000\000'
	values 8 b '0x00000800 for 8192 bytes' read b
}

try_table() {
	image b 175 E
	values 9 b 'FSPE at 172 of length 65560, mark past the file'"'"'s end at p 65732, the section ends at 200' read b
	image b 175 X
	refuses 9 b "$rule_table: mark \"FSPX\" at p 172: another table stands there, and no FSPP after it, the section ends at 200" read b
	image b 178 '\002'
	values 9 b 'mark "FSPP" at p 172, revision 2, n 4, E 200, the section ends at 200' read b
	image b 180 '\005'
	values 9 b 'mark "FSPP" at p 172, revision 1, n 5, E 204, the section ends at 200' read b
	image b 180 '\377\377\377\377'
	values 9 b 'mark "FSPP" at p 172, revision 1, n 4294967295, E 17179869364, the section ends at 200' read b
	image b 175 'E\025\000\000\000'
	values 9 b 'FSPE at 172 of length 21, mark FCFFFFFF at p 196, revision 255, n 4294967295, E 17179869388, the section ends at 200' read b
	image b 175 'E\377\377\377\377'
	values 9 b 'FSPE at 172 of length 4294967295, mark past the file'"'"'s end at p 4294967468, the section ends at 200' read b
}

try_region() {
	image b 140 '\037\000'
	refuses 10 b 'the region must have 32 to 65536 bytes, from E on and within the image: c 4096, z 31, E 200, the file has 8192 bytes' read b
	image b 136 '\307\000'
	values 10 b 'c 199, z 400, E 200, the file has 8192 bytes' read b
	image b 136 '\377\377\377\377'
	values 10 b 'c 4294967295, z 400, E 200, the file has 8192 bytes' read b
	image b 4102 'x'
	refuses 11 b "the region's mark must be _ and the component's letter: \"xT\" at 4102, component T" read b
	image b 4103 '\000'
	values 11 b '5F00 at 4102, component T' read b
	image b 135 '\100'
	values 11 b '"_T" at 4102, component I' read b
}

# entry 0 is at 184, entry 3 at 196
try_entries() {
	image b 187 '\001'
	refuses 12 b "a patch entry's type must be 0 or 15: entry 0 (counted from 0) is 0x01001192 and points to 4498, its type is 1" read b
	image b 199 '\376'
	values 12 b 'entry 3 (counted from 0) is 0xFEFFFFFC and points to 8188, its type is 14' read b
	image b 184 '\375\037'
	rule='a patch word must lie inside the image'
	refuses 13 b "$rule: entry 0 (counted from 0) is 0x00001FFD and points to 8189, the image has 8192 bytes" read b
	image b 188 '\000\000\000\377'
	values 13 b 'entry 1 (counted from 0) is 0xFF000000 and points to -16769024, the image has 8192 bytes' read b
	image b 192 '\377\337\377'
	values 13 b 'entry 2 (counted from 0) is 0xFFFFDFFF and points to -1, the image has 8192 bytes' read b
	clear='a patch word must be clear of tables, region and earlier words'
	image b 184 '\307\000'
	refuses 14 b "$clear: entry 0 (counted from 0) is 0x000000C7 and points to 199, E 200, c 4096, z 400" read b
	image b 188 '\217\021'
	values 14 b 'entry 1 (counted from 0) is 0x0000118F and points to 4495, E 200, c 4096, z 400, nearest earlier entry 0 at 4498' read b
	image b 196 '\211\023\000\000'
	values 14 b 'entry 3 (counted from 0) is 0x00001389 and points to 5001, E 200, c 4096, z 400, nearest earlier entry 1 at 4998' read b
	refuses 14 r "$clear: entry 2 (counted from 0) is 0xFFFFF195 and points to 4501, E 200, c 4096, z 400, nearest earlier entry 0 at 4498" read r
}

# each call that reads an image has the image's own refusal, with the entry
try_own_in_calls() {
	entry='entry 2 (counted from 0) is 0xFFFFF195 and points to 4501, E 200, c 4096, z 400, nearest earlier entry 0 at 4498'
	entry_of_r=$entry
	values 14 r "$entry" setting r 40 2
	values 14 r "$entry" audit r s
	values 14 r "$entry" audit r "$work/above"
	cp "$work/old" "$o/out"
	keeps "$o" values 14 r "$entry" release "$all" --owner=1 r "$work/nothing" 0x0 "$o/out"
	keeps "$o" values 14 r "$entry" release "$all" --owner=1 r "$work/nothing" 0x1 "$o/out"
	keeps "$o" values 14 r "$entry" release "$all" --owner=1 r "$work/empty" keep "$o/out"
	keeps "$o" values 1 "$work/above" 'the file has more than 16777216 bytes' release "$all" --owner=1 "$work/above" "$work/nothing" 0x0 "$o/none"
	keeps "$o" values 1 "$work/empty" 'the file has 0 bytes' release "$all" --owner=1 "$work/empty" "$work/sheet" keep "$o/none"
	values 1 "$work/empty" 'the file has 0 bytes' audit "$work/empty" s
	values 1 "$work/above" 'the file has more than 16777216 bytes' audit "$work/above" "$work/above"
}

# ---- a sheet's, 15 to 17 ----

# refuses_sheet N FILE TEXT: as values, of `release`, nothing written
refuses_sheet() { keeps "$o" values "$1" "$2" "$3" release "$all" --owner=1 v "$2" keep "$o/out"; }

# odd_entry LENGTH M INDEX OFFSET END LENGTH BODY RUNNING: 15 of the file b, which names the first entry that does not follow
odd_entry() {
	refuses_sheet 15 b "the file has $1 bytes, m $2, entry $3 (counted from 0) has offset $(printf '0x%04X' "$4") \
(the one before ends at $(printf '0x%04X' "$5")), length $6, body at $7 (the one before ends at $8)"
}

try_sheets() {
	cp "$work/sheet" good
	head -c 25 good >b
	keeps "$o" refuses 15 b "$rule_sheet: the file has 25 bytes, m 1, the last body ends at 26" release "$all" --owner=1 v b keep "$o/out"
	refuses_sheet 15 "$work/empty" 'the file has 0 bytes'
	head -c 15 good >b
	refuses_sheet 15 b 'the file has 15 bytes'
	refuses_sheet 15 "$work/above" 'the file has more than 16777216 bytes, m 0, the last body ends at 16'
	poked good b 20 '\000'
	odd_entry 26 1 0 40 0 0 24 24
	poked good b 22 '\031'
	odd_entry 26 1 0 40 0 2 25 24
	poked good b 12 '\002'
	odd_entry 26 2 0 40 0 2 24 32
	poked good b 12 '\002' 22 '\040'
	refuses_sheet 15 b 'the file has 26 bytes, m 2, entry 1 (counted from 0) is cut short'
	printf 'TREAT-01\004\003\002\001\002\000\000\000\050\000\000\000\002\000\040\000\051\000\000\000\001\000\042\000abc' >b
	odd_entry 35 2 1 41 42 1 34 34
}

try_identities() {
	numbers='revision 0x01020304 extended 0x0000 version 1.2.3.4'
	same_image="v is 54524541542D3031 \"TREAT-01\" $numbers"
	poked good b 11 '\002'
	keeps "$o" refuses 16 b "$rule_identity: the sheet is for 54524541542D3031 \"TREAT-01\" revision 0x02020304 extended 0x0000 \
version 2.2.3.4, $same_image" release "$all" --owner=1 v b keep "$o/out"
	poked good b 7 '\000'
	refuses_sheet 16 b "the sheet is for 54524541542D3000 $numbers, $same_image"
}

# the first entry that does not fit is named; the settings part is 32 to 399
try_fields() {
	rule='a setting must have a byte or more, at offsets 32 to z-1 of the region'
	poked good b 16 '\037'
	keeps "$o" refuses 17 b "$rule: entry 0 (counted from 0) has offset 0x001F length 2, the region's size z is 0x0190" release "$all" --owner=1 v b keep "$o/none"
	printf 'TREAT-01\004\003\002\001\003\000\000\000' >b
	printf '\050\000\000\000\002\000\050\000\217\001\000\000\002\000\052\000\000\002\000\000\001\000\054\000abcde' >>b
	refuses_sheet 17 b "entry 1 (counted from 0) has offset 0x018F length 2, the region's size z is 0x0190"
	refuses 17 v "$rule: offset 0x001F length 1, the region's size z is 0x0190" setting v 31 1
	for words in '400 1' '399 2' '40 0' '18446744073709551615 1' '40 18446744073709551615'; do
		# shellcheck disable=SC2086
		values 17 v "offset $(printf '0x%04X' "${words% *}") length ${words#* }, the region's size z is 0x0190" setting v $words
	done
	values 17 v "offset 0x0028 length 18446744073709551615, the region's size z is 0x0190" setting v 40 0xFFFFFFFFFFFFFFFF
}

# ---- bases and pairs, 18 and 19 ----

try_new_bases() {
	cp "$work/old" "$o/out"
	for base in 0x00100800 0xFFFFF000 0x100000000 0x100100000 0xFFFFFFFFFFFFFFFF; do
		keeps "$o" refuses 18 v "the new base $rule_base: $base for 8192 bytes" release "$all" --owner=1 v "$work/nothing" "$base" "$o/out"
	done
	keeps "$o" refuses 18 v "the new base $rule_base: 0xFFFFFFFFFFFFFFFF for 8192 bytes" release "$all" --owner=1 v "$work/nothing" 0xffffffffffffffff "$o/out"
	keeps "$o" refuses 18 v "the new base $rule_base: 0x00000001 for 8192 bytes" release "$all" --owner=1 v "$work/nothing" 0x1 "$o/none"
	poked s b 128 '\001'
	refuses 18 b "the shipped file's base $rule_base: 0x00100001 for 8192 bytes; 3 of 4 other words agree on base 0x00100000" audit v b
	poked s b 128 '\000\360\377\377'
	refuses 18 b "the shipped file's base $rule_base: 0xFFFFF000 for 8192 bytes; 3 of 4 other words agree on base 0x00100000" audit --ranges v b
}

# a release that is wrong in several ways: the image's own, then the sheet's form, its image, its fields, then the base
try_release_order() {
	cp "$work/old" "$o/out"
	head -c 25 good >b
	keeps "$o" values 14 r "$entry" release "$all" --owner=1 r b 0x1 "$o/out"
	keeps "$o" values 15 b 'the file has 25 bytes, m 1, the last body ends at 26' release "$all" --owner=1 v b 0x1 "$o/out"
	poked good b 0 X 16 '\037'
	keeps "$o" values 16 b "the sheet is for 58524541542D3031 \"XREAT-01\" revision 0x01020304 extended 0x0000 version 1.2.3.4, $same_image" \
		release "$all" --owner=1 v b 0x1 "$o/out"
	poked good b 16 '\037'
	keeps "$o" values 17 b "entry 0 (counted from 0) has offset 0x001F length 2, the region's size z is 0x0190" release "$all" --owner=1 v b 0x1 "$o/out"
	keeps "$o" refuses 18 v "the new base $rule_base: 0x00000001 for 8192 bytes" release "$all" --owner=1 v good 0x1 "$o/out"
	poked "$work/nothing" b 7 '\002'
	keeps "$o" values 16 b "the sheet is for 54524541542D3002 revision 0x01020304 extended 0x0000 version 1.2.3.4, $same_image" \
		release "$all" --owner=1 v b 0x00100000 "$o/out"
}

try_pairs() {
	head -c 8191 s >b
	refuses 19 b 'the two images must be equally long: the file has 8191 bytes, v has 8192' audit v b
	values 19 "$work/empty" 'the file has 0 bytes, v has 8192' audit v "$work/empty"
	values 19 "$work/above" 'the file has more than 16777216 bytes, v has 8192' audit v "$work/above"
	values 19 "$work/larger" "the file has more than 16777216 bytes, $work/large has 16777216" audit "$work/large" "$work/larger"
}

# a name that would make a line of its own is shown without
try_names() {
	name='b
v: refused 1 LENGTH: x'
	cp "$work/71" "$name"
	values 1 'b?v: refused 1 LENGTH: x' 'the file has 71 bytes' read "$name"
	fails_with 'pajurenda: a?b: No such file or directory' read 'a	b'
	rm "$name"
}

# a file of 5 GiB, where the disk can hold one that takes no room
try_huge() {
	if ! sparse "$work/huge" 5368709120; then
		not_run="$not_run; a file of 5 GiB (the disk has none)"
		return
	fi
	long='the file has more than 16777216 bytes'
	values 1 "$work/huge" "$long" read "$work/huge"
	values 1 "$work/huge" "$long" audit "$work/huge" s
	values 19 "$work/huge" "$long, v has 8192" audit v "$work/huge"
	keeps "$o" values 1 "$work/huge" "$long" release "$all" --owner=1 "$work/huge" "$work/nothing" 0x0 "$o/out"
	refuses_sheet 15 "$work/huge" "$long, m 0, the last body ends at 16"
	rm "$work/huge"
}

cd "$i"
for one in lengths volume file file_outside section header size component own_base table region entries own_in_calls sheets identities \
	fields new_bases release_order pairs names huge; do
	"try_$one"
done
cd "$root"
