# shellcheck shell=sh disable=SC2034,SC2154,SC2162,SC2164
# Refusal 22, the reserved bits of a patch entry. The sample's entries 0 and 1 count from the start, at 184 and 188; 2 and 3 from the end, at
# 192 and 196; the top byte of each is its fourth.

rule_reserved="a patch entry's bits 30 to 28 must all be as its bit 31 is"

# turned INDEX VALUE..: the file b, the vendor's image with other top bytes in these entries, in decimal
turned() {
	cp "$vendor" b
	while [ $# -gt 1 ]; do
		poke b $((187 + 4 * $1)) "\\$(printf %o "$2")"
		shift 2
	done
}

# damaged INDEX ENTRY BIT BITS: 22 of the file b, in full
damaged() {
	refuses 22 b "$rule_reserved: entry $1 (counted from 0) is $2, its bit 31 is $3, its bits 30 to 28 are $4" read b
}

# each wrong set of the three bits, where bit 31 is clear and where it is set, whatever the type
try_reserved_bits() {
	for bits in 1:001 2:010 3:011 4:100 5:101 6:110 7:111; do
		turned 0 $((16 * ${bits%:*}))
		damaged 0 "0x${bits%:*}0001192" 0 "${bits#*:}"
		turned 1 $((16 * ${bits%:*} + 15))
		damaged 1 "0x${bits%:*}F001386" 0 "${bits#*:}"
	done
	for bits in 8:000 9:001 A:010 B:011 C:100 D:101 E:110; do
		turned 2 $((0x${bits%:*}F))
		damaged 2 "0x${bits%:*}FFFF771" 1 "${bits#*:}"
		turned 3 $((0x${bits%:*}0))
		damaged 3 "0x${bits%:*}0FFFFFC" 1 "${bits#*:}"
	done
}

# both right forms with both types; the first of several entries at fault is named
try_reserved_right() {
	turned 0 15 1 0 2 255 3 240
	works 0 read --words b
	sed 1,15d "$work/out" | cut -d ' ' -f 1-7 >"$work/rest"
	lines 'patch word 0 entry 0x0F001192 at 4498' 'patch word 1 entry 0x00001386 at 4998' 'patch word 2 entry 0xFFFFF771 at 6001' \
		'patch word 3 entry 0xF0FFFFFC at 8188'
	same "$work/rest" "$work/wanted"
	turned 1 64 2 143 3 143
	damaged 1 0x40001386 0 100
	turned 2 143 3 207
	damaged 2 0x8FFFF771 1 000
}

# after 12 and before 13 and 14, wherever the entries stand; the document's 0x8F000000, which would also lie outside
try_reserved_order() {
	poked "$vendor" b 184 '\000\000\000\217'
	damaged 0 0x8F000000 1 000
	turned 0 143 3 254
	values 12 b 'entry 3 (counted from 0) is 0xFEFFFFFC and points to 8188, its type is 14' read b
	turned 0 113
	values 12 b 'entry 0 (counted from 0) is 0x71001192 and points to 4498, its type is 1' read b
	poked "$vendor" b 184 '\375\037' 199 '\157'
	damaged 3 0x6FFFFFFC 0 110
	poked "$vendor" b 184 '\307\000' 195 '\237'
	damaged 2 0x9FFFF771 1 001
	poked "$vendor" b 188 '\222\021\000\020'
	damaged 1 0x10001192 0 001
	poked "$vendor" b 140 '\037\000' 187 '\020'
	values 10 b 'c 4096, z 31, E 200, the file has 8192 bytes' read b
	poked "$vendor" b 4102 'x' 187 '\020'
	values 11 b '"xT" at 4102, component T' read b
}

# every call gives it, before its own rules and with nothing written; the shipped file's own table isn't judged
try_reserved_calls() {
	turned 2 143
	entry='entry 2 (counted from 0) is 0x8FFFF771, its bit 31 is 1, its bits 30 to 28 are 000'
	cp "$work/old" "$o/out"
	values 22 b "$entry" read --words b
	values 22 b "$entry" setting b 40 2
	values 22 b "$entry" setting b 0 0
	keeps "$o" values 22 b "$entry" release "$all" --owner=1 b "$work/nothing" 0x0 "$o/out"
	keeps "$o" values 22 b "$entry" release "$all" --owner=1 b "$work/nothing" 0x1 "$o/none"
	keeps "$i" values 22 b "$entry" release "$all" --owner=1 b "$work/nothing" 0x00100000 b
	keeps "$o" values 22 b "$entry" release "$all" --owner=1 b good keep "$o/out"
	keeps "$o" values 22 b "$entry" release "$all" --owner=1 b "$work/empty" keep "$o/out"
	keeps "$o" values 22 b "$entry" sheet empty b "$o/out"
	keeps "$o" values 22 b "$entry" sheet make b "$work/old" "$o/out"
	values 22 b "$entry" sheet show good b
	values 22 b "$entry" sheet show "$work/empty" b
	values 22 b "$entry" audit b s
	values 22 b "$entry" audit --bytes b "$work/empty"
	values 22 b "$entry" audit --ranges b b
	works 1 audit --ranges v b
	prints 'base 0xFFF80000' "settings 0 $of_maker" 'strays 1' 'bits 0' 'X 195..195 length 1 tables: patch entry 2' 'verdict unexplained'
}

cd "$i"
for one in bits right order calls; do "try_reserved_$one"; done
cd "$root"
