# shellcheck shell=sh disable=SC2034,SC2154,SC2162,SC2164
# What the command is for.

try_read() {
	works 0 read "$vendor"
	prints 'length 8192' 'component T' 'identity 54524541542D3031 "TREAT-01"' 'revision 0x01020304' 'extended 0x0000' 'version 1.2.3.4' \
		'base 0xFFF80000' 'header 100' 'patches 4' 'end 200' 'region c 4096 z 400' 'volume 1 at 0 length 8192' 'modules 0' \
		'words 5 (base word 1, patch words 4, image bases 0, relocation words 0)'
	cp "$work/out" "$work/wanted_reading"
	what='read /dev/stdin, a pipe'
	got=0
	# shellcheck disable=SC2162
	cat "$vendor" "$work/empty" | run read /dev/stdin >"$work/out" 2>"$work/err" || got=$?
	status_was 0
	same "$work/out" "$work/wanted_reading"
}

# the identity as text only where all of it is printable; a revision and a base with zeros before them; another component
try_read_forms() {
	poked "$vendor" "$i/named" 116 '\040"%%\\~az0' 112 '\007\000\000\000' 128 '\000\020\000\000' 135 '\100' 4103 'I'
	works 0 read "$i/named"
	prints 'length 8192' 'component I' 'identity 2022255C7E617A30 " "%\~az0"' 'revision 0x00000007' 'extended 0x0000' 'version 0.0.0.7' \
		'base 0x00001000' 'header 100' 'patches 4' 'end 200' 'region c 4096 z 400' 'volume 1 at 0 length 8192' 'modules 0' \
		'words 5 (base word 1, patch words 4, image bases 0, relocation words 0)'
	for byte in 037 177 200 000 033; do
		poked "$vendor" "$i/unprintable" 123 "\\$byte"
		works 0 read "$i/unprintable"
		grep -qx 'identity 54524541542D30[0-9A-F][0-9A-F]' "$work/out" || fail "an identity that is no text is shown as text"
		passed
	done
}

try_read_words() {
	works 0 read --words "$vendor"
	head -n 14 "$work/out" >"$work/first"
	same "$work/first" "$work/wanted_reading"
	sed 1,14d "$work/out" >"$work/rest"
	lines 'base word at 128 width 4 is 0xFFF80000' 'patch word 0 entry 0x00001192 at 4498 width 4 is 0xFFF80040' \
		'patch word 1 entry 0x00001386 at 4998 width 4 is 0x12345678' 'patch word 2 entry 0xFFFFF771 at 6001 width 4 is 0xFFFFFFFC' \
		'patch word 3 entry 0xFFFFFFFC at 8188 width 4 is 0xFFF81FF0'
	same "$work/rest" "$work/wanted"
	poked "$vendor" "$i/none" 180 '\000'
	works 0 read --words "$i/none"
	[ "$(sed 1,14d "$work/out")" = 'base word at 128 width 4 is 0xFFF80000' ] || fail "words of an image without entries"
	passed
}

# the shipped file of the sample is the vendor's image moved, with two bytes more changed
try_move() {
	works 0 release "$all" --owner=1 "$vendor" "$work/nothing" 0x00100000 "$o/moved"
	prints 'base 0x00100000' 'move -4293394432' 'entries 0'
	poked "$o/moved" "$work/expected" 4136 '\000' 5000 '\064'
	same "$work/expected" "$shipped"
	works 0 release "$all" --owner=1 "$o/moved" "$work/nothing" 0xFFF80000 "$o/back"
	prints 'base 0xFFF80000' 'move 4293394432' 'entries 0'
	same "$o/back" "$vendor"
	works 0 release "$all" --owner=1 "$vendor" "$work/nothing" 0xFFF80000 "$o/stayed"
	prints 'base 0xFFF80000' 'move 0' 'entries 0'
	same "$o/stayed" "$vendor"
}

# IMAGE and OUT one file, under its own name and through a link; the mode and the link stay
try_in_place() {
	cp "$vendor" "$o/place"
	chmod 640 "$o/place"
	in_place release "$all" --owner=1 "$o/place" "$work/nothing" 0x100000 "$o/place"
	same "$o/place" "$o/moved"
	ln -s place "$o/link"
	in_place release "$all" --owner=1 "$o/link" "$work/nothing" 0xfff80000 "$o/link"
	same "$o/place" "$vendor"
	[ -L "$o/link" ] || fail "the link is gone"
	[ "$(find "$o/place" -perm 640)" = "$o/place" ] || fail "the mode changed"
	(umask 027 && works 0 release "$all" --owner=1 "$vendor" "$work/nothing" 0x0 "$o/new")
	[ "$(find "$o/new" -perm 640)" = "$o/new" ] || fail "a new file's mode is not the usual one"
	(cd "$o" && works 0 release "$all" --owner=1 "$vendor" "$work/nothing" 0x0 here)
	same "$o/here" "$o/new"
}

try_set() {
	poked "$vendor" "$work/unset" 4135 '\377\377\377\377'
	poked "$work/unset" "$work/expected" 4136 '\001\000'
	works 0 release "$all" --owner=1 "$work/unset" "$work/sheet" keep "$o/set"
	prints 'base 0xFFF80000' 'move 0' 'entries 1' 'set 0x0028 at 4136: FF FF -> 01 00, 0xFFFF -> 0x0001'
	same "$o/set" "$work/expected"
	works 0 setting "$o/set" 40 2
	prints 'offset 0x0028' 'place 4136' 'length 2' 'bytes 01 00' 'number 0x0001'
	works 0 setting "$work/unset" 0x27 4
	prints 'offset 0x0027' 'place 4135' 'length 4' 'bytes FF FF FF FF' 'number 0xFFFFFFFF'
	works 0 setting "$vendor" 399 1
	prints 'offset 0x018F' 'place 4495' 'length 1' 'bytes B6'
	in_place release "$all" --owner=1 "$o/set" "$work/sheet" keep "$o/set"
	same "$o/set" "$work/expected"
}

# both in one step, whatever there is of each; in place too
try_release() {
	poked "$o/moved" "$work/expected" 4136 '\001\000'
	works 0 release "$all" --owner=1 "$vendor" "$work/sheet" 0x00100000 "$o/released"
	prints 'base 0x00100000' 'move -4293394432' 'entries 1' 'set 0x0028 at 4136: 01 05 -> 01 00, 0x0501 -> 0x0001'
	same "$o/released" "$work/expected"
	works 0 audit --ranges "$vendor" "$o/released"
	prints 'base 0x00100000' "settings 1 $of_maker" 'strays 0' 'bits 2' 'S 4137..4137 length 1 region offset 0x0029' 'verdict explained' "$unchecked"
	in_place release "$all" --owner=1 "$o/released" "$work/sheet" keep "$o/released"
	prints 'base 0x00100000' 'move 0' 'entries 1' 'set 0x0028 at 4136: 01 00, 0x0001, changes nothing'
	same "$o/released" "$work/expected"
	works 0 release "$all" --owner=1 "$vendor" "$work/nothing" keep "$o/released"
	prints 'base 0xFFF80000' 'move 0' 'entries 0'
	same "$o/released" "$vendor"
	rm "$o/released"
}

# the pairs of the gate: the document's output but for the form of the base; of the last pair its program has no room for all
try_audit() {
	for pair in sample:1 explained:0; do
		data=$root/crates/run_${pair%:*}
		works "${pair#*:}" audit "$data/data/vendor.bin" "$data/data/shipped.bin"
		sed "s/^base /base 0x/; s/^settings .*/& $of_maker/" "$data/stdout" >"$work/wanted"
		[ "${pair#*:}" -ne 0 ] || echo "$unchecked" >>"$work/wanted"
		same "$work/out" "$work/wanted"
	done
	data=$root/crates/run_short/data
	works 1 audit "$data/vendor.bin" "$data/shipped.bin"
	[ "$(sed -n '2,4p' "$work/out" | tr '\n' ' ')" = "settings 250 $of_maker strays 50 bits 989 " ] || fail "other counts"
	[ "$(grep -c '^S [0-9]*$' "$work/out")" -eq 250 ] || fail "not 250 settings listed"
	[ "$(grep -c '^X [0-9]*$' "$work/out")" -eq 50 ] || fail "not 50 strays listed"
	works 0 audit "$vendor" "$vendor"
	prints 'base 0xFFF80000' "settings 0 $of_maker" 'strays 0' 'bits 0' 'verdict explained' "$unchecked"
}

# byte 5000 is in a patch word: what it should be is the vendor's 34 moved by 0x18
try_audit_bytes() {
	works 1 audit --bytes "$vendor" "$shipped"
	prints 'base 0x00100000' "settings 1 $of_maker" 'strays 1' 'bits 1' 'S 4136 01 00' 'X 5000 4C 34' 'verdict unexplained'
	try 2 audit --bytes "$refused" "$shipped"
	prints 'refused 14'
}

# the longest image, and a list of 65,536 differences
try_large() {
	works 0 release "$all" --owner=1 "$work/large" "$work/nothing" 0xff000000 "$o/large"
	prints 'base 0xFF000000' 'move 4278190080' 'entries 0'
	in_place release "$all" --owner=1 "$o/large" "$work/nothing" 0x0 "$o/large"
	same "$o/large" "$work/large"
	head -c 65536 /dev/zero | tr '\000' '\001' | dd of="$o/large" bs=4096 seek=4000 conv=notrunc 2>/dev/null
	works 1 audit --bytes "$work/large" "$o/large"
	[ "$(sed -n 3p "$work/out")" = 'strays 65536' ] || fail "other counts"
	[ "$(grep -c '^X [0-9]* 00 01$' "$work/out")" -eq 65536 ] || fail "not every stray is listed"
	[ "$(sed -n 5p "$work/out")" = 'X 16384000 00 01' ] || fail "the first stray is another"
	works 1 audit --ranges "$work/large" "$o/large"
	[ "$(sed -n 5p "$work/out")" = 'X 16384000..16449535 length 65536 after the volume' ] || fail "the range is another"
	[ "$(wc -l <"$work/out")" -eq 6 ] || fail "more than one range"
	rm "$o/large"
}

# whatever base an output shows, a command that is given it takes it for the same
try_base_again() {
	for base in 0x00512000 0x00001000 0xFFFFE000 0x10000000 0x00000000; do
		works 0 release "$all" --owner=1 "$vendor" "$work/nothing" "$base" "$o/again"
		[ "$(sed -n 's/^base //p' "$work/out")" = "$base" ] || fail "release shows another base"
		works 0 read "$o/again"
		[ "$(sed -n 's/^base //p' "$work/out")" = "$base" ] || fail "read shows another base"
		works 0 audit "$vendor" "$o/again"
		shown=$(sed -n 's/^base //p' "$work/out")
		[ "$shown" = "$base" ] || fail "audit shows another base"
		works 0 release "$all" --owner=1 "$o/again" "$work/nothing" "$shown" "$o/same"
		prints "base $base" 'move 0' 'entries 0'
		works 0 read --words "$o/again"
		shown=$(sed -n 's/^base word at 128 width 4 is //p' "$work/out")
		works 0 release "$all" --owner=1 "$o/again" "$work/nothing" "$shown" "$o/same"
		prints "base $base" 'move 0' 'entries 0'
	done
}

try_read
try_read_forms
try_read_words
try_move
try_in_place
try_set
try_release
try_audit
try_audit_bytes
try_large
try_base_again
