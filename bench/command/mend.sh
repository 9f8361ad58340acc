# shellcheck shell=sh disable=SC2034,SC2154,SC2162,SC2164
# Stray bytes put back: what is shown, what is written, that an audit then says explained; what is refused, and that nothing is written then.

# harmed FILE POSITION..: the file with these bytes others
cat >"$work/harm.py" <<'END'
import sys
data = bytearray(open(sys.argv[1], "rb").read())
for at in sys.argv[2:]:
    data[int(at)] ^= 0x5A
sys.stdout.buffer.write(bytes(data))
END
harmed() { python3 "$work/harm.py" "$@" >"$i/harmed"; }

left='S 4136..4136 length 1 region offset 0x0028'

try_mended() {
	works 0 mend "$vendor" "$shipped" "$o/mended"
	prints 'base 0x00100000' 'put back 1' 'X 5000..5000 length 1 patch word 1' 'settings 1' 'bits 1' "$left" 'mended'
	harmed "$shipped" 5000
	python3 -c 'import sys; a, b, c = (open(n, "rb").read() for n in sys.argv[1:]); sys.exit([k for k in range(len(a)) if a[k] != b[k]] != [5000] or a[5000] == c[5000])' \
		"$o/mended" "$shipped" "$i/harmed" || fail "a byte other than the stray was changed"
	works 0 mend "$vendor" "$o/mended" "$o/mend.again"
	prints 'base 0x00100000' 'put back 0' 'settings 1' 'bits 1' "$left" 'nothing to mend'
	same "$o/mend.again" "$o/mended"
	rm "$o/mend.again"
}

# the first and the last byte come back, the last in a word of the move; a file with nothing to mend is written as it is
try_harmed() {
	harmed "$o/mended" 0 8191
	works 0 mend "$vendor" "$i/harmed" "$o/back"
	prints 'base 0x00100000' 'put back 2' 'X 0..0 length 1 elsewhere' 'X 8191..8191 length 1 patch word 3' 'settings 1' 'bits 1' "$left" 'mended'
	same "$o/back" "$o/mended"
	works 0 audit "$vendor" "$o/back"
	works 0 mend --replace "$vendor" "$vendor" "$o/back"
	prints 'base 0xFFF80000' 'put back 0' 'settings 0' 'bits 0' 'nothing to mend'
	same "$o/back" "$vendor"
	rm "$o/back"
}

try_unmended() {
	head -c 8191 "$shipped" >"$i/short"
	values 19 "$i/short" "the file has 8191 bytes, $vendor has 8192" mend "$vendor" "$i/short" "$o/none"
	values 1 "$work/71" 'the file has 71 bytes' mend "$work/71" "$shipped" "$o/none"
	[ ! -e "$o/none" ] || fail "a refused mending wrote a file"
}

try_mended
try_harmed
try_unmended
rm "$o/mended"
