# shellcheck shell=sh disable=SC2034,SC2154,SC2162,SC2164
# Names and words in lines: what a terminal would take for more than a letter is shown as ?, wherever it comes from.

# a C1 control, a turn of the direction, an end of it, a space of no width, bytes that are no UTF-8 (alone, cut short, too long, a half of a pair),
# and letters, which stay
odd="$(printf 'a\302\233b\342\200\256c\342\201\251d\342\200\213e\377f\233g\342\202h\300\257i\355\240\200j\303\266\346\227\245\360\237\224\247')"
plain="$(printf 'a?b?c?d?e?f?g??h??i???j\303\266\346\227\245\360\237\224\247')"

# calm: nothing of the kind was printed anywhere
calm() {
	cat "$work/out" "$work/err" >"$work/both"
	if LC_ALL=C grep -q -e "$(printf '\302\233')" -e "$(printf '\342\200\256')" -e "$(printf '\377')" "$work/both"; then fail "a raw one"; fi
	passed
}

try_odd_names() {
	fails_with "pajurenda: $plain: No such file or directory" read "$odd"
	calm
	cp "$work/empty" "$odd"
	values 1 "$plain" 'the file has 0 bytes' read "$odd"
	calm
	rm "$odd"
	fails_with "pajurenda: unknown command \"$plain\" (see pajurenda --help)" "$odd"
	fails_with "pajurenda: read: unknown option --$plain (see pajurenda read --help)" read "--$odd" v
	fails_with "pajurenda: setting: OFFSET \"$plain\" is not a number: write hex as 0x00512000, decimal without a leading 0" \
		setting v "$odd" 2
	calm
}

# the lines of a verify, and of a list
try_odd_lines() {
	cp "$work/nothing" "$odd"
	try 0 verify v "$odd" v
	grep -qxF "sheet 1 entries 0 $plain" "$work/out" || fail "no such line"
	calm
	printf 'v %s v\n' "$odd" >list
	try 0 verify --list list
	grep -qF " v $plain v" "$work/out" || fail "no such line"
	calm
	rm "$odd"
	printf '%s v\n' "$odd" >list
	try 2 audit --list list
	grep -qxF "line 1 failed $plain v" "$work/out" || fail "no such line"
	says "pajurenda: $plain: No such file or directory"
	calm
}

# words of texts; a long one is cut between two signs
try_odd_words() {
	printf '%s 00\n' "$odd" >t
	errs "pajurenda: t: line 1: offset \"$(printf 'a?b?c?d?e?f?g??h??i???j\303\266\346\227\245\360\237\224\247')\" is not a number" sheet make v t "$o/odd"
	calm
	printf '1234567890123456789012345678901234567\360\237\224\2478\n' >t
	try 2 sheet make v t "$o/odd"
	says 'pajurenda: t: line 1: offset "1234567890123456789012345678901234567.." is not a number'
	printf '%s\n' "$odd" >t
	try 2 station t
	grep -qF "1 call \"$plain\" refused 41" "$work/out" || fail "no such line"
	tells "call \"$plain\", expected"
	calm
}

cd "$i"
for one in odd_names odd_lines odd_words; do "try_$one"; done
rm -f t list
cd "$root"
