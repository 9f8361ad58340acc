# shellcheck shell=sh disable=SC2034,SC2154,SC2162,SC2164
# How an audit is shown: ranges with their bytes, the verdict first on a terminal, nothing with -q; and files from standard input.

# the bytes of each range in the maker's image moved and in the file, and eight bytes of the file on either side
try_ranges_with_bytes() {
	works 1 audit --ranges --bytes "$vendor" "$shipped"
	prints 'base 0x00100000' "settings 1 $of_maker" 'strays 1' 'bits 1' \
		"S 4136..4136 length 1 region offset 0x0028 maker's 01 is 00 preceded by $(bytes_at "$shipped" 4128 8) followed by $(bytes_at "$shipped" 4137 8)" \
		"X 5000..5000 length 1 patch word 1 maker's 4C is 34 preceded by $(bytes_at "$shipped" 4992 8) followed by $(bytes_at "$shipped" 5001 8)" \
		'verdict unexplained'
	cp "$work/out" "$work/both"
	works 1 audit --bytes --ranges "$vendor" "$shipped"
	same "$work/out" "$work/both"
	cp "$vendor" "$i/ends"
	flip "$i/ends" 0 0
	flip "$i/ends" 3 40
	flip "$i/ends" 8186 8186
	works 1 audit --ranges --bytes "$vendor" "$i/ends"
	[ "$(sed -n 5p "$work/out")" = "X 0..0 length 1 elsewhere maker's $(bytes_at "$vendor" 0 1) is $(bytes_at "$i/ends" 0 1) preceded by nothing followed by $(bytes_at "$i/ends" 1 8)" ] ||
		fail "the first byte's range"
	[ "$(sed -n 6p "$work/out")" = "X 3..40 length 38 elsewhere maker's $(bytes_at "$vendor" 3 16) .. is $(bytes_at "$i/ends" 3 16) .. preceded by $(bytes_at "$i/ends" 0 3) followed by $(bytes_at "$i/ends" 41 8)" ] ||
		fail "a long range"
	[ "$(sed -n 7p "$work/out" | sed 's/.* followed by //')" = "$(bytes_at "$i/ends" 8187 5)" ] || fail "the last range"
	passed
}

# -q: the exit status alone; what is wrong is still told
try_quiet() {
	works 1 audit -q "$vendor" "$shipped"
	prints
	works 0 verify --quiet "$vendor" "$work/nothing" "$o/moved"
	prints
	try 2 audit -q "$refused" "$shipped"
	prints
	tells 'refused 14 OVERLAP'
	errs '-q shows nothing: no other form goes with it' audit -q --json "$vendor" "$shipped"
	errs '--json has both bytes and ranges: no other form goes with it' audit --bytes --json "$vendor" "$shipped"
	errs '--list has a line for each pair: no other form but --json goes with it' audit -q --list "$work/old"
	errs 'takes no option -q' read -q "$vendor"
}

# given FILE STATUS WORDS..: one run with the file as standard input
given() {
	from=$1 wanted=$2
	shift 2
	what="$* <$from"
	got=0
	run "$@" <"$from" >"$work/out" 2>"$work/err" || got=$?
	status_was "$wanted"
}

try_standard_input() {
	run audit "$vendor" "$shipped" >"$work/wanted_lines" || :
	given "$vendor" 1 audit - "$shipped"
	same "$work/out" "$work/wanted_lines"
	given "$shipped" 1 audit "$vendor" -
	same "$work/out" "$work/wanted_lines"
	given "$work/sheet" 0 sheet show -
	given "$work/all" 0 release --owners - --owner 1 "$vendor" "$work/sheet" keep "$o/piped"
	works 0 release "$all" --owner 1 "$vendor" "$work/sheet" keep "$o/plain"
	same "$o/piped" "$o/plain"
	given "$vendor" 2 audit - -
	says 'pajurenda: -: standard input is given for two files'
	cp "$vendor" "$o/itself"
	given "$o/itself" 2 sheet empty - "$o/itself"
	tells 'OUT is IMAGE itself'
	same "$o/itself" "$vendor"
	bare=yes
	given "$vendor" 2 release "$all" --owner 1 - "$work/sheet" keep "$o/unnamed"
	bare=
	tells 'standard input has no name that a record could keep: give a file, or --no-record'
	[ ! -e "$o/unnamed" ] || fail "an image without its record"
	cp "$vendor" "$o/-"
	(cd "$o" && works 0 read ./-)
	rm "$o/itself" "$o/piped" "$o/plain" "$o/-"
}

# on a terminal the verdict stands first
try_terminal() {
	if ! command -v python3 >/dev/null; then
		not_run="$not_run; the verdict on a terminal (no python3)"
		return
	fi
	what='audit on a terminal'
	python3 -c '
import os, pty, sys
out = open(sys.argv[1], "wb")
def keep(fd):
    data = os.read(fd, 1024)
    out.write(data)
    return data
pty.spawn(sys.argv[2:], keep)' "$work/terminal" ${emulator:+"$emulator"} "$command" audit "$vendor" "$shipped" </dev/null >/dev/null
	tr -d '\r' <"$work/terminal" >"$work/out"
	prints 'verdict unexplained' 'base 0x00100000' "settings 1 $of_maker" 'strays 1' 'bits 1' 'S 4136' 'X 5000'
}

# a damaged base word: legal but at odds with most words, or not legal; which base the others have, and how many
try_damaged_base() {
	changed "$shipped" "$i/legal" 129 16
	works 1 audit "$vendor" "$i/legal"
	[ "$(sed -n 1,2p "$work/out")" = 'base 0x00101000
3 of 4 other words agree on base 0x00100000: the base word may be damaged' ] || fail "the words' own base"
	works 1 verify "$vendor" "$work/nothing" "$i/legal"
	grep -qx '3 of 4 other words agree on base 0x00100000: the base word may be damaged' "$work/out" || fail "the words' own base in a verify"
	works 1 audit --json --report "$i/page" "$vendor" "$i/legal"
	grep -qxF '  "agreed": {"base": "0x00100000", "words": 3, "of": 4},' "$work/out" || fail "the words' own base in a document"
	grep -q '3 of 4 other words agree on base 0x00100000: the base word may be damaged' "$i/page" || fail "the words' own base on the page"
	changed "$shipped" "$i/illegal" 128 1
	try 2 audit --report "$i/page" "$vendor" "$i/illegal"
	prints 'refused 18'
	tells '0x00100001 for 8192 bytes; 3 of 4 other words agree on base 0x00100000'
	grep -q '3 of 4 other words agree on base 0x00100000' "$i/page" || fail "the words' own base on the page of a refusal"
	works 1 audit "$vendor" "$shipped"
	! grep -q 'agree on base' "$work/out" || fail "a base word that is right"
	changed "$i/legal" "$i/none" 4498 1 4998 2 6001 3 8188 4
	works 1 audit "$vendor" "$i/none"
	! grep -q 'agree on base' "$work/out" || fail "words that agree on nothing"
	passed
}

try_ranges_with_bytes
try_damaged_base
try_quiet
try_standard_input
try_terminal
