# shellcheck shell=sh disable=SC2034,SC2154,SC2162,SC2164
# Any bytes: images and sheets that are right but for some bytes from a seed, cut short, or nothing but random bytes. Whatever the answer,
# the exit status, the number and the line on standard error go together.

# well_told FILE: a refusal of that file in its form, or no word on standard error
well_told() {
	[ "$got" -le 2 ] || fail "exit status $got"
	if [ "$got" -lt 2 ]; then
		says
		return
	fi
	number=$(sed -n 's/^refused \([0-9]*\)$/\1/p' "$work/out")
	[ -n "$number" ] || fail "exit status 2 without a refusal"
	prints "refused $number"
	[ "$(wc -l <"$work/err")" -eq 1 ] || fail "not one line on standard error"
	case $(cat "$work/err") in
	"$1: refused $number $(name_of "$number"): "*[0-9a-z]*) passed ;;
	*) fail "another form on standard error" ;;
	esac
}

# answer FILE WORDS..: one run that is well told of that file
answer() {
	file=$1
	shift
	what=$*
	got=0
	run "$@" </dev/null >"$work/out" 2>"$work/err" || got=$?
	well_told "$file"
}

# one to three bytes of the headers and tables that no sum guards, or of the region's header; values at their edges or anything
draw='function value() { return rand() < 0.5 ? int(rand() * 256) : substr("000001015127128255", 3 * int(rand() * 6) + 1, 3) + 0 }
BEGIN { srand(seed)
	for (n = 0; n < count; n++) {
		line = ""
		for (m = int(rand() * 3); m >= 0; m--) line = line " " (rand() < 0.9 ? low + int(rand() * (high - low)) : other) " " value()
		print line } }'

try_changed() {
	awk -v seed="$seed" -v count=120 -v low=96 -v high=200 -v other=4102 "$draw" >"$work/drawn"
	numbers=
	while read -r bytes; do
		# shellcheck disable=SC2086
		changed "$vendor" "$i/any" $bytes
		answer "$i/any" read --words "$i/any"
		numbers="$numbers $(head -n 1 "$work/out" | tr ' ' '_')"
	done <"$work/drawn"
	kinds=$(echo "$numbers" | tr ' ' '\n' | grep '^refused' | sort -u | wc -l)
	[ "$kinds" -ge 6 ] || fail "only $kinds kinds of refusal among the changed images"
}

try_changed_sheets() {
	awk -v seed="$seed" -v count=40 -v low=0 -v high=24 -v other=12 "$draw" >"$work/drawn"
	cp "$work/old" "$o/out"
	while read -r bytes; do
		# shellcheck disable=SC2086
		changed "$work/sheet" "$i/any" $bytes
		answer "$i/any" release "$all" --owner=1 "$vendor" "$i/any" keep "$o/any"
	done <"$work/drawn"
}

# a text with some of its bytes changed: a sheet that the library takes and that shows as what it is, or one line that names the line at fault
# and OUT as it was
try_changed_texts() {
	printf '%s\nrevision 0x01020304\n# a word on what follows, as people write it\n40 01 00\n0x60 FF EE # and why\n\n100 00 01 02 03\n' "$treat" \
		>"$work/good_text"
	length=$(wc -c <"$work/good_text")
	awk -v seed="$seed" -v length_of="$length" 'BEGIN { srand(seed); count = split("9 10 13 32 34 35 48 49 50 57 65 70 97 120", one, " ")
		for (n = 0; n < 80; n++) {
			line = ""
			for (m = int(rand() * 2); m >= 0; m--)
				line = line " " int(rand() * length_of) " " (rand() < 0.1 ? int(rand() * 256) : one[1 + int(rand() * count)])
			print line } }' >"$work/drawn"
	made=0
	while read -r bytes; do
		# shellcheck disable=SC2086
		changed "$work/good_text" "$i/any" $bytes
		cp "$work/old" "$o/any"
		what="sheet make, bytes $bytes"
		got=0
		run sheet make "$vendor" "$i/any" "$o/any" >"$work/out" 2>"$work/err" || got=$?
		if [ "$got" -eq 0 ]; then
			made=$((made + 1))
			again "$vendor" "$o/any"
			continue
		fi
		status_was 2
		same "$o/any" "$work/old"
		if grep -q "^pajurenda: $i/any: it does not say which image it is for" "$work/err"; then continue; fi
		[ "$(wc -l <"$work/err")" -eq 1 ] || fail "not one line on standard error"
		grep -q -a -e "^pajurenda: $i/any: line [1-9]: ." -e "^$i/any: refused 1[567] [A-Z]*: .*: line [1-9]: ." "$work/err" || fail "no line is named"
		passed
	done <"$work/drawn"
	if [ "$made" -lt 4 ] || [ "$made" -gt 76 ]; then fail "$made of 80 changed texts are taken"; fi
}

# shown_or_told: owners show of the list any: what it shows is a list that shows the same, or one line names the line or range at fault
shown_or_told() {
	got=0
	run owners show "$i/any" "$vendor" >"$work/out" 2>"$work/err" || got=$?
	if [ "$got" -eq 0 ]; then
		shown=$((shown + 1))
		says
		cp "$work/out" "$work/shown"
		works 0 owners show "$work/shown" "$vendor"
		same "$work/out" "$work/shown"
		return
	fi
	status_was 2
	[ "$(wc -l <"$work/err")" -eq 1 ] || fail "not one line on standard error"
	grep -q -a -e "^pajurenda: $i/any: line [1-9]: ." -e "^$i/any: refused 23 OWNERS: .*: line [1-9]: ." \
		-e "^$i/any: refused 23 OWNERS: .*: taken as bytes (it has a 0), [0-9]* bytes: range" "$work/err" || fail "no line and no range is named"
	passed
}

# owner lists, as text and as bytes, with some of their bytes changed, the last three so that they are lists still; those that are bytes also cut
try_changed_lists() {
	printf '# the board group\n32 8 1\n0x28 2 2 # and why\n\n96 16 1\n112 100 2\n' >"$work/good_list"
	put_ranges "$work/good_ranges" 32 8 1 40 2 2 96 16 1 112 100 2
	for form in list ranges; do
		file=$work/good_$form
		awk -v seed="$seed" -v length_of="$(wc -c <"$file")" -v form="$form" 'BEGIN { srand(seed)
			count = split(form == "ranges" ? "0 1 2 3 8 16 32 40 96 112 255" : "9 10 13 32 35 48 49 50 51 57 65 70 97 120", one, " ")
			for (n = 0; n < 70; n++) {
				line = ""
				for (m = int(rand() * 2); m >= 0; m--)
					line = line " " int(rand() * length_of) " " (rand() < 0.1 ? int(rand() * 256) : one[1 + int(rand() * count)])
				print line }
			print form == "ranges" ? "6 2\n14 1\n20 8" : "2 120\n3 97\n4 48" }' >"$work/drawn"
		shown=0
		while read -r bytes; do
			# shellcheck disable=SC2086
			changed "$file" "$i/any" $bytes
			what="owners show, $form, bytes $bytes"
			shown_or_told
		done <"$work/drawn"
		if [ "$shown" -lt 3 ] || [ "$shown" -gt 70 ]; then fail "$shown of 73 changed lists are taken"; fi
	done
	for length in 2 3 4 5 6 7 9 15 17 23 25 31; do
		head -c "$length" "$work/good_ranges" >"$i/any"
		answer "$i/any" owners show "$i/any" "$vendor"
		[ "$number" -eq 23 ] || fail "refused $number, not 23"
	done
}

# cut at each place where something starts or ends, and files of random bytes
try_cut() {
	for length in 72 73 95 96 97 99 100 101 127 128 131 132 171 172 184 199 200 201 4095 4096 4102 4496 8188 8191; do
		head -c "$length" "$vendor" >"$i/any"
		answer "$i/any" read "$i/any"
		poke "$i/any" 32 "\\$(printf %o $((length % 256)))\\$(printf %o $((length / 256)))"
		answer "$i/any" read "$i/any"
	done
	for length in 0 1 16 71 72 100 1000 100000; do
		head -c "$length" /dev/urandom >"$i/any"
		answer "$i/any" read "$i/any"
		answer "$i/any" release "$all" --owner=1 "$vendor" "$i/any" keep "$o/any"
	done
}

# random bytes over a shipped file: the ranges are the list
try_any_ranges() {
	for turn in 1 2 3 4 5 6; do
		awk -v seed="$((seed + turn))" -v count=12 -v low=4080 -v high=4520 -v other=100 "$draw" | tr '\n' ' ' >"$work/drawn"
		# shellcheck disable=SC2046
		changed "$shipped" "$i/any" $(cat "$work/drawn")
		got=0
		run audit --ranges "$vendor" "$i/any" >"$work/out" 2>"$work/err" || got=$?
		[ "$got" -le 1 ] || fail "exit status $got"
		sed '1,4d; $d' "$work/out" >"$work/any_ranges"
		set --
		while read -r range; do set -- "$@" "$range"; done <"$work/any_ranges"
		ranges_are "$vendor" "$i/any" "$got" "$@"
	done
}

try_changed
try_changed_sheets
try_changed_texts
try_changed_lists
try_cut
try_any_ranges
