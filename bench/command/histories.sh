# shellcheck shell=sh disable=SC2034,SC2086,SC2154,SC2162,SC2164
# Histories of two owners drawn from a seed, verified, then with one byte changed in any of their files; and releases that are killed
# between image and record.

# for awk, whole numbers below a bound
drawing='function below(n) { return int(rand() * n) }'

# a sheet of an owner's bytes: 1 has the even tens of offsets 40 to 390, 2 the odd ones
make_drawn_sheet() {
	awk -v seed="$1" -v owner="$2" "$drawing"' BEGIN {
		srand(seed); at = 40 + 10 * (owner - 1)
		for (; at + 10 <= 400; at += 20) {
			if (below(3) != 0) continue
			n = 1 + below(10); line = at
			for (k = 0; k < n; k++) line = line sprintf(" %02X", below(256))
			print line; some = 1
		}
		if (!some) print 30 + 10 * owner, "00"
	}' >"$g/text"
	cat "$work/bound" >>"$g/text"
	works 0 sheet make "$g/maker.bin" "$g/text" "$3"
}

# one history of so many steps; the last image is shipped.bin with its record beside it
make_drawn() {
	rm -rf "$g"
	mkdir "$g" "$g/steps"
	cp "$vendor" "$g/maker.bin"
	awk 'BEGIN { for (at = 40; at + 10 <= 400; at += 10) print at, 10, at / 10 % 2 == 0 ? 1 : 2 }' >"$g/own"
	image=$g/maker.bin
	after=
	for step in $(seq "$2"); do
		set -- "$1" "$2" "$(awk -v seed="$1$step" "$drawing"' BEGIN { srand(seed); print 1 + below(2), below(2) ? "keep" : sprintf("0x%X000", below(1000)) }')"
		owner=${3% *}
		base=${3#* }
		make_drawn_sheet "$1$step" "$owner" "$g/steps/$step.sheet"
		out=$g/steps/$step.bin
		[ "$step" -ne "$2" ] || out=$g/shipped.bin
		barely works 0 release --owners "$g/own" --owner "$owner" $after "$image" "$g/steps/$step.sheet" "$base" "$out"
		image=$out
		after="--after $out.release.json"
	done
}

# change_drawn SEED: one byte of one of the files that the history goes by, in another way than it was
change_drawn() {
	file=$(cd "$g" && find maker.bin own shipped.bin shipped.bin.release.json steps/*.sheet | awk -v seed="$1" "$drawing"' BEGIN { srand(seed) } { name[NR] = $0 } END { print name[1 + below(NR)] }')
	at=$(awk -v seed="$1" -v size="$(wc -c <"$g/$file")" "$drawing"' BEGIN { srand(seed); below(2); print below(size) }')
	cp "$g/$file" "$g/kept"
	flip "$g/$file" "$at" "$at"
	got=0
	what="verify of a history with byte $at of $file changed"
	run verify "$g/shipped.bin.release.json" "$g/shipped.bin" >"$work/out" 2>"$work/err" || got=$?
	[ "$got" -ne 0 ] || fail "it is as released"
	! grep -q '^verdict as released' "$work/out" || fail "it says as released"
	case $file in
	shipped.bin) [ "$got" -eq 1 ] || [ "$(cat "$work/out")" = 'refused 18' ] || fail "exit status $got" ;;
	*) [ "$got" -eq 2 ] || fail "exit status $got" ;;
	esac
	mv "$g/kept" "$g/$file"
	passed
}

try_histories() {
	g=$work/g
	for number in $(seq "$histories"); do
		make_drawn "$seed$number" "$((1 + number % 4))"
		works 0 verify "$g/shipped.bin.release.json" "$g/shipped.bin"
		grep -qx 'verdict as released' "$work/out" || fail "history $number of seed $seed"
		change_drawn "$seed$number"
	done
}

# ---- killed between image and record ----

# whole_pair SIGNAL: image and record are both the new ones, or the image is the old one, or none, and then the record too, or it says that this
# image stood there before it; a temporary file is left by KILL at most
whole_pair() {
	what="release with a record, ended by $1"
	[ "$1" != KILL ] || rm -f "$k"/.pajurenda.*
	[ -z "$(find "$k" -name '.pajurenda.*')" ] || fail "left behind: $(ls -A "$k")"
	if cmp -s "$k/out" "$k/new"; then
		works 0 verify "$k/out.release.json" "$k/out"
	elif cmp -s "$k/out.release.json" "$k/before.json"; then
		cmp -s "$k/out" "$work/released_large" || fail "the old record beside another image"
	else
		cmp -s "$k/out" "$work/released_large" || fail "an image that is neither the old one nor the new one"
		try 1 verify "$k/out.release.json" "$k/out"
		grep -q 'the file is what stood there before step 1 of the record' "$work/out" || fail "a record that doesn't name what is there"
	fi
	cp "$work/released_large" "$k/out"
	cp "$k/before.json" "$k/out.release.json"
}

try_killed_records() {
	if ! timeout --foreground 5 true 2>/dev/null; then
		not_run="$not_run; signals between image and record (no timeout command that stays in the foreground)"
		return
	fi
	k=$work/kr
	mkdir "$k"
	works 0 release "$all" --owner=1 "$work/large" "$work/sheet" 0xff000000 "$work/released_large"
	barely works 0 release "$all" --owner=1 "$work/large" "$work/sheet" 0x0 "$k/new"
	barely works 0 release "$all" --owner=1 "$work/large" "$work/sheet" 0xff000000 "$k/out"
	cp "$k/out.release.json" "$k/before.json"
	for signal in INT TERM HUP KILL; do
		for delay in $(awk -v seed="$seed" 'BEGIN { srand(seed); for (n = 0; n < 8; n++) printf "%.4f ", rand() * 0.25 }'); do
			timeout --foreground -s "$signal" "$delay" ${emulator:+"$emulator"} "$command" release --replace "$all" --owner=1 "$work/large" "$work/sheet" 0x0 \
				"$k/out" >/dev/null 2>&1 || :
			whole_pair "$signal"
			passed
		done
	done
	ways="$ways, INT, TERM, HUP and KILL between image and record"
}

# killed_at N: a release that ends itself at its N-th call that names, renames, removes or syncs a file
killed_at() {
	KILL_AT=$1 LD_PRELOAD=$work/kill_at.so "$command" release --replace "$all" --owner=1 "$vendor" "$work/sheet" 0x0 "$k/out" >/dev/null 2>&1 || :
}

# at every such call in turn: over an older image and its record, and where nothing stands yet
try_killed_at() {
	if [ -n "$emulator" ] || ! cc -shared -fPIC "$here/kill_at.c" -o "$work/kill_at.so" 2>/dev/null ||
		! LD_PRELOAD=$work/kill_at.so "$command" read "$vendor" >/dev/null 2>&1; then
		not_run="$not_run; a kill at each call that names a file (it can't be preloaded here)"
		return
	fi
	k=$work/ka
	mkdir "$k"
	works 0 release "$all" --owner=1 "$vendor" "$work/sheet" 0x00100000 "$work/released_large"
	barely works 0 release "$all" --owner=1 "$vendor" "$work/sheet" 0x0 "$k/new"
	barely works 0 release "$all" --owner=1 "$vendor" "$work/sheet" 0x00100000 "$k/out"
	cp "$k/out.release.json" "$k/before.json"
	for call in $(seq 14); do
		killed_at "$call"
		whole_pair KILL
		passed
	done
	for call in $(seq 14); do
		rm -f "$k/out" "$k/out.release.json"
		killed_at "$call"
		rm -f "$k"/.pajurenda.*
		what="release where nothing stands, killed at call $call"
		[ ! -e "$k/out" ] || works 0 verify "$k/out.release.json" "$k/out"
		passed
	done
	[ -e "$k/out" ] || fail "no call was the last"
}

# where the image can't be put in its place, the record that was is there again
try_put_back() {
	cp "$vendor" "$i/v"
	mkdir "$work/back"
	printf 'before\n' >"$work/back/r.json"
	keeps "$work/back" barely errs 'Is a directory' release --replace "$all" --owner 1 --record "$work/back/r.json" "$i/v" "$work/sheet" keep "$work/back"
	mkdir "$work/back/out"
	keeps "$work/back" barely errs 'Is a directory' release --replace "$all" --owner 1 --record "$work/back/r.json" "$i/v" "$work/sheet" keep "$work/back/out"
	rm -r "$work/back"
}

try_histories
try_killed_records
try_killed_at
try_put_back
rm -rf "$g"
