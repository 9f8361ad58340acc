# shellcheck shell=sh disable=SC2034,SC2154,SC2162,SC2164
# Standard output that takes nothing.

# whether a closed pipe ends a program here: whoever started this may have it ignored, and a shell can't undo that
pipe_status=0
sh -c 'kill -s PIPE $$' 2>/dev/null || pipe_status=$?
[ "$pipe_status" -ne 0 ] || not_run="$not_run; the end by a closed pipe (it is ignored here)"

# unread WORDS..: standard output is a pipe that nobody reads
unread() {
	rm -f "$work/closed"
	{
		while ! [ -e "$work/closed" ]; do sleep 0.02; done
		got=0
		run "$@" 2>"$work/err" || got=$?
		echo "$got" >"$work/status"
	} | { exec <&-; : >"$work/closed"; }
	got=$(cat "$work/status")
}

# unheard WORDS..: exit status 2 and a message where standard output is full or closed; where it is a pipe nobody reads the signal's status and
# silence, or where that signal is ignored the message
unheard() {
	what=$*
	if [ -c /dev/full ]; then
		got=0
		run "$@" >/dev/full 2>"$work/err" || got=$?
		status_was 2
		tells 'pajurenda: standard output: No space left on device'
	fi
	got=0
	run "$@" >&- 2>"$work/err" || got=$?
	status_was 2
	tells 'pajurenda: standard output: Bad file descriptor'
	if [ "$pipe_status" -ne 0 ]; then
		unread "$@"
		status_was "$pipe_status"
		! grep -qF 'standard output' "$work/err" || fail "not silent"
	fi
	(
		trap '' PIPE
		unread "$@"
		status_was 2
		tells 'pajurenda: standard output: Broken pipe'
	) || exit 1
	passed
}

# enough WORDS..: a reader that has seen enough of a long output; the end is quiet
enough() {
	[ "$pipe_status" -ne 0 ] || return 0
	what="$*, and one line of it"
	{ got=0; run "$@" 2>"$work/err" || got=$?; echo "$got" >"$work/status"; } | head -n 1 >"$work/out"
	got=$(cat "$work/status")
	status_was "$pipe_status"
	says
	[ "$(wc -l <"$work/out")" -eq 1 ] || fail "not one line"
}

try_unheard() {
	[ -c /dev/full ] || not_run="$not_run; full standard output (no /dev/full)"
	unheard --help
	unheard help audit
	unheard --version
	unheard read "$vendor"
	unheard read --words "$vendor"
	unheard setting "$vendor" 40 2
	unheard audit "$vendor" "$vendor"
	unheard audit "$vendor" "$shipped"
	unheard audit --ranges "$vendor" "$shipped"
	unheard audit "$root/crates/run_short/data/vendor.bin" "$root/crates/run_short/data/shipped.bin"
	unheard audit --bytes "$root/crates/run_short/data/vendor.bin" "$root/crates/run_short/data/shipped.bin"
	unheard read "$work/empty"
	unheard sheet show "$work/sheet"
	unheard sheet show "$work/sheet" "$vendor"
	unheard owners show "$work/all" "$vendor"
	unheard owners all "$vendor" "$o/heard"
	grep -qx '0x0020 368 1' "$o/heard" || fail "no list where standard output is lost"
	unheard sheet empty "$vendor" "$o/heard"
	same "$o/heard" "$work/nothing"
	{ printf '40 01 00\n' && cat "$work/bound"; } >"$i/text"
	unheard sheet make "$vendor" "$i/text" "$o/heard"
	same "$o/heard" "$work/sheet"
	unheard release "$all" --owner=1 "$vendor" "$work/nothing" 0x00100000 "$o/heard"
	same "$o/heard" "$o/moved"
}

# with no standard file open none of OUT's bytes may be a message
try_all_closed() {
	rm "$o/heard"
	what="release, all standard files closed"
	got=0
	run release "$all" --owner=1 "$vendor" "$work/nothing" 0x00100000 "$o/heard" <&- >&- 2>&- || got=$?
	status_was 2
	same "$o/heard" "$o/moved"
	got=0
	run release "$all" --owner=1 "$vendor" "$work/nothing" 0x1 "$o/heard" <&- >&- 2>&- || got=$?
	status_was 2
	same "$o/heard" "$o/moved"
}

try_unheard
try_all_closed
