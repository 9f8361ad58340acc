# shellcheck shell=sh disable=SC2034,SC2154,SC2162,SC2164
# An output file that can't be written whole: none of it is, and nothing is left beside it.

# a limit to the size of files, as a full disk has it: some bytes go, then no more
try_limit() {
	keeps "$o" limited 'File too large' release "$all" --owner=1 "$vendor" "$work/nothing" 0x0 "$o/out"
	keeps "$o" limited 'File too large' release "$all" --owner=1 "$vendor" "$work/nothing" 0x0 "$o/none"
	keeps "$o" limited 'File too large' release "$all" --owner=1 "$vendor" "$work/sheet" keep "$o/out"
	ways="$ways, a limit to file sizes"
}

limited() {
	limit=2
	errs "$@"
	limit=
}

# a disk of 1 MiB, then the same one read-only
try_disk() {
	mkdir "$work/disk"
	if [ "$(id -u)" -ne 0 ] || ! mount -t tmpfs -o size=1m tmpfs "$work/disk" 2>/dev/null; then
		not_run="$not_run; a full disk and a read-only disk (none can be mounted)"
		return
	fi
	mounted=disk
	cp "$work/old" "$work/disk/out"
	keeps "$work/disk" errs 'No space left' release "$all" --owner=1 "$work/large" "$work/nothing" 0xff000000 "$work/disk/out"
	keeps "$work/disk" errs 'No space left' release "$all" --owner=1 "$work/large" "$work/nothing" 0xff000000 "$work/disk/none"
	try 0 release "$all" --owner=1 "$vendor" "$work/nothing" 0x0 "$work/disk/small"
	mount -o remount,ro "$work/disk"
	keeps "$work/disk" errs 'Read-only file system' release "$all" --owner=1 "$vendor" "$work/nothing" 0x0 "$work/disk/out"
	keeps "$work/disk" errs 'Read-only file system' release "$all" --owner=1 "$vendor" "$work/sheet" keep "$work/disk/none"
	umount "$work/disk"
	mounted=
	ways="$ways, a full disk, a read-only disk"
}

# ---- signals ----

# whole SIGNAL: OUT is the old file or the new one, never one that is only set or only moved; a temporary file is left by KILL at most
whole() {
	what="release, ended by $1"
	cmp -s "$k/out" "$work/large" || cmp -s "$k/out" "$work/released_large" || fail "OUT is neither the old file nor the new one"
	[ "$1" != KILL ] || rm -f "$k"/.pajurenda.*
	[ "$(ls -A "$k")" = out ] || fail "left behind: $(ls -A "$k")"
	cp "$work/large" "$k/out"
}

# at moments from a seed: as it starts, reads, releases, writes and after
kill_at_random() {
	delays=$(awk -v seed="$seed" 'BEGIN { srand(seed); for (n = 0; n < 6; n++) printf "%.4f ", rand() * 0.06 }')
	for delay in $delays; do
		timeout --foreground -s "$1" "$delay" ${emulator:+"$emulator"} "$command" release --replace --no-record "$all" --owner=1 "$work/large" "$work/sheet" 0xff000000 "$k/out" \
			>/dev/null 2>&1 || :
		whole "$1"
		passed
	done
}

# until the temporary file of process $1 is there, or it can't come any more
await_writing() {
	turn=0
	while [ "$turn" -lt 20000 ] && kill -0 "$1" 2>/dev/null; do
		for file in "$k"/.pajurenda.*; do [ ! -e "$file" ] || return 0; done
		turn=$((turn + 1))
	done
}

# while the temporary file is there, until two came then: the command was ended by them. A shell lets no INT through to what runs beside
# it, timeout does.
kill_while_writing() {
	under=
	[ "$1" != INT ] || under='timeout --foreground 60'
	hits=0
	turns=0
	while [ "$hits" -lt 2 ]; do
		[ "$turns" -lt 40 ] || fail "no $1 of 40 came while it was writing"
		turns=$((turns + 1))
		# shellcheck disable=SC2086
		$under ${emulator:+"$emulator"} "$command" release --replace --no-record "$all" --owner=1 "$work/large" "$work/sheet" 0xff000000 "$k/out" >/dev/null 2>&1 &
		process=$!
		await_writing "$process"
		kill -s "$1" "$process" 2>/dev/null || :
		got=0
		wait "$process" 2>/dev/null || got=$?
		whole "$1"
		[ "$got" -gt 128 ] || continue
		hits=$((hits + 1))
		passed
	done
}

try_killed() {
	if ! timeout --foreground 5 true 2>/dev/null; then
		not_run="$not_run; signals (no timeout command that stays in the foreground)"
		return
	fi
	k=$work/k
	mkdir "$k"
	works 0 release "$all" --owner=1 "$work/large" "$work/sheet" 0xff000000 "$work/released_large"
	cp "$work/large" "$k/out"
	for signal in INT TERM HUP KILL; do
		kill_at_random "$signal"
		kill_while_writing "$signal"
	done
	ways="$ways, INT, TERM, HUP and KILL"
}

try_limit
try_disk
try_killed
