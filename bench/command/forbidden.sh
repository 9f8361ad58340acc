# shellcheck shell=sh disable=SC2034,SC2154,SC2162,SC2164
# Files and folders that may not be read or written. Root may do all, so nobody runs the command for root: this comes last.

try_forbidden() {
	mkdir "$work/open" "$work/open/locked"
	cp "$vendor" "$work/open/secret"
	cp "$work/old" "$work/open/protected"
	cp "$work/old" "$work/open/locked/out"
	cp "$vendor" "$work/open/vendor"
	chmod 000 "$work/open/secret"
	chmod 444 "$work/open/protected"
	chmod 555 "$work/open/locked"
	chmod 777 "$work/open"
	keeps_as_other 'open/secret: Permission denied' read "$work/open/secret"
	keeps_as_other 'open/secret: Permission denied' handoff "$work/open/secret"
	keeps_as_other 'open/secret: Permission denied' audit "$work/open/vendor" "$work/open/secret"
	keeps_as_other 'open/protected: Permission denied' release "$all" --owner=1 "$work/open/vendor" "$work/nothing" 0x0 "$work/open/protected"
	keeps_as_other 'locked/out: Permission denied' release "$all" --owner=1 "$work/open/vendor" "$work/nothing" 0x0 "$work/open/locked/out"
	keeps_as_other 'open/protected: Permission denied' sheet empty "$work/open/vendor" "$work/open/protected"
	keeps_as_other 'locked/none: Permission denied' sheet make "$work/open/vendor" "$work/good_text" "$work/open/locked/none"
	keeps_as_other 'open/secret: Permission denied' sheet make "$work/open/vendor" "$work/open/secret" "$work/open/none"
	keeps_as_other 'open/secret: Permission denied' sheet show "$work/sheet" "$work/open/secret"
	keeps_as_other 'open/secret: Permission denied' release --owners "$work/open/secret" --owner 1 "$work/open/vendor" "$work/nothing" 0x0 "$work/open/none"
	keeps_as_other 'open/secret: Permission denied' owners show "$work/open/secret" "$work/open/vendor"
	keeps_as_other 'open/protected: Permission denied' owners all "$work/open/vendor" "$work/open/protected"
	keeps_as_other 'locked/none: Permission denied' release "$all" --owner=1 "$work/open/vendor" "$work/nothing" 0x0 "$work/open/locked/none"
	keeps_as_other 'open/protected: Permission denied' audit "$work/open/vendor" "$work/open/vendor" --report "$work/open/protected"
	keeps_as_other 'locked/none: Permission denied' audit "$work/open/vendor" "$work/open/vendor" --text "$work/open/locked/none"
	keeps_as_other 'open/secret: Permission denied' verify "$work/open/vendor" "$work/nothing" "$work/open/secret" --report "$work/open/none"
	keeps_as_other 'open/secret: Permission denied' audit --list "$work/open/secret"
	chmod 644 "$work/open/locked/out"
	keeps_as_other 'locked/out: Permission denied' release "$all" --owner=1 "$work/open/vendor" "$work/nothing" 0x0 "$work/open/locked/out"
	ways="$ways, forbidden files and folders"
}

# the secret file's bytes can't be in the picture of a reader that may not read it
keeps_as_other() { keeps "$work/open/locked" errs "$@"; same "$work/open/protected" "$work/old"; }

# root's runs as nobody, with the command where nobody can reach it
become_nobody() {
	[ "$(id -u)" -eq 0 ] || return 0
	mkdir "$work/bin"
	cp "$command" "$work/bin/command"
	[ -z "$emulator" ] || cp "$emulator" "$work/bin/emulator"
	run() {
		# shellcheck disable=SC2046
		setpriv --reuid=65534 --regid=65534 --clear-groups \
			${emulator:+"$work/bin/emulator"} "$work/bin/command" $(habits "$@") "$@"
	}
	run --help >/dev/null 2>&1
}

if become_nobody; then
	try_forbidden
else
	not_run="$not_run; forbidden files and folders (root can't run as nobody here)"
fi
