# One run of a tool and what it must have done.
# shellcheck shell=sh
# shellcheck disable=SC2034,SC2154

fail() {
	echo "try-tools: $what: $*" >&2
	sed 's/^/  out: /' "$work/out" 2>/dev/null | head -n 12 >&2 || :
	sed 's/^/  err: /' "$work/err" 2>/dev/null | head -n 30 >&2 || :
	exit 1
}

passed() { checks=$((checks + 1)); }

# try STATUS WORDS..: one run with that exit status; what it printed is in out and err
try() {
	wanted=$1
	shift
	what=$*
	got=0
	"$@" </dev/null >"$work/out" 2>"$work/err" || got=$?
	status_was "$wanted"
}

status_was() {
	[ "$got" -eq "$1" ] || fail "exit status $got, not $1"
	passed
}

# prints FILE: standard output was these bytes and no more
prints() { same "$work/out" "$1"; }

same() {
	cmp -s "$1" "$2" || fail "$1 is not as wanted: $(cmp "$1" "$2" 2>&1 || :)"
	passed
}

# tells TEXT, keeps_quiet_of TEXT: standard error has it, or hasn't
tells() {
	grep -qF -e "$1" "$work/err" || fail "standard error does not say: $1"
	passed
}

keeps_quiet_of() {
	! grep -qF -e "$1" "$work/err" || fail "standard error says: $1"
	passed
}

# tells_lines COUNT [TEXT]: so many lines of standard error have it
tells_lines() {
	[ "$(grep -cF -e "${2-}" "$work/err")" -eq "$1" ] || fail "standard error has not $1 lines with: ${2-}"
	passed
}

has() { [ -e "$1" ] || fail "$1 is not there"; passed; }
lacks() { if [ -e "$1" ] || [ -L "$1" ]; then fail "$1 is there"; fi; passed; }

# picture FOLDER: every name, mode and byte in it
picture() { (cd "$1" && find . -exec ls -ld {} + | awk '{ print $1, $NF }' | sort && find . -type f -exec cksum {} + | sort); }

# keeps FOLDER CHECK..: after the check every name and byte in the folder is as before
keeps() {
	folder=$1
	shift
	picture "$folder" >"$work/before"
	"$@"
	picture "$folder" >"$work/after"
	same "$work/after" "$work/before"
}

# alive PID: it is there and isn't only waiting to be buried
alive() { [ -r "/proc/$1/stat" ] && ! sed 's/^[0-9]* (.*) //' "/proc/$1/stat" 2>/dev/null | grep -q '^Z'; }

# until_true WORDS..: ten seconds at most
until_true() {
	tries=0
	until "$@"; do
		[ "$tries" -lt 100 ] || fail "waited in vain for: $*"
		tries=$((tries + 1))
		sleep 0.1
	done
}

# as_other WORDS..: by a user that may not write what we made; 1 where there is no such user
if [ "$(id -u)" -ne 0 ]; then
	other='chmod'
elif setpriv --reuid=65534 --regid=65534 --clear-groups test -x "$work" 2>/dev/null; then
	other=nobody
else
	other=
fi
as_other() {
	case $other in
	nobody) setpriv --reuid=65534 --regid=65534 --clear-groups "$@" ;;
	*) "$@" ;;
	esac
}
