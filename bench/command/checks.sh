# shellcheck shell=sh disable=SC2034,SC2086,SC2154,SC2162,SC2164
# One run of the command, and what it must have done.

fail() {
	echo "try-command: pajurenda $what: $*" >&2
	sed 's/^/  out: /' "$work/out" 2>/dev/null | head -n 12 >&2 || :
	sed 's/^/  err: /' "$work/err" 2>/dev/null | head -n 12 >&2 || :
	exit 1
}

# habits WORDS..: the tests write over what they wrote before, and most want no record; the options for that, but where `bare` is set
habits() {
	[ -z "$bare" ] || return 0
	case " ${1-} ${2-} ${3-} " in *' release '*) echo --replace --no-record ;; esac
	case "${1-} ${2-}" in
	sheet\ make | sheet\ empty | sheet\ fold | owners\ all | hex\ export | hex\ import) echo --replace ;;
	audit\ * | verify\ *) case " $*" in *' --report'* | *' --text'*) echo --replace ;; esac ;;
	esac
}

# run WORDS..: the command, where there is a limit under it; what looks at the outcome isn't
run() {
	habit=$(habits "$@")
	if [ -n "$limit" ]; then
		(ulimit -f "$limit" && exec ${emulator:+"$emulator"} "$command" $habit "$@")
	else
		${emulator:+"$emulator"} "$command" $habit "$@"
	fi
}

# barely CHECK..: the words as they are
barely() {
	bare=yes
	"$@"
	bare=
}

# try STATUS WORDS..: one run with that exit status; what it printed is in out and err, that the same bytes were given twice in notes
try() {
	wanted=$1
	shift
	what=$*
	got=0
	run "$@" </dev/null >"$work/out" 2>"$work/err" || got=$?
	: >"$work/notes"
	[ ! -s "$work/err" ] || set_notes_apart
	status_was "$wanted"
	case " $* " in *' --json '*) is_document ;; esac
}

# is_document: what was printed, where it is a whole document, is one of docs/json.schema.json
is_document() {
	[ -n "${python-}" ] && [ "$(tail -n 1 "$work/out")" = '}' ] && [ "$(wc -c <"$work/out")" -lt 200000 ] || return 0
	"$python" -I -S "$here/validate.py" "$root/docs/json.schema.json" "$work/out" >"$work/faults" 2>&1 || fail "not by the schema: $(head -n 3 "$work/faults")"
	documents=$((documents + 1))
}

set_notes_apart() {
	sed -n '/ are the same bytes/p' "$work/err" >"$work/notes"
	[ ! -s "$work/notes" ] || sed -i '/ are the same bytes/d' "$work/err"
}

status_was() {
	[ "$got" -eq "$1" ] || fail "exit status $got, not $1"
	passed
}

passed() { checks=$((checks + 1)); }

# same FILE FILE: byte for byte
same() {
	cmp -s "$1" "$2" || fail "$1 is not as wanted: $(cmp "$1" "$2" 2>&1 || :)"
	passed
}

# lines LINE..: into the file of what is wanted
lines() {
	: >"$work/wanted"
	for line in "$@"; do printf '%s\n' "$line" >>"$work/wanted"; done
}

# prints LINE..: standard output was these lines and no more
prints() {
	lines "$@"
	same "$work/out" "$work/wanted"
}

# says LINE..: standard error was these lines and no more
says() {
	lines "$@"
	same "$work/err" "$work/wanted"
}

# tells TEXT: standard error has it
tells() {
	grep -qF -e "$1" "$work/err" || fail "standard error does not say: $1"
	passed
}

# works STATUS WORDS..: that exit status, with nothing on standard error
works() {
	try "$@"
	says
}

# in_place release OWNERS OWNER IMAGE SHEET BASE IMAGE: a release over its own input, which says so
in_place() {
	try 0 "$@"
	says "pajurenda: release: OUT is IMAGE itself: $4 as it was is replaced"
}

# the names by their numbers
name_of() {
	set -- "$1" LENGTH VOLUME FILE SECTION HEADER SIZE COMPONENT BASE TABLE CONFIG UPD TYPE PLACE OVERLAP SHEET IDENTITY FIELD \
		NEWBASE PAIR ROOM - RESERVED OWNERS OWNER MODULE WORD RELOCATION READ-ONLY FOLDED BLOCK FIRST NOTHING KIND ABOVE MANY IMAGE NOWHERE - - ORDER UNKNOWN - - - - - - - - TEXT - - SPACE
	shift "$1"
	echo "$1"
}

# refuses N FILE TEXT WORDS..: `refused N` on standard output, the file with its refusal and that text on standard error
refuses() {
	number=$1
	text="$2: refused $1 $(name_of "$1"): $3"
	shift 3
	try 2 "$@"
	prints "refused $number"
	says "$text"
}

# values N FILE TEXT WORDS..: the same where the text goes after the rule's sentence
values() {
	number=$1
	start="$2: refused $1 $(name_of "$1"): "
	end=": $3"
	shift 3
	try 2 "$@"
	prints "refused $number"
	line=$(cat "$work/err")
	case $line in
	"$start"*"$end") passed ;;
	*) fail "standard error is not $start...$end" ;;
	esac
	[ "$(wc -l <"$work/err")" -eq 1 ] || fail "more than one line on standard error"
}

# errs REASON WORDS..: an error, told; nothing on standard output
errs() {
	reason=$1
	shift
	try 2 "$@"
	prints
	tells "$reason"
}

# fails_with LINE WORDS..: the same, and the line is all that is told
fails_with() {
	line=$1
	shift
	try 2 "$@"
	prints
	says "$line"
}

# what an audit that explains everything adds
unchecked='not checked whether the settings are the wanted ones; verify VENDOR SHEET.. SHIPPED says it by the sheets, --must FILE by a text'

# what a verify adds where whose the settings are, or the base too, was not asked
unowned="not checked whose the settings are; --owners LIST and --owner N before each sheet say it, or a release's record"
unbased="not checked whose the settings are, and the base; --owners LIST, --owner N before each sheet and --base BASE say it, or a release's record"

# what counts are against
of_maker="(against the maker's image moved)"
of_release='(against the release)'

# steady: of a verify's output what isn't looked at here goes: what was not checked, and what changed from the maker's image
steady() {
	sed '/^not checked /d; /^changed /d' "$work/out" >"$work/steady"
	mv "$work/steady" "$work/out"
}

# bound IMAGE: the lines that bind a text to it, as `read` shows them
bound() { run read "$1" | grep -e '^identity ' -e '^revision ' -e '^extended '; }

# picture FOLDER: every name and every byte in it
picture() { (cd "$1" && find . | sort && find . -type f -exec cksum {} + | sort); }

# keeps FOLDER CHECK..: after the check every name and byte in the folder is as before
keeps() {
	folder=$1
	shift
	picture "$folder" >"$work/before"
	"$@"
	picture "$folder" >"$work/after"
	same "$work/after" "$work/before"
}

# poke FILE POSITION OCTAL: bytes put into a file
poke() {
	# shellcheck disable=SC2059
	printf "$3" | dd of="$1" bs=1 seek="$2" conv=notrunc 2>/dev/null
}

# poked FROM FILE POSITION OCTAL..: a copy with bytes put into it
poked() {
	cp "$1" "$2"
	file=$2
	shift 2
	while [ $# -gt 0 ]; do
		poke "$file" "$1" "$2"
		shift 2
	done
}

# changed FROM TO POSITION VALUE..: a copy with these bytes, in decimal
changed() {
	cp "$1" "$2"
	into=$2
	shift 2
	while [ $# -gt 1 ]; do
		poke "$into" "$1" "\\$(printf %o "$2")"
		shift 2
	done
}

# bytes_at FILE POSITION COUNT: in hex, apart
bytes_at() { od -An -v -tx1 -j"$2" -N"$3" "$1" | tr -d '\n' | sed 's/^ //' | tr a-f A-F; }

# digest_of FILE: its SHA-256
digest_of() { sha256sum <"$1" | cut -d ' ' -f 1; }

# sparse FILE LENGTH: a file of zeros that takes no room
sparse() { dd if=/dev/null of="$1" bs=1 seek="$2" 2>/dev/null; }
