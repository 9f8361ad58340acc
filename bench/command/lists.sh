# shellcheck shell=sh disable=SC2034,SC2154,SC2162,SC2164
# audit --list and verify --list: a line for each pair, whatever comes of it, and the worst status.

# list LINE..: the list's lines
list() {
	: >list
	for line in "$@"; do printf '%b\n' "$line" >>list; done
}

try_list() {
	cd "$i"
	list 'v v' '# a comment' '' '  v   s' 'r s' 'v missing' 'v' 'v s s' 'v 71 # with a word on it' 'v released'
	try 2 audit --list list
	prints 'line 1 explained base 0xFFF80000 settings 0 strays 0 bits 0 v v' 'line 4 unexplained base 0x00100000 settings 1 strays 1 bits 1 v s' \
		'line 5 refused 14 r s' 'line 6 failed v missing' 'line 7 failed v' 'line 8 failed v s s' 'line 9 refused 19 v 71' \
		"$(sed -n 8p "$work/out")" 'pairs 8 explained 2 unexplained 1 refused 2 failed 3' "$unchecked"
	case $(sed -n 8p "$work/out") in 'line 10 explained base 0x00512000 settings 8 strays 0 bits 29 v released') ;; *) fail "the last pair" ;; esac
	says "$(run audit r s 2>&1 >/dev/null || :)" 'pajurenda: missing: No such file or directory' 'pajurenda: list: line 7: two names are wanted: VENDOR SHIPPED, or RECORD SHIPPED' \
		'pajurenda: list: line 8: two names are wanted: VENDOR SHIPPED, or RECORD SHIPPED' "$(run audit v 71 2>&1 >/dev/null || :)"
	cd "$root"
}

# the worst status of all
try_list_status() {
	cd "$i"
	list 'v v' 'v released'
	works 0 audit --list list
	list 'v v' 'v s' 'v v'
	works 1 audit --list list
	list 'v missing' 'v v' 'v s'
	try 2 audit --list list
	list 'v s' 'r s'
	try 2 audit --list list
	printf 'v v\r\nv s' >list
	works 1 audit --list list
	prints 'line 1 explained base 0xFFF80000 settings 0 strays 0 bits 0 v v' 'line 2 unexplained base 0x00100000 settings 1 strays 1 bits 1 v s' \
		'pairs 2 explained 1 unexplained 1 refused 0 failed 0' "$unchecked"
	what='audit --list, a pipe'
	got=0
	# shellcheck disable=SC2002
	cat list | run audit --list /dev/stdin >"$work/again" 2>"$work/err" || got=$?
	status_was 1
	same "$work/again" "$work/out"
	cd "$root"
}

try_verify_list() {
	cd "$i"
	list 'v one.sheet two.sheet released' 'v two.sheet one.sheet released' 'v one.sheet' 'v one.sheet 71 released' 'v one.sheet 71'
	try 2 verify --list list
	prints 'line 1 as released base 0x00512000 settings 0 strays 0 bits 0 v one.sheet two.sheet released' \
		'line 2 not as released base 0x00512000 settings 1 strays 0 bits 3 v two.sheet one.sheet released' 'line 3 failed v one.sheet' \
		'line 4 refused 15 v one.sheet 71 released' 'line 5 refused 19 v one.sheet 71' 'pairs 5 as released 1 not as released 1 refused 2 failed 1' "$unbased"
	grep -qF 'pajurenda: verify: v is no release record, and without one three words or more are wanted: VENDOR SHEET.. SHIPPED' "$work/err" ||
		fail "the line with two names"
	list "$(awk 'BEGIN { printf "v"; for (n = 0; n < 253; n++) printf " one.sheet"; print " first" }')"
	works 0 verify --list list
	list "$(awk 'BEGIN { printf "v"; for (n = 0; n < 300; n++) printf " one.sheet"; print " first" }')"
	try 2 verify --list list
	says 'pajurenda: list: line 1: too many names'
	cd "$root"
}

# names with blanks by tabs; a name that starts with #; any bytes
try_list_names() {
	cd "$i"
	cp v 'a b'
	cp v '#v'
	cp v 'c#'
	list 'a b\tv' ' a b \t v ' '\ta b\t\tv\t# why' './#v c#' 'a b v'
	try 2 audit --list list
	prints 'line 1 explained base 0xFFF80000 settings 0 strays 0 bits 0 a b v' 'line 2 explained base 0xFFF80000 settings 0 strays 0 bits 0 a b v' \
		'line 3 explained base 0xFFF80000 settings 0 strays 0 bits 0 a b v' 'line 4 explained base 0xFFF80000 settings 0 strays 0 bits 0 ./#v c#' \
		'line 5 failed a b v' 'pairs 5 explained 4 unexplained 0 refused 0 failed 1' "$unchecked"
	list 'v \001s' 'v s\0000 x' 'v v'
	try 2 audit --list list
	prints 'line 1 failed v ?s' 'line 2 failed v s' 'line 3 explained base 0xFFF80000 settings 0 strays 0 bits 0 v v' \
		'pairs 3 explained 1 unexplained 0 refused 0 failed 2' "$unchecked"
	says 'pajurenda: list: line 1: control character 0x01' 'pajurenda: list: line 2: control character 0x00'
	head -c 3000 /dev/urandom >list
	what='audit --list of random bytes'
	got=0
	run audit --list list >"$work/out" 2>"$work/err" || got=$?
	status_was 2
	rm 'a b' '#v' 'c#'
	cd "$root"
}

try_list_words() {
	cd "$i"
	for text in '' '\n\n' '# v v\n' ' \t \n'; do
		# shellcheck disable=SC2059
		printf "$text" >list
		fails_with 'pajurenda: audit: no pair is named in list (see pajurenda audit --help)' audit --list list
	done
	list 'v v'
	fails_with 'pajurenda: audit: with --list no file is named: "v" (see pajurenda audit --help)' audit --list list v v
	fails_with 'pajurenda: verify: with --list no file is named: "v" (see pajurenda verify --help)' verify v s t --list list
	fails_with 'pajurenda: audit: --list has no FILE after it (see pajurenda audit --help)' audit --list
	fails_with 'pajurenda: read: takes no option --list (see pajurenda read --help)' read --list list
	fails_with "pajurenda: $work/missing: No such file or directory" audit --list "$work/missing"
	fails_with "pajurenda: missing: No such file or directory" audit --list list --reports missing
	fails_with 'pajurenda: v: Not a directory' audit --list list --reports v
	for option in '--report page' '--text whole'; do
		# shellcheck disable=SC2086
		keeps "$i" fails_with 'pajurenda: audit: with --list the pages go to a folder: --reports FOLDER (see pajurenda audit --help)' audit --list list $option
	done
	for option in --bytes --ranges; do
		fails_with 'pajurenda: audit: --list has a line for each pair: no other form but --json goes with it (see pajurenda audit --help)' audit --list list $option
	done
	unheard audit --list list
	cd "$root"
}

# a page for each pair that could be read, of a refused one too; none under a name that leads out of the folder
try_list_pages() {
	cd "$i"
	mkdir pages
	cp s '../<b>&.bin'
	list 'v v' "v $work/<b>&.bin" 'r s' 'v missing' 'v one.sheet' 'v ../i/../i/s'
	try 2 audit --list list --reports pages
	[ "$(cd pages && find . -type f | sort | tr '\n' ' ')" = './line-1-v.html ./line-2-_b__.bin.html ./line-3-s.html ./line-5-one.sheet.html ./line-6-s.html ' ] ||
		fail "other pages: $(ls pages)"
	page_of pages/line-1-v.html
	page_says 'title Audit: explained'
	page_of pages/line-2-_b__.bin.html
	page_says 'title Audit: unexplained' "h1 $work/<b>&.bin"
	page_of pages/line-3-s.html
	page_says 'title Audit: refused'
	page_of pages/line-5-one.sheet.html
	page_says 'title Audit: refused'
	rm "$work/<b>&.bin"
	list 'v one.sheet two.sheet released'
	rm pages/*
	works 0 verify --reports=pages --list=list
	page_of pages/line-1-released.html
	page_says 'title Verify: as released, owners and base not checked'
	rm pages/*
	mkdir pages/line-2-s.html pages/line-4-s.html
	list 'v v' 'v s' 'v s' 'r s'
	try 2 audit --list list --reports pages
	prints 'line 1 explained base 0xFFF80000 settings 0 strays 0 bits 0 v v' 'line 2 failed v s' \
		'line 3 unexplained base 0x00100000 settings 1 strays 1 bits 1 v s' 'line 4 failed r s' 'pairs 4 explained 1 unexplained 1 refused 0 failed 2' "$unchecked"
	says 'pajurenda: pages/line-2-s.html: Is a directory' "$(run audit r s 2>&1 >/dev/null || :)" 'pajurenda: pages/line-4-s.html: Is a directory'
	cp s pages/line-1-s.html
	list 'v pages/line-1-s.html'
	works 1 audit --list list --reports pages
	list 'pages/line-1-s.html s'
	cp v pages/line-1-s.html
	try 2 audit --list list --reports pages
	same pages/line-1-s.html v
	says 'pajurenda: audit: the file to write is VENDOR itself, which would be lost (see pajurenda audit --help)'
	rm -r pages
	cd "$root"
}

# how far it is, on standard error where that is a terminal and nowhere else
try_progress() {
	cd "$i"
	list 'v released' '' 'v missing' 'v s'
	try 2 audit --list list
	! grep -q "$(printf '\033')" "$work/out" "$work/err" || fail "progress where there is no terminal"
	passed
	[ -n "$python" ] || return 0
	cp "$work/out" "$work/wanted_lines"
	what='audit --list on a terminal'
	got=0
	"$python" -I -c 'import os, pty, sys
pid, fd = pty.fork()
if pid == 0:
    out = os.open(sys.argv[1], os.O_WRONLY | os.O_CREAT | os.O_TRUNC)
    os.dup2(out, 1)
    os.execv(sys.argv[2], sys.argv[2:])
said = b""
try:
    while chunk := os.read(fd, 4096): said += chunk
except OSError: pass
sys.stdout.buffer.write(said.replace(b"\r\n", b"\n").replace(b"\r", b"<"))
sys.exit(os.waitstatus_to_exitcode(os.waitpid(pid, 0)[1]))' "$work/again" ${emulator:+"$emulator"} "$command" audit --list list >"$work/err" || got=$?
	status_was 2
	same "$work/again" "$work/wanted_lines"
	printf '\033[Kline 1 of 4<\033[Kline 3 of 4<pajurenda: missing: No such file or directory\n\033[Kline 4 of 4<\033[K' >"$work/wanted"
	same "$work/err" "$work/wanted"
	cd "$root"
}

for one in list list_status verify_list list_names list_words list_pages progress; do "try_$one"; done
rm -f "$i/list"
