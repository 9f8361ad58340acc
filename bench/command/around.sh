# shellcheck shell=sh disable=SC2034,SC2154,SC2162,SC2164
# What goes with the command: the header's helpers from C and C++, every refusal's words on any bytes, the man page, the completion.
# They are tried by the compiler of this machine, which need not be that of the command.

# counted PROGRAM..: it ends well, and prints how many checks it made
counted() {
	what=$*
	more=$("$@") || fail "not as it should be"
	checks=$((checks + more))
}

# compiles COMPILER FLAGS.. : a program of it runs here
compiles() {
	printf 'int main(void) { return 42; }\n' >"$work/probe.c"
	"$@" "$work/probe.c" -o "$work/probe" >/dev/null 2>&1 || return 1
	got=0
	"$work/probe" >/dev/null 2>&1 || got=$?
	[ "$got" -eq 42 ]
}

try_header() {
	warnings='-Wall -Wextra -Wconversion -Wsign-conversion -Werror'
	for compiler in "${CC:-cc} -std=c11" "${CC:-cc} -std=c99 -Wpedantic" "${CXX:-c++} -x c++ -std=c++11"; do
		what="header by $compiler"
		# shellcheck disable=SC2086
		if compiles $compiler; then
			$compiler $warnings -I"$root/include" "$here/header.c" -o "$work/header" || fail "it does not compile"
			counted "$work/header"
		else
			not_run="$not_run; the header by ${compiler%% *}"
		fi
	done
}

try_any_bytes() {
	checked='-g -O1 -fsanitize=address,undefined -fno-sanitize-recover=all'
	# shellcheck disable=SC2086
	compiles "${CC:-cc}" $checked || checked=
	if ! compiles "${CC:-cc}"; then
		not_run="$not_run; refusals of any bytes (no compiler)"
		return
	fi
	what='refusals of any bytes'
	# shellcheck disable=SC2086
	"${CC:-cc}" -std=c11 -Wall -Wextra -Wconversion -Werror $checked -I"$root/include" -I"$root/command" "$here/any_bytes.c" "$root/bench/make/drawn.c" \
		"$root/command/refusals.c" "$root/command/refused_image.c" "$root/command/refused_entry.c" "$root/command/refused_modules.c" "$root/command/modules.c" "$root/command/refused_sheet.c" "$root/command/refused_handoff.c" \
		"$root/command/refused_owners.c" "$root/command/owners.c" "$root/command/files.c" "$root/command/text.c" "$root/command/numbers.c" \
		"$root/command/letters.c" "$root/command/components.c" "$root/command/edition.c" "$root/command/show.c" "$root/command/messages.c" "$root/command/signs.c" \
		"$root/command/inputs.c" "$root/command/digest.c" "$root/bench/second/sha256.c" -o "$work/any_bytes" || fail "it does not compile"
	for image in "$vendor" "$root/crates/run_more/data/1/vendor.bin"; do
		"$work/any_bytes" "$image" "$seed" 3000 2>"$work/err" || fail "ended with $?"
		passed
	done
}

# the page speaks of every subcommand, option and refusal that the help has, of every line of a reading, and of this version
try_man_page() {
	page=$root/command/pajurenda.1
	what='the man page'
	grep -q "^.TH PAJURENDA 1 \".*\" \"pajurenda $version\"" "$page" || fail "not of version $version"
	sed 's/\\-/-/g' "$page" >"$work/page"
	sed -n 's/^ *\(usage:\)* *pajurenda \([a-z][a-z ]*[a-z]\) .*/\2/p' "$work/help.all" >"$work/commands"
	[ "$(wc -l <"$work/commands")" -ge 9 ] || fail "the help names too few commands: $(cat "$work/commands")"
	while read -r words; do
		grep -qx "[.]B pajurenda $words" "$work/page" || fail "no synopsis of $words"
		grep -qx "[.]B $words" "$work/page" || fail "no description of $words"
		passed
	done <"$work/commands"
	sed -n 's/^ *\([0-9]*\)  *\([A-Z][A-Z]*\)  .*/\1 \2/p' "$work/help.all" >"$work/named"
	grep -oh -e '--[a-z][a-z]*' "$work"/help.* | sort -u >>"$work/named"
	[ "$(wc -l <"$work/named")" -ge 30 ] || fail "the help names too little: $(cat "$work/named")"
	while read -r word; do
		grep -q -e "^.B[RI]* \(pajurenda \)*$word" -e "[ (]$word\$" -e "^.BR -h \", \" $word" "$work/page" || fail "nothing of $word"
		passed
	done <"$work/named"
	while read -r word _; do
		grep -q "^.BR* $word\( ,\)*\$" "$work/page" || fail "nothing of the reading's $word"
		passed
	done <"$work/wanted_reading"
	if command -v groff >/dev/null; then
		groff -man -Tascii -ww "$page" >/dev/null 2>"$work/err" || fail "groff"
		says
	fi
}

try_completion() {
	what='the completion'
	if ! command -v bash >/dev/null; then
		not_run="$not_run; the completion (no bash)"
		return
	fi
	mkdir "$work/completion"
	: >"$work/completion/image"
	: >"$work/completion/a b"
	cd "$work/completion"
	counted bash "$here/completion.bash" "$root/command/pajurenda.bash"
	cd "$root"
}

try_header
try_any_bytes
try_man_page
try_completion
