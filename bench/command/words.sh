# shellcheck shell=sh disable=SC2034,SC2154,SC2162,SC2164
# Options, help, version, numbers: any words.

see='(see pajurenda --help)'

# help_is WORDS..: the help on standard output, the same as help.NAME; none on standard error
help_is() {
	name=$1
	shift
	works 0 "$@"
	same "$work/out" "$work/help.$name"
}

try_help() {
	works 0 --help
	cp "$work/out" "$work/help.all"
	for word in read release 'sheet empty' 'sheet start' 'sheet make' 'sheet show' 'sheet fold' 'must show' 'owners all' 'owners show' setting audit verify mend 'hex export' 'hex import' history split join handoff map place station help --modules --words --bytes \
		--ranges --json --report --text --list --reports --owners --owner --names --must --base --hex --image --replace --record --after --no-record --vendor-sha256 --seconds --note --number --version 'Exit status' ' 20  ROOM' ' 22  RESERVED' ' 23  OWNERS' ' 24  OWNER' \
		' 25  MODULE' ' 26  WORD' ' 27  RELOCATION' ' 28  READ-ONLY' ' 29  FOLDED' '1 to 12, 22, 13, 14, 25, 26, 27' '28, 15, 23,' ' 33  KIND' ' 34  ABOVE' ' 35  MANY' ' 36  IMAGE' ' 37  NOWHERE' ' 40  ORDER' ' 41  UNKNOWN' ' 50  TEXT' ' 53  SPACE'; do
		grep -qF -e "$word" "$work/out" || fail "the help does not speak of $word"
		passed
	done
	for words in help -h '-h --help' '--help --help' '--help --version' 'help help'; do
		# shellcheck disable=SC2086
		help_is all $words
	done
	for name in read release sheet must owners setting audit verify hex history split handoff map place station; do
		works 0 help "$name"
		cp "$work/out" "$work/help.$name"
		[ "$(head -n 1 "$work/out" | cut -d ' ' -f 1-3)" = "usage: pajurenda $name" ] || fail "no usage first"
		grep -q -e '^Exit status: 0 .* 2 refused or failed' -e '^Exit status: 0 boot complete, .* 2 a call is refused, or failed' "$work/out" ||
			fail "no exit status"
		[ "$(grep -c '^Exit status' "$work/out")" -eq 1 ] || fail "more than one exit status"
		for words in "$name --help" "$name -h" "$name help" "--help $name" "-h $name" "$name a b c d --help" "$name --help --"; do
			# shellcheck disable=SC2086
			help_is "$name" $words
		done
	done
	for word in --modules --words; do grep -qF -e "$word" "$work/help.read" || fail "read's help has no $word"; done
	for name in read release; do
		grep -qF -e 'extended number' "$work/help.$name" || fail "$name's help has no extended number"
	done
	grep -qF -e --ranges "$work/help.audit" || fail "audit's help has no --ranges"
	for name in read release sheet must owners setting audit verify hex history split handoff map place station; do
		grep -qF -e --json "$work/help.$name" || fail "$name's help has no --json"
	done
	for word in --report --text --list --reports --must; do
		grep -qF -e "$word" "$work/help.audit" || fail "audit's help has no $word"
		grep -qF -e "$word" "$work/help.verify" || fail "verify's help has no $word"
	done
	for name in sheet must owners setting audit verify; do
		for word in --names --names-strict; do grep -qF -e "$word" "$work/help.$name" || fail "$name's help has no $word"; done
	done
	for word in --owners --owner; do grep -qF -e "$word" "$work/help.verify" || fail "verify's help has no $word"; done
	for word in --owners --owner 'owners all' --hex; do grep -qF -e "$word" "$work/help.release" || fail "release's help has no $word"; done
}

# the version of the header, and what the build said of the kit and the archive
try_version() {
	fails_with 'pajurenda: read: takes no option --version (see pajurenda read --help)' read --version "$vendor"
	works 0 --version
	version=$(sed -n 's/^#define PAJURENDA_VERSION "\(.*\)"$/\1/p' "$root/include/pajurenda.h")
	[ "$(sed -n 1p "$work/out")" = "pajurenda $version" ] || fail "not the header's version"
	[ "$(sed -n 2p "$work/out")" = "library $version" ] || fail "the library is of another version"
	sed -n 3p "$work/out" | grep -q '^proved with ..*' || fail "not a word of the kit"
	sed -n 4p "$work/out" | grep -qx -e 'archive [0-9a-f]\{64\}' -e 'archive unknown archive' || fail "not a word of the archive"
	[ "$(wc -l <"$work/out")" -eq 4 ] || fail "not four lines"
	passed
	case $command in "$root"/target/c/*) ;; *) return 0 ;; esac
	grep -qx "archive $(sha256sum "$root/target/staticlib/libpajurenda.a" | sed 's/ .*//')" "$work/out" || fail "another archive"
}

try_wrong_words() {
	fails_with "pajurenda: no command $see"
	fails_with "pajurenda: no command $see" --
	fails_with "pajurenda: no command $see" --bytes
	fails_with "pajurenda: unknown command \"nonsense\" $see" nonsense
	fails_with "pajurenda: unknown command \"nonsense\" $see" nonsense --help
	fails_with "pajurenda: unknown command \"READ\" $see" READ a
	fails_with "pajurenda: unknown command \"\" $see" ''
	fails_with "pajurenda: unknown command \"nonsense\" $see" help nonsense
	fails_with "pajurenda: unknown command \"--help\" $see" -- --help
	fails_with "pajurenda: help: one word too many: \"release\" $see" help read release
	fails_with 'pajurenda: read: IMAGE is missing (see pajurenda read --help)' read
	fails_with 'pajurenda: read: one word too many: "b" (see pajurenda read --help)' read a b
	fails_with 'pajurenda: release: IMAGE and SHEET and BASE and OUT are missing (see pajurenda release --help)' release
	fails_with 'pajurenda: release: SHEET and BASE and OUT are missing (see pajurenda release --help)' release a
	fails_with 'pajurenda: release: BASE and OUT are missing (see pajurenda release --help)' release "$all" --owner=1 a b
	fails_with 'pajurenda: release: OUT is missing (see pajurenda release --help)' release "$all" --owner=1 a b 0
	fails_with 'pajurenda: release: one word too many: "d" (see pajurenda release --help)' release "$all" --owner=1 a b 0 c d e
	fails_with 'pajurenda: setting: OFFSET is missing (see pajurenda setting --help)' setting a
	fails_with 'pajurenda: setting: LENGTH is missing; a NAME alone needs --names FILE (see pajurenda setting --help)' setting a 40
	fails_with 'pajurenda: audit: --names-strict goes with --names FILE (see pajurenda audit --help)' audit --names-strict a b
	fails_with 'pajurenda: audit: SHIPPED is missing (see pajurenda audit --help)' audit a
	fails_with 'pajurenda: audit: SHIPPED is missing (see pajurenda audit --help)' audit --bytes a
	fails_with 'pajurenda: audit: one word too many: "c" (see pajurenda audit --help)' audit a b c
}

try_wrong_options() {
	fails_with "pajurenda: unknown option --nonsense $see" --nonsense
	fails_with "pajurenda: unknown option -x $see" -x --help
	fails_with "pajurenda: unknown option --helpx $see" --helpx
	fails_with "pajurenda: unknown option --help=read $see" --help=read
	fails_with 'pajurenda: audit: unknown option --byte (see pajurenda audit --help)' audit --byte "$vendor" "$shipped"
	fails_with 'pajurenda: audit: unknown option --byte (see pajurenda audit --help)' "--byte" audit "$vendor" "$shipped"
	fails_with 'pajurenda: audit: unknown option -b (see pajurenda audit --help)' audit "$vendor" "$shipped" -b --nonsense
	fails_with 'pajurenda: audit: unknown option --help?--bytes (see pajurenda audit --help)' audit "--help
--bytes" "$vendor" "$shipped"
	fails_with 'pajurenda: audit: takes no option --words (see pajurenda audit --help)' audit --words "$vendor" "$shipped"
	fails_with 'pajurenda: read: takes no option --bytes (see pajurenda read --help)' read --bytes "$vendor"
	fails_with 'pajurenda: read: takes no option --ranges (see pajurenda read --help)' read "$vendor" --ranges
	keeps "$o" fails_with 'pajurenda: release: unknown option -1 (see pajurenda release --help)' release "$all" --owner=1 "$vendor" "$work/nothing" -1 "$o/none"
	keeps "$o" fails_with 'pajurenda: release: takes no option --words (see pajurenda release --help)' release "$all" --owner=1 --words "$vendor" "$work/nothing" 0x0 "$o/none"
}

# an option anywhere, and files that are named like one
try_options_anywhere() {
	works 1 audit --bytes "$vendor" "$shipped"
	cp "$work/out" "$work/wanted_bytes"
	for words in 'audit V --bytes S' 'audit V S --bytes' '--bytes audit V S' 'audit --bytes --bytes V S' 'audit V S --bytes --' \
		'audit --bytes -- V S' '--bytes -- audit V S'; do
		# shellcheck disable=SC2046
		works 1 $(echo "$words" | sed "s|V|$vendor|; s|S|$shipped|")
		same "$work/out" "$work/wanted_bytes"
	done
	cp "$vendor" "$i/--bytes"
	cp "$vendor" "$i/-"
	cp "$vendor" "$i/help"
	(
		cd "$i"
		works 0 read -- --bytes
		same "$work/out" "$work/wanted_reading"
		works 0 read ./--bytes
		same "$work/out" "$work/wanted_reading"
		works 0 read ./-
		same "$work/out" "$work/wanted_reading"
		works 0 read -- help
		same "$work/out" "$work/wanted_reading"
		works 0 audit -- --bytes help
		works 0 audit help ./-
		fails_with 'pajurenda: --: No such file or directory' read -- --
		keeps "$i" fails_with 'pajurenda: release: unknown option --out (see pajurenda release --help)' release "$all" --owner=1 v "$work/nothing" 0x0 --out
		works 0 release "$all" --owner=1 v "$work/nothing" 0x0 -- --out
		same ./--out "$o/new"
		rm -- --out
	)
}

or_keep=", or keep for the image's own base"

# no_base BASE SENTENCE: nothing is released to it
no_base() {
	keeps "$o" fails_with "pajurenda: release: BASE \"$1\" $2" release "$all" --owner=1 "$vendor" "$work/nothing" "$1" "$o/none"
}

# misread NUMBER SENTENCE [BASE]: the number is refused as each of the words that are numbers, as a base with a sentence of its own
misread() {
	no_base "$1" "${3-$2}"
	fails_with "pajurenda: setting: OFFSET \"$1\" $2" setting "$vendor" "$1" 1
	fails_with "pajurenda: setting: LENGTH \"$1\" $2" setting "$vendor" 40 "$1"
}

try_misread() {
	no_x='has no 0x, and a base is hex: write'
	misread 00512000 'starts with 0: write 0x00512000 for hex or 512000 for decimal' "$no_x 0x00512000, or 0x7D000 where 00512000 is decimal"
	misread 00100000 'starts with 0: write 0x00100000 for hex or 100000 for decimal' "$no_x 0x00100000, or 0x186A0 where 00100000 is decimal"
	misread 040 'starts with 0: write 0x040 for hex or 40 for decimal' "$no_x 0x040, or 0x28 where 040 is decimal"
	misread 00 'starts with 0: write 0x00 for hex or 0 for decimal' "$no_x 0x00, or 0x0 where 00 is decimal"
	no_base 512000 "$no_x 0x512000, or 0x7D000 where 512000 is decimal"
	no_base 0 "$no_x 0x0, or 0x0 where 0 is decimal"
	no_base 4294443008 "$no_x 0x4294443008, or 0xFFF80000 where 4294443008 is decimal"
	misread 512000A 'has no 0x: write 0x512000A for hex' "$no_x 0x512000A"
	misread FFF80000 'has no 0x: write 0xFFF80000 for hex' "$no_x 0xFFF80000"
	misread 1e3 'has no 0x: write 0x1e3 for hex' "$no_x 0x1e3"
	misread 0b1 'has no 0x: write 0x0b1 for hex' "$no_x 0x0b1"
	misread 0X00512000 'has a capital X: write 0x00512000 for hex'
	for number in '' x 0x 0X 0xg 0x1g x512000 512000h +1 ' 1' '1 ' 1.0 16,777,216 1_000 0x0x1 '0x 1' 0x-1; do
		misread "$number" 'is not a number: write hex as 0x00512000, decimal without a leading 0' "is not hex: write it as 0x00512000$or_keep"
	done
	for number in 0x10000000000000000 0x8000000000000000000; do misread "$number" 'does not fit 64 bits'; done
	for number in 18446744073709551616 99999999999999999999999; do misread "$number" 'does not fit 64 bits' "$no_x 0x$number"; done
	fails_with "pajurenda: release: BASE \"1?2\" is not hex: write it as 0x00512000$or_keep" release "$all" --owner=1 "$vendor" "$work/nothing" '1
2' "$o/none"
}

# the image's own base is `keep` in this form alone
try_keep() {
	works 0 release "$all" --owner=1 "$o/moved" "$work/nothing" keep "$o/taken"
	prints 'base 0x00100000' 'move 0' 'entries 0'
	same "$o/taken" "$o/moved"
	for word in Keep KEEP 'keep ' keep. same; do
		keeps "$o" fails_with "pajurenda: release: BASE \"$word\" is not hex: write it as 0x00512000$or_keep" \
			release "$all" --owner=1 "$vendor" "$work/nothing" "$word" "$o/none"
	done
}

# what was two commands once is told to who types them, whatever follows
try_gone() {
	line='is gone: type release --owners LIST --owner N IMAGE SHEET BASE OUT; to'
	move="pajurenda: move $line set nothing, with the SHEET that sheet empty IMAGE SHEET writes (see pajurenda release --help)"
	apply="pajurenda: apply $line move nothing, with keep for BASE (see pajurenda release --help)"
	keeps "$o" fails_with "$move" move "$vendor" 0x00100000 "$o/none"
	keeps "$o" fails_with "$apply" apply "$vendor" "$work/sheet" "$o/none"
	for words in move 'move --help' 'move help' 'help move' '--help move' 'move --words' 'move --nonsense a' '-- move'; do
		# shellcheck disable=SC2086
		fails_with "$move" $words
	done
	for words in apply 'apply -h' 'help apply' 'apply a b c d'; do
		# shellcheck disable=SC2086
		fails_with "$apply" $words
	done
}

# a command of two words: each has the same help, and words of its own
try_two_words() {
	for words in 'sheet make --help' 'help sheet make' 'sheet empty help' 'sheet show -h a b c' '--help sheet show' 'sheet nonsense --help'; do
		# shellcheck disable=SC2086
		help_is sheet $words
	done
	sheet_see='(see pajurenda sheet --help)'
	fails_with "pajurenda: sheet: empty, start, make, show or fold is missing $sheet_see" sheet
	fails_with "pajurenda: sheet: \"nonsense\" is none of empty, start, make, show and fold $sheet_see" sheet nonsense a b
	fails_with "pajurenda: sheet: \"help\" is none of empty, start, make, show and fold $sheet_see" sheet help a
	fails_with "pajurenda: help: one word too many: \"nonsense\" $see" help sheet nonsense
	fails_with "pajurenda: help: one word too many: \"a\" $see" help sheet make a
	fails_with "pajurenda: unknown command \"make\" $see" make a b c
	fails_with "pajurenda: unknown command \"sheet make\" $see" 'sheet make' a b c
	fails_with "pajurenda: unknown command \"she\" $see" she make a b c
	fails_with "pajurenda: unknown command \"sheets\" $see" sheets make a b c
	fails_with "pajurenda: sheet: \"maker\" is none of empty, start, make, show and fold $sheet_see" sheet maker a b c
	fails_with 'pajurenda: sheet empty: IMAGE and OUT are missing (see pajurenda sheet empty --help)' sheet empty
	fails_with 'pajurenda: sheet make: TEXT and OUT are missing (see pajurenda sheet make --help)' sheet make a
	fails_with 'pajurenda: sheet make: one word too many: "d" (see pajurenda sheet make --help)' sheet make a b c d
	fails_with 'pajurenda: sheet show: SHEET is missing (see pajurenda sheet show --help)' sheet show
	fails_with 'pajurenda: sheet show: one word too many: "c" (see pajurenda sheet show --help)' sheet show a b c
	fails_with 'pajurenda: sheet show: takes no option --words (see pajurenda sheet show --help)' sheet --words show a
	fails_with 'pajurenda: sheet show: unknown option --texts (see pajurenda sheet show --help)' sheet show a --texts
	fails_with 'pajurenda: --json: No such file or directory' sheet show -- --json
	works 0 sheet -- show "$work/sheet"
	works 0 -- sheet show "$work/sheet" "$vendor"
}

# digits of either case and any count of zeros after 0x; decimal as it is
try_taken() {
	for base in 0x512000 0x0512000 0x00512000 0x000000000000000000512000; do
		works 0 release "$all" --owner=1 "$vendor" "$work/nothing" "$base" "$o/taken"
		prints 'base 0x00512000' 'move -4289126400' 'entries 0'
	done
	for base in 0xfff80000 0xFfF80000; do
		works 0 release "$all" --owner=1 "$vendor" "$work/nothing" "$base" "$o/taken"
		prints 'base 0xFFF80000' 'move 0' 'entries 0'
	done
	works 0 setting "$vendor" 0x28 0x2
	prints 'offset 0x0028' 'place 4136' 'length 2' 'bytes 01 05' 'number 0x0501'
}

try_help
try_version
try_wrong_words
try_wrong_options
try_options_anywhere
try_misread
try_keep
try_gone
try_two_words
try_taken
