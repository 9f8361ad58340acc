# shellcheck shell=sh disable=SC2034,SC2154,SC2162,SC2164
# Images of edition 1, header revision 1 with 60 or 64 bytes of header: read and audited byte for byte, refused with 28 by all that would
# need settings or the words of a move. Those here are the sample's vendor image with another revision and length, so that everything after
# the header is still there, and must not be looked at.

older_rule="an edition 1 image (header revision 1) can only be read and audited, byte for byte: its settings and the words of a move can't be told apart"
older_line="edition 1 byte for byte; settings can't be told apart"
of_older="(against the maker's image)"
older_open="not checked whether the maker's settings are the wanted ones; an edition 1 image doesn't tell them apart, so neither sheets nor --must say it"

# older FILE L POSITION VALUE..: an edition 1 image of that header length, with these bytes; in decimal
older() {
	older_file=$1
	older_length=$2
	shift 2
	changed "$vendor" "$older_file" 111 1 104 "$older_length" "$@"
}

# reads_older FILE: the whole reading of such an image
reads_older() {
	works 0 read "$1"
	prints 'length 8192' 'edition 1' 'identity 54524541542D3031 "TREAT-01"' 'revision 0x01020304' 'extended 0x0000' 'version 3.4' \
		'base 0xFFF80000' 'header 100'
}

# the reading says the edition, and nothing that wasn't judged; whatever stands at c and z, in the attributes and after the header
try_older_read() {
	for length in 60 64; do
		older e "$length"
		reads_older e
		said 0 read e
		older e "$length" 136 255 137 255 138 255 139 255 140 0 141 0 142 0 143 0
		reads_older e
		older e "$length" 132 170 133 187 134 204 135 221 140 255 141 255 142 255 143 255
		reads_older e
		older e "$length" 172 0 178 9 180 255 181 255 187 127 4102 0 4103 0
		reads_older e
		said 0 read e
	done
	older e 60
	for option in --modules --words; do
		refuses 28 e "$older_rule: header revision 1, L 60" read "$option" e
		said_refused 28 0 e read "$option" e
	done
}

# the bounds of 4 and 5 beside it, and 6 and 8, which are judged of both editions
try_older_bounds() {
	for length in 59 61 63 65 72; do
		older e "$length"
		values 5 e "mark \"FSPH\" at H 100, revision 1, L $length, section size 104" read e
	done
	for revision in 0 2; do
		older e 60 111 "$revision"
		values 5 e "mark \"FSPH\" at H 100, revision $revision, L 60, section size 104" read e
		older e 60 111 "$revision" 96 75
		values 4 e "type 0x19, size 75, s 128, header revision $revision" read e
	done
	older e 60 96 64
	reads_older e
	older e 60 96 63
	values 4 e 'type 0x19, size 63, s 128' read e
	older e 64 96 67
	values 5 e 'mark "FSPH" at H 100, revision 1, L 64, section size 67' read e
	older e 64 96 68
	reads_older e
	older e 60 124 1
	refuses 6 e 'header says 8193 bytes, the file has 8192' read e
	older e 60 129 8
	values 8 e '0xFFF80800 for 8192 bytes' read e
}

# equal files are explained, and that is all that can be said
try_older_equal() {
	for length in 60 64; do
		older e "$length" 138 255 142 255
		works 0 audit e e
		prints "$older_line" 'base 0xFFF80000' "settings 0 $of_older" 'strays 0' 'bits 0' 'verdict explained' "$older_open"
		cp "$work/out" "$work/rest"
		works 0 audit --json e e
		lines_of audit
		[ -z "$python" ] || same "$work/again" "$work/rest"
	done
}

# a byte of what would be a setting, the base word, a header field, the last byte: strays all of them, in every form
try_older_strays() {
	older e 60
	changed e f 130 16 131 0 4136 7 100 71 8191 9
	works 1 audit e f
	prints "$older_line" 'base 0x00100000' "settings 0 $of_older" 'strays 5' 'bits 0' 'X 100' 'X 130' 'X 131' 'X 4136' 'X 8191' 'verdict unexplained'
	works 1 audit --bytes e f
	prints "$older_line" 'base 0x00100000' "settings 0 $of_older" 'strays 5' 'bits 0' 'X 100 46 47' 'X 130 F8 10' 'X 131 FF 00' 'X 4136 01 07' \
		"X 8191 $(od -An -tx1 -j8191 -N1 e | tr -d ' \n' | tr a-f A-F) 09" 'verdict unexplained'
	works 1 audit --ranges e f
	prints "$older_line" 'base 0x00100000' "settings 0 $of_older" 'strays 5' 'bits 0' 'X 100..100 length 1 FSP header' 'X 130..131 length 2 base word' \
		'X 4136..4136 length 1 elsewhere' 'X 8191..8191 length 1 elsewhere' 'verdict unexplained'
	works 1 audit --json --text "$o/older.txt" e f
	lines_of audit
	if [ -n "$python" ]; then
		lines "$older_line" 'base 0x00100000' "settings 0 $of_older" 'strays 5' 'bits 0'
		{ cat "$work/wanted" "$o/older.txt" && echo 'verdict unexplained'; } >"$work/rest"
		same "$work/again" "$work/rest"
	fi
	rm "$o/older.txt"
}

# the vendor's edition decides: of a pair that differs in revision and length alone, either way round
try_older_pair() {
	older e 60
	works 1 audit "$vendor" e
	prints 'base 0xFFF80000' "settings 0 $of_maker" 'strays 2' 'bits 0' 'X 104' 'X 111' 'verdict unexplained'
	works 1 audit e "$vendor"
	prints "$older_line" 'base 0xFFF80000' "settings 0 $of_older" 'strays 2' 'bits 0' 'X 104' 'X 111' 'verdict unexplained'
	changed e f 129 8
	values 18 f '0xFFF80800 for 8192 bytes' audit e f
	head -c 8191 e >f
	values 19 f 'the file has 8191 bytes, e has 8192' audit e f
}

# the page says how it was compared; no region, no move and no words are drawn or told
try_older_page() {
	older e 60
	changed e f 4136 7
	works 1 audit --report "$o/older.html" e f
	for text in "An edition 1 image is compared byte for byte; settings can't be told apart." '<tr><td>Edition</td><td>1</td><td>1</td><td>the same</td></tr>' '<h2>Differences from the maker' \
		'<td class="at">4136..4136</td>' 'FSP header <span class="at">100..159</span>'; do
		grep -qF "$text" "$o/older.html" || fail "the page does not have: $text"
		passed
	done
	for text in 'Component</td>' 'Region at' 'Patch entries' 'Modules</dt>' 'Configuration region' 'enlarged' 'Moved words' 'Settings that differ' 'image moved' \
		'<dt>Move</dt>' 'Words that the move changes' 'and every one is a setting'; do
		! grep -qF "$text" "$o/older.html" || fail "the page has: $text"
		passed
	done
	works 0 audit --report "$o/older.html" e e
	grep -qF "Byte for byte, the shipped file is the maker's image: no byte differs." "$o/older.html" || fail "no sentence of equal files"
	grep -qF 'Not checked: whether the maker' "$o/older.html" || fail "the page does not say what was not checked"
	rm "$o/older.html"
}

# a list of pairs of both editions
try_older_list() {
	older e 60
	changed e f 4136 7
	printf 'e e\nv v\ne f\nf s\n' >list
	works 1 audit --list list
	prints 'line 1 explained base 0xFFF80000 settings 0 strays 0 bits 0 edition 1 e e' 'line 2 explained base 0xFFF80000 settings 0 strays 0 bits 0 v v' \
		'line 3 unexplained base 0xFFF80000 settings 0 strays 1 bits 0 edition 1 e f' "$(sed -n 4p "$work/out")" \
		'pairs 4 explained 2 unexplained 2 refused 0 failed 0' "$unchecked"
	case $(sed -n 4p "$work/out") in 'line 4 unexplained base 0x00100000 settings 0 strays '*' bits 0 edition 1 f s') ;; *) fail "the last pair" ;; esac
	rm list
}

# whoever needs settings or words says why not, and writes nothing
try_older_refused() {
	older e 64
	told="$older_rule: header revision 1, L 64"
	cp "$work/old" "$o/out"
	printf 'identity 54524541542D3031\nrevision 0x01020304\n0x28 01 00\n' >text
	printf 'identity 54524541542D3031\nrevision 0x01020304\nbase any\n0x28 01 05\n' >must
	keeps "$o" refuses 28 e "$told" release "$all" --owner=1 e "$work/sheet" 0x00100000 "$o/out"
	keeps "$o" refuses 28 e "$told" release "$all" --owner=1 e "$work/nothing" keep "$o/out"
	keeps "$o" refuses 28 e "$told" release "$all" --owner=9 e "$work/old" 0x1 "$o/out"
	keeps "$o" refuses 28 e "$told" sheet make e text "$o/older"
	keeps "$o" refuses 28 e "$told" sheet empty e "$o/older"
	keeps "$o" refuses 28 e "$told" sheet start e "$o/older"
	keeps "$o" refuses 28 e "$told" owners all e "$o/older"
	refuses 28 e "$told" sheet show "$work/sheet" e
	refuses 28 e "$told" owners show "$work/all" e
	refuses 28 e "$told" setting e 40 2
	refuses 28 e "$told" setting e 0 0
	refuses 28 e "$told" must show must e
	refuses 28 e "$told" verify e "$work/sheet" e
	refuses 28 e "$told" audit --must must e e
	printf 'identity 54524541542D3031\nrevision 0x01020304\n' >names
	refuses 28 e "$told" audit --names names e e
	said_refused 28 0 e verify e "$work/sheet" e
	said_refused 28 0 e audit --must must e e
	rm text must names
}

# as bytes it goes to the programmer at its base
try_older_hex() {
	older e 60
	works 0 hex export e "$o/older.hex"
	works 0 hex import "$o/older.hex" "$o/older.bin"
	same "$o/older.bin" e
	rm "$o/older.hex" "$o/older.bin"
}

cd "$i"
for one in read bounds equal strays pair page list refused hex; do "try_older_$one"; done
rm -f e f
cd "$root"
