# shellcheck shell=sh disable=SC2034,SC2154,SC2162,SC2164
# Which file is the maker's: by a digest that is given, by the maker's own text beside the image; another file is refused before anything else.

try_given_digest() {
	own=$(digest_of m.bin)
	other=$(digest_of "$shipped")
	isnt="isn't the maker's image by --vendor-sha256: its SHA-256 is $own, not $other"
	works 1 audit --vendor-sha256 "$own" m.bin "$shipped"
	[ "$(sed -n 1p "$work/out")" = "maker's image by --vendor-sha256" ] || fail "who vouches"
	works 1 audit --vendor-sha256 "$(printf %s "$own" | tr a-f A-F)" m.bin "$shipped"
	fails_with "pajurenda: audit: m.bin $isnt" audit --vendor-sha256 "$other" m.bin "$shipped"
	fails_with "pajurenda: audit: m.bin $isnt" audit --vendor-sha256 "$other" m.bin missing
	fails_with "pajurenda: verify: m.bin $isnt" verify --vendor-sha256 "$other" m.bin missing missing
	keeps "$w" fails_with "pajurenda: release: m.bin $isnt" release --vendor-sha256 "$other" "$all" --owner 1 m.bin missing keep out
	for digits in 12 "${own}0" "${own%?}g" ''; do
		fails_with "pajurenda: audit: --vendor-sha256 \"$digits\" is no SHA-256: write its 64 hex digits (see pajurenda audit --help)" \
			audit "--vendor-sha256=$digits" m.bin "$shipped"
	done
	errs '--vendor-sha256 has no HEX after it' audit m.bin "$shipped" --vendor-sha256
	printf '%s %s\n' m.bin "$shipped" "$shipped" m.bin >list
	try 2 audit --vendor-sha256 "$own" --list list
	[ "$(sed -n 1p "$work/out" | cut -d ' ' -f 1-3)" = 'line 1 unexplained' ] || fail "the first line"
	[ "$(sed -n 2p "$work/out" | cut -d ' ' -f 1-3)" = 'line 2 failed' ] || fail "the second line"
	rm list
	passed
}

# the forms of the text: sha256sum's, with a star, the digits alone, several lines of which one names the image
try_makers_text() {
	for text in "$own  m.bin" "$own *m.bin" "$own" "$own  elsewhere/m.bin" "$own  another" "$other  n.bin\n$own  m.bin" "# the maker's\n$own  m.bin"; do
		# shellcheck disable=SC2059
		printf "$text\n" >m.bin.sha256
		works 1 audit m.bin "$shipped"
		[ "$(sed -n 1p "$work/out")" = "maker's image by m.bin.sha256" ] || fail "who vouches, by: $text"
	done
	printf '%s  m.bin\n' "$other" >m.bin.sha256
	fails_with "pajurenda: audit: m.bin isn't the maker's image by m.bin.sha256: its SHA-256 is $own, not $other" audit m.bin "$shipped"
	fails_with "pajurenda: audit: m.bin isn't the maker's image by m.bin.sha256: its SHA-256 is $own, not $other" audit --vendor-sha256 "$own" m.bin "$shipped"
	keeps "$w" errs "isn't the maker's image by m.bin.sha256" release "$all" --owner 1 m.bin "$work/nothing" keep out
	for text in "$other  n.bin\n$other  o.bin" 'no digest' ''; do
		# shellcheck disable=SC2059
		printf "$text" >m.bin.sha256
		try 1 audit m.bin "$shipped"
		says 'pajurenda: audit: m.bin.sha256 has no SHA-256 of this image, so it vouches for nothing'
		[ "$(sed -n 1p "$work/out")" = 'base 0x00100000' ] || fail "a text without a digest vouches"
	done
	printf '%s  m.bin\n' "$own" >m.bin.sha256
	works 1 audit --json --report page m.bin "$shipped"
	grep -qxF '  "vouched": "m.bin.sha256",' "$work/out" || fail "who vouches, in the document"
	[ "$(grep -cF '"file": "m.bin.sha256"' "$work/out")" -eq 1 ] || fail "the text beside the image isn't read once"
	grep -q "Maker's image, by a file beside it" page || fail "who vouches, on the page"
	barely works 0 release "$all" --owner 1 m.bin "$work/sheet" keep out.bin
	[ "$(sed -n 1p "$work/out")" = "maker's image by m.bin.sha256" ] || fail "who vouches, in a release"
	rm m.bin.sha256
	works 1 audit --report page m.bin "$shipped"
	grep -q "Given as the maker's image" page || fail "nobody vouches, on the page"
	passed
}

# with a record: the digest is that of its maker's image
try_digest_of_record() {
	works 0 verify --vendor-sha256 "$own" out.bin.release.json out.bin
	fails_with "pajurenda: verify: m.bin $isnt" verify --vendor-sha256 "$other" out.bin.release.json out.bin
	keeps "$w" barely fails_with "pajurenda: release: m.bin $isnt" \
		release --vendor-sha256 "$other" "$all" --owner 1 --after out.bin.release.json out.bin "$work/nothing" keep next.bin
	barely works 0 release --vendor-sha256 "$own" "$all" --owner 1 --after out.bin.release.json out.bin "$work/nothing" keep next.bin
	barely errs '-: standard output is no file to write' release "$all" --owner 1 m.bin "$work/sheet" keep -
	barely errs '-: standard output is no file to write' audit --report - m.bin "$shipped"
}

w=$work/w
mkdir "$w"
cd "$w"
cp "$vendor" m.bin
try_given_digest
try_makers_text
try_digest_of_record
cd "$root"
