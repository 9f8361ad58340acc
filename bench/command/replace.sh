# shellcheck shell=sh disable=SC2034,SC2154,SC2162,SC2164
# Nothing is replaced unless --replace is given: what stands in the way stays, by whatever name it is reached, and is told.

# stays TEXT WORDS..: refused because of what is there, every byte of the folder as before
stays() {
	text=$1
	shift
	keeps "$r" barely try 2 "$@"
	prints
	tells "$text"
	tells ' is there already: '
	tells 'it stays as it is, and nothing is written: name another file, or give --replace'
}

make_standing() {
	r=$work/r
	mkdir "$r"
	cp "$vendor" "$r/maker.bin"
	cp "$work/sheet" "$r/set.sheet"
	cp "$work/all" "$r/own"
	ln -s maker.bin "$r/latest.bin"
	ln "$r/maker.bin" "$r/hard.bin"
	printf 'signed\n' >"$r/page"
	cp "$vendor" "$r/other.bin"
	{ cat "$work/bound" && echo '0x28 01 00'; } >"$r/text"
	cd "$r"
}

# the image of another release, the maker's through links, owner lists, sheets, pages, texts, records
try_standing() {
	told_image='an image, component T, identity 54524541542D3031 "TREAT-01", version 1.2.3.4, base 0xFFF80000'
	for out in other.bin ./other.bin "$r/other.bin" ../r/other.bin; do
		stays "$told_image" release "$all" --owner 1 maker.bin set.sheet keep "$out"
	done
	stays "$told_image" sheet empty other.bin latest.bin
	stays "$told_image" sheet make other.bin text hard.bin
	stays "$told_image" owners all other.bin latest.bin
	stays "page is there already: 7 bytes, no image" release "$all" --owner 1 maker.bin set.sheet keep page
	stays "own is there already: " owners all maker.bin own
	stays "set.sheet is there already: " sheet make maker.bin text set.sheet
	stays "set.sheet is there already: " sheet empty maker.bin set.sheet
	stays "page is there already: " audit --report page "$vendor" "$shipped"
	stays "page is there already: " audit --text page "$vendor" "$shipped"
	stays "page is there already: " verify --report page "$vendor" set.sheet "$shipped"
	stays "page is there already: " hex export maker.bin page
	stays "page is there already: " release "$all" --owner 1 --hex page maker.bin set.sheet keep new.bin
	stays "page is there already: " release "$all" --owner 1 --record page maker.bin set.sheet keep new.bin
	printf 'kept\n' >new.bin.release.json
	stays "new.bin.release.json is there already: " release "$all" --owner 1 maker.bin set.sheet keep new.bin
	rm new.bin.release.json
	barely works 0 hex export maker.bin text.hex
	stays "$told_image" hex import text.hex other.bin
	for file in empty:'0 bytes, no image' above:'a file longer than any image'; do
		cp "$work/${file%%:*}" there
		stays "there is there already: ${file#*:}" sheet empty maker.bin there
		rm there
	done
}

# the pages of a list: each that stands is its line's failure
try_standing_pages() {
	mkdir pages
	printf '%s %s\n' "$vendor" "$shipped" "$vendor" "$shipped" >list
	printf 'signed\n' >pages/line-1-shipped.bin.html
	barely try 2 audit --list list --reports pages
	tells 'pages/line-1-shipped.bin.html is there already: '
	[ "$(cat pages/line-1-shipped.bin.html)" = signed ] || fail "the page that was there"
	[ -s pages/line-2-shipped.bin.html ] || fail "no page beside it"
	passed
	barely works 1 audit --list list --reports pages --replace
	grep -q '<html' pages/line-1-shipped.bin.html || fail "the page isn't replaced"
	passed
	rm -r pages list
}

# --replace takes what is there, and no input of the same call: not by another name either
try_replaced() {
	barely works 0 release --replace --no-record "$all" --owner 1 maker.bin set.sheet keep page
	barely works 0 sheet empty --replace maker.bin page
	same page "$work/nothing"
	barely works 0 owners all --replace maker.bin page
	for out in maker.bin ./maker.bin latest.bin hard.bin; do
		keeps "$r" barely errs 'OUT is IMAGE itself, which would be lost' sheet empty --replace maker.bin "$out"
		keeps "$r" barely errs 'OUT is IMAGE itself, which would be lost' owners all --replace maker.bin "$out"
		keeps "$r" barely errs 'OUT is IMAGE itself, ' release "$all" --owner 1 maker.bin set.sheet keep "$out"
		keeps "$r" barely errs 'the file to write is VENDOR itself' audit --replace --report "$out" maker.bin "$shipped"
		keeps "$r" barely errs 'the record to write is IMAGE itself, which would be lost: name another' \
			release "$all" --owner 1 --replace --record "$out" maker.bin set.sheet keep new.bin
	done
	ln set.sheet hard.sheet
	keeps "$r" barely errs 'OUT is SHEET itself, which would be lost' release --replace "$all" --owner 1 maker.bin set.sheet keep hard.sheet
	keeps "$r" barely errs 'OUT is LIST itself, which would be lost' release --replace --owners own --owner 1 maker.bin set.sheet keep ./own
	rm hard.sheet
}

# but for IMAGE, where it says so; and of the maker's own, that the record then lacks it
try_replaced_itself() {
	cp maker.bin here.bin
	barely try 0 release --replace --no-record "$all" --owner 1 here.bin set.sheet keep ./here.bin
	says 'pajurenda: release: OUT is IMAGE itself: here.bin as it was is replaced'
	cp maker.bin here.bin
	barely try 0 release --replace "$all" --owner 1 here.bin set.sheet 0x1000 here.bin
	says "pajurenda: release: OUT is IMAGE itself: here.bin as it was is replaced; the record names it as the maker's image, and can be verified only with a copy of it"
	barely errs "isn't as recorded" verify here.bin.release.json here.bin
	tells 'it is what step 1 made'
	rm here.bin here.bin.release.json
}

# two outputs of one name, where nothing stands yet: none is written
try_one_name() {
	for words in '--report new --text ./new' '--report ./new --text new'; do
		# shellcheck disable=SC2086
		keeps "$r" barely try 2 audit --replace $words "$vendor" "$shipped"
	done
	keeps "$r" barely try 2 release --replace "$all" --owner 1 --hex ./new maker.bin set.sheet keep new
	keeps "$r" barely try 2 release --replace "$all" --owner 1 --record ./new maker.bin set.sheet keep new
	keeps "$r" barely try 2 release --replace "$all" --owner 1 --record new --hex ./new maker.bin set.sheet keep out
}

make_standing
try_standing
try_standing_pages
try_replaced
try_replaced_itself
try_one_name
cd "$root"
