# shellcheck shell=sh disable=SC2034,SC2154,SC2162,SC2164
# The page in a real browser, Debian's chromium, with no network: at a laptop's and at a phone's width, and with modules at two between them, it must
# say what it says and nothing may stick out; on A4 and Letter too, where no page's signature stands alone and every sheet has the page's name and its
# number. PAJURENDA_PICTURES names a folder that gets the pictures of the two samples, docs where those there are of another version;
# PAJURENDA_BROWSER=no leaves all this out.

# the words that start the browser without a network, in browser; none where there is none
find_browser() {
	browser=
	for name in chromium chromium-browser google-chrome; do
		[ -n "$browser" ] || browser=$(command -v "$name") || :
	done
	[ -n "$browser" ] || return 0
	browser="$browser --headless --disable-gpu --no-first-run --hide-scrollbars --force-device-scale-factor=1 --proxy-server=http://127.0.0.1:9"
	[ "$(id -u)" -ne 0 ] || browser="$browser --no-sandbox"
	! unshare -n true 2>/dev/null || browser="unshare -n $browser"
	browser="timeout 60 $browser --user-data-dir=$work/browser"
}

# measured PAGE WIDTH: what the browser makes of the page at that width, in lines, in measured. A script of ours in a copy of the page tells it; the copy
# is shown in a frame of that width, as the browser has no window as narrow as a phone's.
measured() {
	sed '/Content-Security-Policy/d; /^<\/body>/d; /^<\/html>/d' "$1" >"$work/measured.html"
	cat >>"$work/measured.html" <<'END'
<script>
const lines = [], wide = innerWidth;
const say = (name, value) => lines.push(name + " " + value);
say("width", wide);
say("scroll", document.documentElement.scrollWidth);
say("height", document.documentElement.scrollHeight);
for (const one of document.querySelectorAll("body *")) {
	if (one.closest("svg") && one.tagName != "rect" || one.tagName == "SCRIPT") continue;
	const box = one.getBoundingClientRect();
	if (box.right > wide + 0.5 || box.left < -0.5) say("sticks", one.tagName + " " + one.textContent.slice(0, 40));
	if (!one.closest("svg") && one.scrollWidth > one.clientWidth + 1 && getComputedStyle(one).display != "inline") say("spills", one.tagName + " " + one.textContent.slice(0, 40));
}
for (const map of document.querySelectorAll(".map"))
	for (const lane of map.querySelectorAll(".lane svg:not(.parts)")) {
		const own = lane.getBoundingClientRect();
		let seen = 0;
		for (const mark of lane.querySelectorAll("rect")) {
			const box = mark.getBoundingClientRect();
			const fill = getComputedStyle(mark).fill;
			if (box.height >= 8 && box.right >= own.left && box.left <= own.right && fill != "none" && parseFloat(getComputedStyle(mark).strokeWidth) >= 1) seen++;
		}
		say("seen", map.id + " " + lane.getAttribute("class") + " " + seen);
	}
for (const word of document.querySelectorAll(".word"))
	say("word", word.innerText + " " + (parseFloat(getComputedStyle(word).fontSize) >= 26 ? "large" : "small"));
for (const path of document.querySelectorAll(".path")) path.remove();
for (const row of document.querySelectorAll(".ranges tbody tr, .files tbody tr, .entries tbody tr, .needs tbody tr"))
	say("row", Array.from(row.cells).map(cell => cell.innerText.replace(/\s+/g, " ")).join("|"));
parent.postMessage(lines.join("\n"), "*");
</script>
</body>
</html>
END
	printf '<!DOCTYPE html><script>onmessage = (told) => { document.body.textContent = "\\n" + told.data + "\\n"; }</script>
<body><iframe src="measured.html" style="border:0;width:%spx;height:900px"></iframe></body>\n' "$2" >"$work/frame.html"
	what="the browser on $1 at $2"
	# shellcheck disable=SC2086
	$browser --window-size=1600,1000 --virtual-time-budget=5000 --dump-dom "file://$work/frame.html" >"$work/dom" 2>"$work/err" </dev/null || fail "it ended with $?"
	"$python" -I -S -c 'import html, re, sys
body = re.search("<body[^>]*>\n(.*?)\n*</body>", sys.stdin.read(), re.S).group(1)
print(html.unescape(body))' <"$work/dom" >"$work/measured" 2>"$work/err" || fail "no measures"
	grep -qx "width $2" "$work/measured" || fail "another width: $(head -n 1 "$work/measured")"
	grep -qx "scroll $2" "$work/measured" || fail "it is wider than the window: $(sed -n 2p "$work/measured")"
	! grep -e '^sticks' -e '^spills' "$work/measured" >"$work/err" || fail "something sticks out"
	passed
}

# shown PAGE WIDTH: what the browser shows at that width is what the page says: verdict, files, ranges, entries, and every mark
shown() {
	measured "$1" "$2"
	"$python" -I -S "$here/read-page.py" "$1" ${3:+"$3"} >"$work/page" 2>"$work/err" || fail "no such page"
	sed -n 's/^\(file\|ranges\|entries\|needs\) /row /p' "$work/page" | tr -s ' ' | sort >"$work/wanted"
	sed -n '/^row /p' "$work/measured" | sort >"$work/rows"
	same "$work/rows" "$work/wanted"
	sed -n 's/^marks /seen /p' "$work/page" | sort >"$work/wanted"
	grep '^seen ' "$work/measured" | grep -v -e ' moved ' -e ' set ' -e ' modules ' | sort >"$work/rows"
	same "$work/rows" "$work/wanted"
	grep -qi "^word $(sed -n 's/^verdict \(.*\) (.*/\1/p' "$work/page") large\$" "$work/measured" || fail "the verdict isn't there, large"
	passed
}

# picture_of PAGE WIDTH FILE: all of it, as high as it is
picture_of() {
	what="a picture of $1 at $2"
	# shellcheck disable=SC2086
	$browser --window-size="$2,$(sed -n 's/^height //p' "$work/measured")" --screenshot="$3" "file://$1" >/dev/null 2>"$work/err" </dev/null || fail "it ended with $?"
	[ "$(od -An -tx1 -N8 "$3" | tr -d ' ')" = 89504e470d0a1a0a ] || fail "no picture"
	[ "$(od -An -v -tu1 -j16 -N4 "$3" | awk '{ print (($1 * 256 + $2) * 256 + $3) * 256 + $4 }')" -eq "$2" ] || fail "another width"
	passed
}

# print_at PAGE SIZE: the page on paper of that size, in print.pdf
print_at() {
	what="a print of $1 on $2"
	sed "s/size:A4/size:$2/" "$1" >"$work/print.html"
	# shellcheck disable=SC2086
	$browser --no-pdf-header-footer --print-to-pdf="$work/print.pdf" "file://$work/print.html" >/dev/null 2>"$work/err" </dev/null || fail "it ended with $?"
	grep -aq '^%PDF-' "$work/print.pdf" || fail "no PDF"
	passed
}

# sized WIDTH HEIGHT: every sheet has that size in points, and each word on it is inside the margins
sized() {
	grep -ao '/MediaBox *\[[^]]*\]' "$work/print.pdf" | sort -u >"$work/rows"
	[ "$(wc -l <"$work/rows")" -eq 1 ] || fail "pages of several sizes"
	"$python" -I -S -c 'import re, sys
wide, high = map(float, sys.argv[1:3])
size = [float(one) for one in open(sys.argv[3]).read().split("[")[1].split("]")[0].split()]
assert size[:2] == [0, 0] and abs(size[2] - wide) < 1 and abs(size[3] - high) < 1, size
boxes = re.findall(r"<word xMin=\"([^\"]*)\" yMin=\"([^\"]*)\" xMax=\"([^\"]*)\" yMax=\"([^\"]*)\"", open(sys.argv[4], encoding="utf-8").read())
assert len(boxes) > 100, len(boxes)
for left, top, right, bottom in (map(float, box) for box in boxes):
    assert left >= 40 and right <= wide - 40 and top >= 40 and bottom <= high - 20, (left, top, right, bottom)' "$1" "$2" "$work/rows" "$work/print.words" 2>"$work/err" ||
		fail "another size, or a word beyond the margins"
	passed
}

# what a print must have: on each sheet the page's name and its number; one signature, and with it the verdict, the file and its digest; behind it the maps,
# on a sheet of their own. Where the signature would end above a height on paper without an end, all that is signed fits the first sheet, and there it is
cat >"$work/sheets.py" <<'END'
import re, sys
text, words, page, most = sys.argv[1:]
sheets = open(text, encoding="utf-8").read().split("\f")[:-1]
for number, sheet in enumerate(sheets):
    assert "Page %d of %d" % (number + 1, len(sheets)) in sheet and "page.html" in sheet, "no foot on sheet %d" % (number + 1)
signed = [number for number, sheet in enumerate(sheets) if "Signature" in sheet]
assert len(signed) == 1, "signatures on %d sheets" % len(signed)
at = signed[0]
told = open(page, encoding="utf-8").read()
verdict, digest = re.search(r"^signed Signed for: (.*?), of .* with SHA-256 ([0-9a-f]{64})$", told, re.M).groups()
assert "Signed for:" in sheets[at], "the signature stands alone on sheet %d" % (at + 1)
beside = " ".join(sheets[at].split("Signed for:")[1].split("Signature")[0].split())
assert beside.startswith(verdict + ", of ") and digest in beside.replace(" ", ""), "something else stands with the signature: " + beside
if "\nmarks " in told:
    assert at + 1 < len(sheets) and "Map of the image" in sheets[at + 1] and "Map of the image" not in sheets[at], "what is behind it is not behind it"
if words:
    first = open(words, encoding="utf-8").read().split("</page>")[0]
    ends = float(re.findall(r"yMax=\"([^\"]*)\">Signature<", first)[-1])
    assert (at == 0) == (ends <= float(most)), "the signature is on sheet %d, and would end at %s" % (at + 1, ends)
END

# printed PAGE: on A4 and on Letter; the words are looked at where pdftotext can be had
printed() {
	if ! command -v pdftotext >/dev/null; then
		print_at "$1" A4
		return
	fi
	print_at "$1" '210mm 4000mm'
	pdftotext -bbox "$work/print.pdf" "$work/endless.words"
	for paper in 'A4 595 842 791' 'letter 612 792 741'; do
		# shellcheck disable=SC2086
		set -- "$1" $paper
		print_at "$1" "$2"
		pdftotext -bbox "$work/print.pdf" "$work/print.words"
		sized "$3" "$4"
		pdftotext -layout "$work/print.pdf" "$work/print.text"
		endless=$work/endless.words
		[ "$2" = A4 ] || endless=
		"$python" -I -S "$work/sheets.py" "$work/print.text" "$endless" "$work/page" "$5" 2>"$work/err" || fail "the sheets"
		passed
	done
	sed -n 's/^ranges [^|]*|\([^|]*\)|.*/\1/p; s/^file [^|]*|[^|]*|[^|]*|\([0-9a-f]\{30\}\)[0-9a-f]*$/\1/p' "$work/page" >"$work/wanted"
	[ -s "$work/wanted" ] || fail "nothing to look for"
	while read -r word; do
		grep -qF -e "$word" "$work/print.text" || fail "the print has no $word"
		passed
	done <"$work/wanted"
}

# calmed PAGE: without what is another on every machine and in every run: date, user, host, folder, command
calmed() {
	sed "s|<time>[^<]*</time> by [^<]*, with|<time>2026-01-01 00:00:00 UTC</time> by inspector (1000) on bench, with|; s|$(pwd -P)/|/home/inspector/june/|g; s|$command |pajurenda |" "$1"
}

# opened NAME WIDTHS STATUS WORDS..: the page of a check at these widths and on paper
opened() {
	name=$1
	widths=$2
	shift 2
	rm -f whole
	try "$@" --report page.html --text whole
	[ "$1" -eq 2 ] || says
	calmed page.html >"$name.html"
	for wide in $widths; do
		shown "$work/see/$name.html" "$wide" "$(find "$work/see/whole" 2>/dev/null)"
		picture_of "$work/see/$name.html" "$wide" "$work/see/$name-$wide.png"
	done
	printed "$work/see/$name.html"
}

try_browser() {
	mkdir "$work/see"
	cd "$work/see"
	cp "$vendor" vendor.bin
	cp "$shipped" shipped.bin
	cp "$i/one.sheet" june.sheet
	cp "$i/two.sheet" july.sheet
	opened unexplained '390 1280' 1 audit vendor.bin shipped.bin
	opened mended '390 1280' 0 mend --replace --hex mended.hex vendor.bin shipped.bin mended.bin
	cp "$root/crates/run_explained/data/shipped.bin" shipped.bin
	opened explained '390 1280' 0 audit vendor.bin shipped.bin
	changed "$vendor" older.bin 111 1 104 60
	opened older '390 1280' 1 audit older.bin shipped.bin
	cp "$i/released" shipped.bin
	flip shipped.bin 4197 4198
	flip shipped.bin 4300 4340
	flip shipped.bin 6000 6100
	opened not-as-released '390 1280' 1 verify vendor.bin june.sheet july.sheet shipped.bin
	opened refused '390 1280' 2 audit vendor.bin june.sheet
	# files on more than one sheet
	# shellcheck disable=SC2046
	opened long '390 1280' 1 verify vendor.bin $(for n in $(seq 22); do echo june.sheet july.sheet; done) shipped.bin
	cp "$work/accident/A.bsf" "$work/accident/B.must" "$work/accident/B" .
	cp "$work/accident/shipped" shipped.bin
	cp "$work/accident/sheet" june.sheet
	opened not-as-required '390 1280' 1 verify --names A.bsf --must B.must B june.sheet shipped.bin
	cp "$root/crates/run_short/data/vendor.bin" "a <name> that is long enough to need two lines on a phone, and one without any blank: $(printf '%080d' 7).bin"
	cp "$root/crates/run_short/data/shipped.bin" shipped.bin
	opened many '390 1280' 1 audit a*.bin shipped.bin
	if [ -f "$i/three.moved" ]; then
		cp "$i/three" "$i/three.sheet" .
		cp "$i/three.moved" moved.bin
		for part in '290 320' '430 446' '630 636' '866 873' '1458 1470'; do
			# shellcheck disable=SC2086
			flip moved.bin $part
		done
		opened modules '390 800 1024 1280' 1 audit three moved.bin
		opened modules-verified '390 800 1024 1280' 1 verify three three.sheet moved.bin
		opened modules-mended '390 800 1024 1280' 0 mend --replace three moved.bin mended.bin
	fi
	for folder in "$work/b" "$work/b/named"; do
		[ -d "$folder" ] || continue
		rm -f boards.html
		run history --report boards.html "$folder" >"$work/out" 2>"$work/err" || [ $? -lt 3 ]
		for wide in 390 800 1024 1280; do measured "$work/see/boards.html" "$wide"; done
	done
	browsed='; the page opened in a browser'
	if [ "$(cat "$root/docs/report.version" 2>/dev/null)" != "$version" ]; then PAJURENDA_PICTURES=docs; fi
	if [ -n "${PAJURENDA_PICTURES-}" ]; then
		for name in explained unexplained; do cp "$name-1280.png" "$root/$PAJURENDA_PICTURES/report-$name.png"; done
		echo "$version" >"$root/$PAJURENDA_PICTURES/report.version"
		browsed="$browsed, and its pictures made anew in $PAJURENDA_PICTURES"
	fi
	cd "$root"
}

find_browser
if [ "${PAJURENDA_BROWSER-}" = no ]; then
	not_run="$not_run; the page in a browser (left out here)"
elif [ -z "$browser" ] || [ -z "$python" ]; then
	not_run="$not_run; the page in a browser (no chromium, or no python3)"
else
	try_browser
fi
