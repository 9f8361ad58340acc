# tools/audit in the clone itself, where all is built: pairs, words, output that can't be written.
# shellcheck shell=sh
# shellcheck disable=SC2034,SC2154

audit=$root/tools/audit
try 1 "$audit"
[ "$(tail -n 1 "$work/out")" = 'verdict unexplained' ] || fail "the sample pair has another verdict"
cp "$work/out" "$work/sample"
keeps_quiet_of tools/audit
try 1 "$audit" "$sample/data/vendor.bin" "$sample/data/shipped.bin"
prints "$work/sample"
try 0 "$audit" "$explained/data/vendor.bin" "$explained/data/shipped.bin"
try 2 "$audit" "$refused/data/vendor.bin" "$refused/data/shipped.bin"
[ "$(cat "$work/out")" = 'refused 14' ] || fail "another refusal"
try 1 "$audit" "$short/data/vendor.bin" "$short/data/shipped.bin"
[ "$(grep -c '^[SX] ' "$work/out")" -eq 300 ] || fail "not every difference is listed"

# from another folder, by names of that folder, options before and after, names like options
(
	cd "$sample/data" || exit
	try 1 "$audit" --bytes vendor.bin shipped.bin
	grep -q '^S 4136 .*01 00' "$work/out" || fail "--bytes was not followed"
	cp "$work/out" "$work/bytes"
	try 1 "$audit" vendor.bin shipped.bin --bytes
	prints "$work/bytes"
	cp vendor.bin "$work/-v"
	cp shipped.bin "$work/-s"
)
(cd "$work" && try 1 "$audit" -- -v -s && prints "$work/sample")
try 1 "$audit" --bytes
prints "$work/bytes"
printf 'identity 54524541542D3031\nrevision 0x01020304\nbase 0x00100000\n0x28 00\n' >"$work/must"
try 1 "$audit" --must "$work/must"
[ "$(tail -n 1 "$work/out")" = 'verdict unexplained, as required' ] || fail "--must was not followed"
ln -s "$audit" "$work/by-link"
try 1 "$work/by-link"
prints "$work/sample"

# what the README shows is what it prints, and the compile line it gives is that of the example
sed -n '/^    base 0x/,/^    verdict /s/^    //p' "$root/README.md" >"$work/shown"
try 1 "$audit" --ranges
prints "$work/shown"
line=$(sed -n 's/^    \(cc .*\)/\1/p' "$root/README.md")
grep -qF "$line" "$root/example/audit-two.c" || fail "the README compiles the example otherwise: $line"
passed

# half a MiB, as real images have: the size in the header made right, then zeros
cp "$sample/data/vendor.bin" "$work/half"
printf '\000\000\010\000' | dd of="$work/half" bs=1 seek=124 conv=notrunc 2>/dev/null
dd if=/dev/null of="$work/half" bs=1 seek=524288 2>/dev/null
try 0 "$audit" "$work/half" "$work/half"

# wrong words and files that can't be had are told before anything is built
afresh
audit=$clone/tools/audit
try 2 "$audit" "$work/half"
tells 'two files are audited, not 1'
try 2 "$audit" a b c
tells 'two files are audited, not 3'
try 2 "$audit" --byte
tells 'unknown option --byte'
try 2 "$audit" "$work/half" "$work/half" --report
tells '--report has no value after it'
try 2 "$audit" --names --json
tells '--names has no value after it'
for option in --must --names --list; do
	try 2 "$audit" "$option" "$work/missing"
	tells "$work/missing: No such file or directory"
	try 2 "$audit" "$option=$work/missing"
	tells "$work/missing: No such file or directory"
done
try 2 "$audit" "$work/missing" "$work/half"
tells "tools/audit: $work/missing: No such file or directory"
try 2 "$audit" "$work/half" "$work"
tells "tools/audit: $work: Is a directory"
for word in -h --help help; do
	try 0 "$audit" "$word"
	grep -q 'usage: tools/audit' "$work/out" || fail "no usage"
done
got=0
what='tools/audit, standard output closed, nothing built'
"$audit" >&- 2>"$work/err" || got=$?
status_was 2
tells 'standard output is closed'
called 0
lacks "$clone/target"
audit=$root/tools/audit
try 2 "$audit" --nonsense
tells nonsense

# unheard AUDIT: exit status 2 where standard output is full or closed
unheard() {
	what="$1, standard output closed"
	got=0
	"$1" >&- 2>"$work/err" || got=$?
	status_was 2
	[ -c /dev/full ] || { not_run="$not_run; full standard output (no /dev/full)"; return 0; }
	what="$1, standard output full"
	got=0
	"$1" >/dev/full 2>"$work/err" || got=$?
	status_was 2
}
unheard "$audit"
for tool in build install bench; do
	try 0 "$root/tools/$tool" --help
	grep -q "tools/$tool" "$work/out" || fail "no usage"
done
try 2 "$root/tools/build" word
try 2 "$root/tools/install"
try 2 "$root/tools/install" --nonsense
