# The first run, the later ones, what makes them build again, and what keeps them from it.
# shellcheck shell=sh
# shellcheck disable=SC2034,SC2154

audit=$clone/tools/audit
afresh
try 1 "$audit"
prints "$work/sample"
tells 'nothing is built here yet'
wanted=$(eval "$(sed -n '/^stands_on() {/,/^}/p' "$root/tools/common")"; stands_on "$c_crate" | wc -l)
tells_lines "$wanted" ' left'
tells "$((wanted - 1)) left"
tells ' 0 left'
called 1
nothing_about
# on another machine than x86-64 the program itself lies in lib, and a wrapper starts it
beside='built pajurenda'
[ "$(uname -m)" = x86_64 ] || beside='built lib pajurenda'
[ "$(cd "$clone/target/c" && echo *)" = "$beside" ] || fail "something lies beside the command: $(ls "$clone/target/c")"
try 1 "$audit"
tells_lines 0
called 1

export TRY_COMPILING=quickly
# the times of files don't matter, their bytes do: sources, header, tools and what was made
find "$clone/crates" "$clone/command" "$clone/include" -exec touch {} +
try 0 "$clone/tools/build"
tells_lines 0
# builds_again CALLS: and then it doesn't
builds_again() {
	try 0 "$clone/tools/build"
	tells 'changed since the last build'
	called "$1"
	try 0 "$clone/tools/build"
	tells_lines 0
}
calls=1
for file in crates/table/src/lib.rt crates/audit_count/specs/Differences.antt crates.txt; do
	case $file in
	*.txt) sed -i 's/: facts/:  facts/' "$clone/$file" ;;
	*) echo >>"$clone/$file" ;;
	esac
	calls=$((calls + 1))
	builds_again "$calls"
done
rm "$clone/target/staticlib/libpajurenda.a"
builds_again $((calls + 1))
for file in command/main.c include/pajurenda.h tools/wrapper; do
	echo >>"$clone/$file"
	builds_again $((calls + 1))
done
cp /bin/true "$clone/target/c/pajurenda"
try 1 "$audit"
prints "$work/sample"
cp /bin/true "$clone/target/c/another"
builds_again $((calls + 1))
lacks "$clone/target/c/another"

# a library that isn't proved, C that doesn't compile: no command
afresh
try 2 env TRY_HOW=fails "$audit"
tells 'fn facts::f: not proved'
tells 'the library is not proved'
lacks "$clone/target/c"
afresh
echo 'int main(void) { return nothing; }' >"$clone/command/wrong.c"
try 2 env TRY_COMPILING= "$audit"
tells 'did not build the command'
lacks "$clone/target/c"
rm "$clone/command/wrong.c"
nothing_about

# two at once: one builds, the other waits for it
afresh
what='two first runs at once'
(env TRY_HOW=slow "$audit" >"$work/out1" 2>"$work/err1" || echo $? >"$work/status1") &
env TRY_HOW=slow "$audit" >"$work/out" 2>"$work/err" || echo $? >"$work/status2"
wait
[ "$(cat "$work/status1" "$work/status2")" = "$(printf '1\n1')" ] || fail "not both ended with 1"
prints "$work/sample"
same "$work/out1" "$work/sample"
cat "$work/err1" >>"$work/err"
tells_lines 1 'another build is under way'
called 1

# a clone that can't be written: told in one line; where all is built, it needn't be
if [ -n "$other" ]; then
	try 1 as_other "$audit"
	prints "$work/sample"
	afresh
	[ "$other" = nobody ] || chmod a-w "$clone"
	try 2 as_other "$audit"
	tells "this clone can't be written"
	tells_lines 1
	[ "$other" = nobody ] || chmod u+w "$clone"
	nothing_about
else
	not_run="$not_run; a clone that can't be written (no other user can be had)"
fi

# with rt itself, which takes what it proved of the same crates in this checkout
if [ "$part" = all ]; then
	afresh
	rm -rf "$clone/crates" "$clone/tools" "$clone/crates.txt"
	copied crates crates.txt tools
	try 1 env PATH="$own_path" "$audit"
	prints "$work/sample"
	tells ' 0 left'
fi
