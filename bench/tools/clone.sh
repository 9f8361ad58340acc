# A copy of the clone with nothing built in it, a stand-in for rt that hands out what the clone has, and one for the compiler.
# shellcheck shell=sh
# shellcheck disable=SC2034,SC2154

clone=$work/clone
sample=$clone/crates/run_sample
explained=$clone/crates/run_explained
refused=$clone/crates/run_refused
short=$clone/crates/run_short
mkdir "$clone" "$work/stand-in" "$work/compilers" "$work/tmp"
chmod 1777 "$work/tmp"
# copied NAME..: into the clone, but what rt made in crates/*/out
copied() { (cd "$root" && tar -c --exclude='crates/*/out' "$@") | tar -x -C "$clone"; }
copied crates crates.txt command include example tools
# what rt makes of the C crate
cp "$root/target/staticlib/libpajurenda.a" "$work/archive"
c_crate=$(sed -n 's/^crate=//p' "$root/tools/common")
export TMPDIR="$work/tmp" TRY="$work"

# what the stand-in is to do: prove (nothing), hang, be stubborn, fail, or be slow. It says what rt says, in a crate's folder
cat >"$work/stand-in/rt" <<'END'
#!/bin/sh
case $1 in
version | doc) exec "$TRY_RT" "$@" ;;
esac
echo "$*" >>"$TRY/calls"
name=$(basename "$PWD")
[ -d src ] || { echo "rt: no crate in $PWD"; exit 2; }
case ${TRY_HOW-} in
fails) echo 'fn facts::f: not proved'; exit 1 ;;
slow) sleep 1 ;;
stubborn) trap '' TERM ;;
esac
# proved CRATE..
proved() {
	for crate in "$@"; do
		printf 'fn %s::f: proved\ncrate %s: modules loaded=0 checked=1\nlogic=proved functions=1\n' "$crate" "$crate"
	done
}
case $1:${TRY_HOW-} in
*:hangs | *:stubborn)
	[ "$TRY_HOW" = stubborn ] || trap 'echo told >"$TRY/told"; exit 143' TERM
	proved facts
	mktemp >/dev/null
	sleep 60 &
	echo "$$ $!" >"$TRY/pids"
	wait
	;;
lib:*)
	# the order of tools/common, which has the wanted crate last
	root=../..
	eval "$(sed -n '/^stands_on() {/,/^}/p' ../../tools/common)"
	proved $(stands_on "$name")
	mkdir -p out
	cp "$TRY/archive" "out/lib$name.a"
	;;
run:*)
	proved "$name"
	mkdir -p out
	cp "$TRY/program" "out/$name"
	;;
esac
END
chmod 755 "$work/stand-in/rt"
export TRY_RT="$rt"

# the compiler itself, or one that hands out the clone's command, or makes half of one and then waits
if [ "$(uname -m)" = x86_64 ]; then TRY_CC=${CC:-cc}; else TRY_CC=x86_64-linux-gnu-gcc; fi
TRY_CC=$(command -v "$TRY_CC")
export TRY_CC
unset CC
cat >"$work/compilers/cc" <<'END'
#!/bin/sh
last=
for word in "$@"; do
	[ "$last" != -o ] || out=$word
	last=$word
done
case ${TRY_COMPILING-}:$* in
quickly:*command/*) exec cp "$TRY/command" "$out" ;;
hangs:*command/*)
	echo half >"$out"
	sleep 60 &
	echo "$$ $!" >"$TRY/pids"
	wait
	;;
*) exec "$TRY_CC" "$@" ;;
esac
END
chmod 755 "$work/compilers/cc"
ln -s cc "$work/compilers/x86_64-linux-gnu-gcc"
if [ -f "$root/target/c/lib/pajurenda" ]; then cp "$root/target/c/lib/pajurenda" "$work/command"; else cp "$root/target/c/pajurenda" "$work/command"; fi
tried_path=$work/stand-in:$work/compilers:$own_path
PATH=$tried_path

# afresh: nothing is built, nothing was called, nothing lies about
afresh() {
	rm -rf "$clone/target" "$clone"/crates/*/out "$work/calls" "$work/pids" "$work/told"
	nothing_about
}

# nothing_about: no temporary file of a tool is left
nothing_about() {
	left=$(find "$work/tmp" -mindepth 1)
	[ -z "$left" ] || fail "left behind: $left"
	passed
}

# called TIMES: so often was the prover asked for the C crate
called() {
	times=0
	[ ! -f "$work/calls" ] || times=$(wc -l <"$work/calls")
	[ "$times" -eq "$1" ] || fail "the prover was called $times times, not $1"
	passed
}
