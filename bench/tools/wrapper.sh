# The wrapper: elsewhere than on x86-64 the command starts the emulator. On x86-64 a stand-in says it is another machine.
# shellcheck shell=sh
# shellcheck disable=SC2034,SC2154

# try_wrapper: command and install as they are made for another machine
try_wrapper() {
	try 0 "$clone/tools/build"
	[ "$(head -c 2 "$clone/target/c/pajurenda")" = '#!' ] || fail "the command is no wrapper"
	cmp -s "$clone/target/c/lib/pajurenda" "$clone/target/c/pajurenda" && fail "wrapper and program are one"
	try 0 "$install" "$work/elsewhere"
	try 1 "$clone/tools/audit"
	prints "$work/sample"
	tells_lines 0
	unheard "$clone/tools/audit"
	ln -s "$work/elsewhere/bin/pajurenda" "$work/link"
	ln -s link "$work/link-again"
	for command in "$clone/target/c/pajurenda" "$work/elsewhere/bin/pajurenda" "$work/link-again"; do
		(cd / && try 1 "$command" audit "$sample/data/vendor.bin" "$sample/data/shipped.bin" && prints "$work/sample")
		try 0 "$command" audit "$explained/data/vendor.bin" "$explained/data/shipped.bin"
		try 2 "$command" audit "$refused/data/vendor.bin" "$refused/data/shipped.bin"
		try 2 env PAJURENDA_EMULATOR="$work/none" "$command" read "$sample/data/vendor.bin"
		tells "the emulator for x86-64 programs is missing: $work/none"
		tells_lines 1
	done
	try 1 env QEMU_STRACE=1 "$clone/tools/audit"
	prints "$work/sample"
	keeps_quiet_of write
	try 0 "$install" --remove "$work/elsewhere"
	lacks "$work/elsewhere"
}

afresh
unset TRY_COMPILING
if [ "$(uname -m)" != x86_64 ]; then
	try_wrapper
elif printf 'int main(void) { return 0; }\n' >"$work/probe.c" && "$TRY_CC" -static "$work/probe.c" -o "$work/probe" 2>/dev/null; then
	qemu=$(command -v qemu-x86_64 || :)
	printf '#!/bin/sh\necho run >>"%s"\nexec %s "$@"\n' "$work/emulated" "$qemu" >"$work/emulator"
	chmod 755 "$work/emulator"
	export PAJURENDA_MACHINE=aarch64
	try 0 env PAJURENDA_EMULATOR="$work/emulator" "$clone/tools/build"
	rm -f "$work/emulated"
	try 1 "$clone/tools/audit"
	has "$work/emulated"
	export PAJURENDA_EMULATOR="$work/emulator"
	try_wrapper
	afresh
	try 2 env PAJURENDA_EMULATOR="$work/none" "$clone/tools/audit"
	tells 'the emulator for x86-64 programs is missing'
	unset PAJURENDA_MACHINE PAJURENDA_EMULATOR
	[ -n "$qemu" ] || not_run="$not_run; the wrapper over a real emulator (no qemu-x86_64), it was tried over one that runs the program as it is"
else
	not_run="$not_run; the wrapper (no program can be linked with -static)"
fi
nothing_about
