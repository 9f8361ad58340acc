# No compiler: the document's own program audits, and says so.
# shellcheck shell=sh
# shellcheck disable=SC2034,SC2154

# every command of the PATH by its name, but compilers and what could install one
mkdir "$work/no-cc"
(
	IFS=:
	for folder in $own_path; do
		[ ! -d "$folder" ] || find "$folder/" -maxdepth 1 ! -type d ! -name rt -exec ln -sf -t "$work/no-cc" {} + 2>/dev/null || :
	done
)
(cd "$work/no-cc" && rm -f cc gcc gcc-* clang clang-* ./*-gcc ./*-gcc-* ./*-cc c99 c99-gcc c89 c89-gcc tcc apt-get)
made=$root/crates/run_sample/out/run_sample
[ -f "$made" ] || (cd "$root/crates/run_sample" && "$rt" run) >"$work/out" 2>&1 || { what='rt run in crates/run_sample'; fail "not proved"; }
cp "$made" "$work/program"
afresh
PATH=$work/stand-in:$work/no-cc
audit=$clone/tools/audit

# the four pairs of the gate, with the statuses of the command; the program has no room for the last
for pair in sample:1 explained:0 refused:2 short:2; do
	data=$clone/crates/run_${pair%:*}
	try "${pair#*:}" "$audit" "$data/data/vendor.bin" "$data/data/shipped.bin"
	prints "$data/stdout"
	tells_lines 1 'no x86-64 C compiler can be had here'
	tells '28,672 bytes'
	tells '256 differences'
	nothing_about
done
try 2 "$audit" "$work/half" "$work/half"
[ "$(cat "$work/out")" = 'refused 1' ] || fail "a long file is not refused with 1"
try 2 "$audit" "$sample/data/vendor.bin" "$work/half"
[ "$(cat "$work/out")" = 'refused 19' ] || fail "a long shipped file is not refused with 19"
try 2 "$audit" --bytes
tells 'no option can be followed'
unheard "$audit"
lacks "$clone/target/c/pajurenda"
try 2 "$clone/tools/build"
tells 'no x86-64 C compiler can be had here'
mkdir "$work/empty"
keeps "$work/empty" try 2 "$clone/tools/install" "$work/empty/p"
nothing_about
PATH=$tried_path

# no kit: nothing can be built, and that is told
afresh
try 2 env PATH="$work/no-cc" "$audit"
tells 'rt, the Rattle kit'
