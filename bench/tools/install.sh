# Installs: the files, a program over them, removal, and installs that fail or are killed half-way.
# shellcheck shell=sh
# shellcheck disable=SC2034,SC2154

install=$clone/tools/install
put='bin/pajurenda include/pajurenda.h lib/libpajurenda.a lib/pkgconfig/pajurenda.pc share/bash-completion/completions/pajurenda share/man/man1/pajurenda.1'
try 0 "$clone/tools/build"

# all_put PREFIX: these files, with the clone's bytes
all_put() {
	for file in $put; do has "$1/$file"; done
	same "$1/include/pajurenda.h" "$clone/include/pajurenda.h"
	same "$1/lib/libpajurenda.a" "$work/archive"
	same "$1/share/man/man1/pajurenda.1" "$clone/command/pajurenda.1"
	same "$1/share/bash-completion/completions/pajurenda" "$clone/command/pajurenda.bash"
	lacks "$1/.pajurenda"*
	try 1 "$1/bin/pajurenda" audit "$sample/data/vendor.bin" "$sample/data/shipped.bin"
	prints "$work/sample"
}

# into folders that are not there, twice, and away again: not even the folders stay
mkdir "$work/p"
try 0 "$install" "$work/p/new one/deep"
all_put "$work/p/new one/deep"
try 0 "$install" "$work/p/new one/deep/"
all_put "$work/p/new one/deep"
(cd "$work/p" && try 0 "$install" --remove 'new one/deep')
lacks "$work/p/new one"
try 2 "$install" --remove "$work/p"
tells 'nothing of pajurenda is under'

# among other files, and an empty folder that was there before
mkdir "$work/p/bin" "$work/p/share"
echo other >"$work/p/bin/other"
picture "$work/p" >"$work/others"
try 0 "$install" "$work/p"
all_put "$work/p"
[ "$(find "$work/p/bin/pajurenda" -perm 755)" ] || fail "the command has another mode"

# a C program by the pkg-config file
if command -v pkg-config >/dev/null; then
	what='a program by the pkg-config file'
	program_link=
	program_emulator=
	if [ "$(uname -m)" != x86_64 ]; then
		program_link=-static
		program_emulator=$(command -v qemu-x86_64)
	fi
	words=$(PKG_CONFIG_PATH=$work/p/lib/pkgconfig pkg-config --cflags --libs pajurenda)
	version=$(PKG_CONFIG_PATH=$work/p/lib/pkgconfig pkg-config --modversion pajurenda)
	grep -q "^#define PAJURENDA_VERSION \"$version\"$" "$clone/include/pajurenda.h" || fail "another version: $version"
	# shellcheck disable=SC2086
	"$TRY_CC" $program_link "$clone/example/audit-two.c" $words -o "$work/two" 2>"$work/err" || fail "not compiled"
	try 1 ${program_emulator:+"$program_emulator"} "$work/two" "$sample/data/vendor.bin" "$sample/data/shipped.bin"
	what='a program by the pkg-config file, a blank in the prefix'
	try 0 "$install" "$work/p/new one"
	words=$(PKG_CONFIG_PATH="$work/p/new one/lib/pkgconfig" pkg-config --cflags --libs pajurenda)
	eval "\"\$TRY_CC\" $program_link \"\$clone/example/audit-two.c\" $words -o \"\$work/two\"" 2>"$work/err" || fail "not compiled: $words"
	try 1 ${program_emulator:+"$program_emulator"} "$work/two" "$sample/data/vendor.bin" "$sample/data/shipped.bin"
	try 0 "$install" --remove "$work/p/new one"
else
	not_run="$not_run; a program by the pkg-config file (no pkg-config)"
fi

# one that fails at any of its steps leaves what stood there, an older install or none
mkdir "$work/failing"
cat >"$work/failing/mv" <<'END'
#!/bin/sh
count=$(($(cat "$TRY/count") + 1))
echo "$count" >"$TRY/count"
if [ "$count" -eq "$TRY_AT" ]; then
	[ -z "${TRY_HANG-}" ] || { sleep 60 & echo "$!" >"$TRY/pids"; wait; }
	echo 'mv: cannot move' >&2
	exit 1
fi
exec "$TRY_MV" "$@"
END
chmod 755 "$work/failing/mv"
TRY_MV=$(command -v mv)
export TRY_MV
fails_at() {
	echo 0 >"$work/count"
	try 2 env TRY_AT="$1" PATH="$work/failing:$PATH" "$install" "$work/p"
	tells 'nothing was installed'
}
for at in 1 3 6; do
	echo 'an older header' >"$work/p/include/pajurenda.h"
	keeps "$work/p" fails_at "$at"
done
try 0 "$install" --remove "$work/p"
picture "$work/p" >"$work/after"
same "$work/after" "$work/others"
for at in 1 6; do keeps "$work/p" fails_at "$at"; done
if env --default-signal=INT true 2>/dev/null; then
	echo 0 >"$work/count"
	what='tools/install, TERM half-way'
	begun TRY_HANG=yes TRY_AT=4 PATH="$work/failing:$PATH" "$install" "$work/p"
	kill "$begun"
	# the tool waits for mv, and acts when that has ended
	kill "$(cat "$work/pids")"
	got=0
	wait "$begun" 2>/dev/null || got=$?
	status_was 143
	picture "$work/p" >"$work/after"
	same "$work/after" "$work/others"
fi

# where a folder stands in a file's place, and where a file stands in a folder's
mkdir -p "$work/p/share/man/man1/pajurenda.1"
keeps "$work/p" try 2 "$install" "$work/p"
rm -r "$work/p/share/man"
echo >"$work/p/lib"
keeps "$work/p" try 2 "$install" "$work/p"
keeps "$work/p" try 2 "$install" "$work/p/lib/below"
if [ -n "$other" ]; then
	chmod a-w "$work/p"
	keeps "$work/p" try 2 as_other "$install" "$work/p"
	keeps "$work/p" try 2 as_other "$install" "$work/p/new"
	chmod u+w "$work/p"
fi
nothing_about
