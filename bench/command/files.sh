# shellcheck shell=sh disable=SC2034,SC2154,SC2162,SC2164
# Files that can't be had, and outputs that can't be.

try_missing() {
	for name in "$work/missing:No such file or directory" "$work/o:Is a directory" "$vendor/below:Not a directory" \
		":No such file or directory"; do
		file=${name%:*}
		reason="pajurenda: $file: ${name##*:}"
		fails_with "$reason" read "$file"
		fails_with "$reason" setting "$file" 40 2
		fails_with "$reason" audit "$file" "$shipped"
		fails_with "$reason" audit "$vendor" "$file"
		keeps "$o" fails_with "$reason" release "$all" --owner=1 "$file" "$work/nothing" 0x0 "$o/out"
		keeps "$o" fails_with "$reason" release "$all" --owner=1 "$file" "$work/sheet" keep "$o/out"
		keeps "$o" fails_with "$reason" release "$all" --owner=1 "$vendor" "$file" keep "$o/out"
		keeps "$o" fails_with "$reason" sheet empty "$file" "$o/out"
		keeps "$o" fails_with "$reason" sheet make "$file" "$work/old" "$o/out"
		keeps "$o" fails_with "$reason" sheet make "$vendor" "$file" "$o/out"
		fails_with "$reason" sheet show "$file"
		fails_with "$reason" sheet show "$file" "$vendor"
		fails_with "$reason" sheet show "$work/sheet" "$file"
	done
}

try_wrong_out() {
	mkdir "$o/folder"
	ln -s nowhere "$o/dangling"
	mkfifo "$o/pipe"
	keeps "$o" errs 'Is a directory' release "$all" --owner=1 "$vendor" "$work/nothing" 0x0 "$o/folder"
	keeps "$o" errs 'No such file' release "$all" --owner=1 "$vendor" "$work/nothing" 0x0 "$o/missing/out"
	keeps "$o" errs 'No such file' release "$all" --owner=1 "$vendor" "$work/nothing" 0x0 "$o/dangling"
	(cd "$o" && keeps "$o" errs 'No such file' release "$all" --owner=1 "$vendor" "$work/nothing" 0x0 '')
	keeps "$o" errs 'Not a directory' release "$all" --owner=1 "$vendor" "$work/nothing" 0x0 "$o/out/below"
	keeps "$o" errs 'Not a regular file' release "$all" --owner=1 "$vendor" "$work/nothing" 0x0 "$o/pipe"
	keeps "$o" errs 'Not a regular file' release "$all" --owner=1 "$vendor" "$work/sheet" keep /dev/null
	[ -c /dev/null ] || fail "/dev/null is no device any more"
	rm -r "$o/folder" "$o/dangling" "$o/pipe"
}

cp "$work/old" "$o/out"
try_missing
try_wrong_out
