# shellcheck shell=sh disable=SC2034,SC2154,SC2162,SC2164
# Owner lists: what is typed for them, who has what, as text and as bytes, and each rule of a list at its edges.

rule_owners='an owner list must have at most 64 ranges of 8 bytes by ascending offset, none empty, none into the next, all in offsets 32 to z-1; '\
'each owner, and who asks, must be 1 or 2'
z_400="the region's size z is 0x0190"
see_release='(see pajurenda release --help)'

# list OCTAL: the file l
# shellcheck disable=SC2059
list() { printf -- "$1" >l; }

# put_ranges FILE OFFSET LENGTH OWNER..: their bytes
put_ranges() {
	into=$1
	shift
	: >"$into"
	while [ $# -gt 0 ]; do
		# shellcheck disable=SC2059
		printf "$(printf '\\%03o' $(($1 % 256)) $(($1 / 256 % 256)) $(($1 / 65536 % 256)) $(($1 / 16777216)) $(($2 % 256)) $(($2 / 256)) \
			$(($3 % 256)) $(($3 / 256)))" >>"$into"
		shift 3
	done
}

# put_lines FILE OFFSET LENGTH OWNER..: their text
put_lines() {
	into=$1
	shift
	: >"$into"
	while [ $# -gt 0 ]; do
		echo "$1 $2 $3" >>"$into"
		shift 3
	done
}

# ---- what is typed ----

try_owner_missing() {
	tail=' missing, so nothing is released: LIST says whose each setting is, N is 1 or 2, who releases; owners all IMAGE LIST writes the LIST that '\
"gives every setting to owner 1 $see_release"
	keeps "$o" fails_with "pajurenda: release: --owners LIST and --owner N are$tail" release v good keep "$o/out"
	keeps "$o" fails_with "pajurenda: release: --owners LIST and --owner N are$tail" release missing missing nonsense "$o/out"
	keeps "$o" fails_with "pajurenda: release: --owner N is$tail" release --owners "$work/all" v good keep "$o/out"
	keeps "$o" fails_with "pajurenda: release: --owners LIST is$tail" release --owner 1 v good keep "$o/out"
	for words in '--owners' '--owners --' '--owners --owner 1' '--owners --help' 'v good keep o --owners' '--owner 1 --owners'; do
		# shellcheck disable=SC2086
		fails_with "pajurenda: release: --owners has no LIST after it $see_release" release $words
	done
	for words in '--owner' '--owner --owners l' '--owner -1' '--owner --' '--owners l --owner'; do
		# shellcheck disable=SC2086
		fails_with "pajurenda: release: --owner has no N after it $see_release" release $words
	done
	fails_with "pajurenda: --owners has no LIST after it $see" --owners
	keeps "$o" fails_with "pajurenda: release: --owners is given twice $see_release" release "$all" "$all" --owner 1 v good keep "$o/out"
	keeps "$o" fails_with "pajurenda: release: --owner is given twice $see_release" release "$all" --owner=1 --owner 1 v good keep "$o/out"
	keeps "$o" fails_with "pajurenda: release: unknown option --ownerss=l $see_release" release --ownerss=l --owner=1 v good keep "$o/out"
	keeps "$o" fails_with "pajurenda: release: unknown option --own $see_release" release --own l --owner=1 v good keep "$o/out"
	fails_with "pajurenda: unknown option --help=1 $see" --help=1
}

# no other command takes them
try_owner_elsewhere() {
	for command_of in read audit setting handoff 'sheet show' 'owners show' 'owners all'; do
		# shellcheck disable=SC2086
		fails_with "pajurenda: $command_of: takes no option --owners (see pajurenda $command_of --help)" $command_of --owners l v
		# shellcheck disable=SC2086
		fails_with "pajurenda: $command_of: takes no option --owner (see pajurenda $command_of --help)" $command_of --owner=1 v
	done
	see_owners='(see pajurenda owners --help)'
	fails_with "pajurenda: owners: all or show is missing $see_owners" owners
	fails_with "pajurenda: owners: \"make\" is neither all nor show $see_owners" owners make a b
	fails_with "pajurenda: unknown command \"owner\" $see" owner show a b
	fails_with 'pajurenda: owners all: OUT is missing (see pajurenda owners all --help)' owners all a
	fails_with 'pajurenda: owners show: IMAGE is missing (see pajurenda owners show --help)' owners show a
	fails_with 'pajurenda: owners show: one word too many: "c" (see pajurenda owners show --help)' owners show a b c
	for words in 'owners show --help' 'help owners all' 'owners help' 'owners nonsense -h' 'release --owners l --help'; do
		case $words in release*) name=release ;; *) name=owners ;; esac
		# shellcheck disable=SC2086
		help_is "$name" $words
	done
}

# released_by WORDS..: such a release sets what the sample's sheet has
released_by() {
	rm -f "$o/by"
	works 0 "$@"
	prints 'base 0xFFF80000' 'move 0' 'entries 1' 'set 0x0028 at 4136: 01 05 -> 01 00, 0x0501 -> 0x0001'
	same "$o/by" "$work/set_v"
}

try_owner_places() {
	poked v "$work/set_v" 4136 '\001\000'
	cp "$work/all" l
	released_by release --owners l --owner 1 v good keep "$o/by"
	released_by release --owners=l --owner=0x1 v good keep "$o/by"
	released_by --owners l release --owner 1 v good keep "$o/by"
	released_by release v --owner 1 good keep --owners l "$o/by"
	released_by release v good keep "$o/by" --owner=1 --owners=l
	released_by release --owners l --owner 1 -- v good keep "$o/by"
	for name in --owner --bytes = a=b; do
		cp l "./$name"
		released_by release "--owners=$name" --owner 1 v good keep "$o/by"
		released_by release --owners "./$name" --owner 1 v good keep "$o/by"
		rm "./$name"
	done
	cp l ./-
	released_by release --owners ./- --owner 1 v good keep "$o/by"
	rm ./-
	what='release --owners /dev/stdin, a pipe'
	got=0
	printf '40 2 2' | run release --owners /dev/stdin --owner 2 v good keep "$o/by" >"$work/out" 2>"$work/err" || got=$?
	status_was 0
	same "$o/by" "$work/set_v"
}

# a caller is a number of 64 bits, of which none is cut off; who is no owner is told only where the list has no fault
try_owner_numbers() {
	for number in 01 1x 0X1 '' 1.0 one '1 '; do
		keeps "$o" errs "pajurenda: release: --owner \"$number\" " release "$all" "--owner=$number" v good keep "$o/out"
	done
	keeps "$o" fails_with 'pajurenda: release: --owner "01" starts with 0: write 0x01 for hex or 1 for decimal' \
		release "$all" --owner 01 v good keep "$o/out"
	keeps "$o" fails_with 'pajurenda: release: --owner "18446744073709551616" does not fit 64 bits' \
		release "$all" --owner 18446744073709551616 v good keep "$o/out"
	cp "$work/all" l
	for number in 0 3 4 256 257 258 65537 65538 4294967297 4294967298 9223372036854775809 18446744073709551615; do
		keeps "$o" refuses 23 l "$rule_owners: the list is fine, --owner is $number" release --owners l --owner "$number" v good keep "$o/out"
	done
	keeps "$o" values 23 l 'the list is fine, --owner is 3' release --owners l --owner 0x3 v "$work/nothing" keep "$o/out"
	: >l
	keeps "$o" values 23 l 'the list is fine, --owner is 0' release --owners l --owner 0 v "$work/nothing" keep "$o/out"
	list '32 8 1\n40 8 3'
	keeps "$o" values 23 l "line 2: offset 0x0028 (the one before ends at 0x0028) length 8 owner 3, ranges so far 2, $z_400" \
		release --owners l --owner 3 v good keep "$o/out"
}

# ---- all ----

# a region of SIZE bytes from 4096 on: the file n
sized() { changed v n 140 $(($1 % 256)) 141 $(($1 / 256)) 142 $(($1 / 65536)); }

try_owners_all() {
	works 0 owners all v "$o/list"
	prints 'region c 4096 z 400' 'ranges 1, bytes of owner 1: 368, of owner 2: 0, of nobody: 0'
	lines '# Whose the settings are. A line has a range of the configuration region: its offset,' \
		'# its length, its owner (1 or 2); by ascending offset, within offsets 0x0020 to 0x018F.' \
		"# A byte in no range is nobody's: no release sets it." '0x0020 368 1'
	same "$o/list" "$work/wanted"
	released_by release --owners "$o/list" --owner 1 v good keep "$o/by"
	works 0 owners show "$o/list" v
	prints '# region c 4096 z 400' '0x0020 368 1 # at 4128..4495' '# ranges 1, bytes of owner 1: 368, of owner 2: 0, of nobody: 0'
	sed 's/1$/2/' "$o/list" >l
	released_by release --owners l --owner 2 v good keep "$o/by"
	sized 33
	works 0 owners all n "$o/list"
	prints 'region c 4096 z 33' 'ranges 1, bytes of owner 1: 1, of owner 2: 0, of nobody: 0'
	[ "$(sed -n 2p "$o/list"; tail -n 1 "$o/list")" = '# its length, its owner (1 or 2); by ascending offset, within offsets 0x0020 to 0x0020.
0x0020 1 1' ] || fail "another text for one setting"
	works 0 owners all "$work/wide" "$o/list"
	prints 'region c 8192 z 65536' 'ranges 1, bytes of owner 1: 65504, of owner 2: 0, of nobody: 0'
	[ "$(tail -n 1 "$o/list")" = '0x0020 65504 1' ] || fail "another range for the widest region"
	works 0 owners show "$o/list" "$work/wide"
}

# a region without settings has the list without ranges, which is still a list
try_owners_none() {
	sized 32
	works 0 owners all n "$o/list"
	prints 'region c 4096 z 32' 'ranges 0, bytes of owner 1: 0, of owner 2: 0, of nobody: 0'
	[ "$(grep -vc '^#' "$o/list")" -eq 0 ] || fail "a range where there is no setting"
	works 0 owners show "$o/list" n
	prints '# region c 4096 z 32' '# ranges 0, bytes of owner 1: 0, of owner 2: 0, of nobody: 0'
	works 0 release --owners "$o/list" --owner 2 n "$work/nothing" 0x00100000 "$o/by"
	works 0 release --owners "$work/empty" --owner 1 n "$work/nothing" 0x00100000 "$o/by"
	list '32 1 1'
	values 23 l "line 1: offset 0x0020 length 1 owner 1, ranges so far 1, the region's size z is 0x0020" owners show l n
	rm "$o/list" "$o/by"
}

try_owners_files() {
	cp "$work/old" "$o/out"
	ln -s v by_link
	lost 'owners all' IMAGE owners all v v
	lost 'owners all' IMAGE owners all v by_link
	cp "$work/all" l
	ln l by_name
	lost release LIST release --owners l --owner 1 v good keep l
	lost release LIST release --owners l --owner 1 v good keep by_name
	lost release LIST release --owners=good --owner 1 v v keep "$i/good"
	rm by_link by_name
	for file in "missing:No such file or directory" "$o:Is a directory" "v/below:Not a directory"; do
		reason="pajurenda: ${file%:*}: ${file##*:}"
		keeps "$o" fails_with "$reason" release --owners "${file%:*}" --owner 1 v good keep "$o/out"
		fails_with "$reason" owners show "${file%:*}" v
		fails_with "$reason" owners show l "${file%:*}"
		keeps "$o" fails_with "$reason" owners all "${file%:*}" "$o/out"
	done
	keeps "$o" fails_with "pajurenda: : No such file or directory" release --owners= --owner 1 v good keep "$o/out"
	keeps "$o" errs 'No such file' owners all v "$o/missing/out"
	keeps "$o" errs 'Is a directory' owners all v "$o"
	keeps "$o" errs 'Not a regular file' owners all v /dev/null
	keeps "$o" values 14 r "$entry_of_r" owners all r "$o/out"
	values 14 r "$entry_of_r" owners show l r
	values 1 "$work/empty" 'the file has 0 bytes' owners show l "$work/empty"
}

# ---- show ----

# shows LINE..: the list l beside the vendor's image is these, region first and counts last; they are a list that shows the same
shows() {
	works 0 owners show l v
	prints '# region c 4096 z 400' "$@"
	cp "$work/out" l
	works 0 owners show l v
	same "$work/out" l
}

try_owners_show() {
	list '40 2 2'
	shows '# 0x0020 8 nobody at 4128..4135' '0x0028 2 2 # at 4136..4137' '# 0x002A 358 nobody at 4138..4495' \
		'# ranges 1, bytes of owner 1: 0, of owner 2: 2, of nobody: 366'
	list '32 8 1\n40 2 2\n42 2 2\n45 1 1\n399 1 2'
	shows '0x0020 8 1 # at 4128..4135' '0x0028 2 2 # at 4136..4137' '0x002A 2 2 # at 4138..4139' '# 0x002C 1 nobody at 4140..4140' '0x002D 1 1 # at 4141..4141' \
		'# 0x002E 353 nobody at 4142..4494' '0x018F 1 2 # at 4495..4495' '# ranges 5, bytes of owner 1: 9, of owner 2: 5, of nobody: 354'
	: >l
	shows '# 0x0020 368 nobody at 4128..4495' '# ranges 0, bytes of owner 1: 0, of owner 2: 0, of nobody: 368'
	sed -n 's/^    \([^ ]\)/\1/p' "$work/help.owners" >l
	example='0x0020 8 1 # at 4128..4135'
	shows "$example" '0x0028 2 2 # at 4136..4137' '# 0x002A 54 nobody at 4138..4191' '0x0060 16 2 # at 4192..4207' '# 0x0070 288 nobody at 4208..4495' \
		'# ranges 3, bytes of owner 1: 8, of owner 2: 18, of nobody: 342'
	cp l "$work/example"
	sed -n '/^.SH OWNER LISTS/,/^.fi/p' "$root/command/pajurenda.1" | grep -v '^[.]' >l
	works 0 owners show l v
	same "$work/out" "$work/example"
}

# the same list in every form that a text may have, and as bytes
try_owner_forms() {
	for text in '40 2 2' '40 2 2\n' '0x28 0x2 0x2' '  40	2	 2  ' '40 2 2# set' '# 32 8 1\n\n \n\t\n40 2 2 # 1' '40 2 2\r\n\r\n' '\357\273\27740 2 2' \
		'40 0x0002 0x0002' '# \303\266\n40 2 2' '#\n#\n40 2 2\n#'; do
		list "$text"
		works 0 owners show l v
		[ "$(grep -v '^#' "$work/out")" = '0x0028 2 2 # at 4136..4137' ] || fail "another list of $text"
		released_by release --owners l --owner 2 v good keep "$o/by"
	done
	put_ranges l 40 2 2
	[ "$(wc -c <l)" -eq 8 ] || fail "not a range of 8 bytes"
	released_by release --owners l --owner 2 v good keep "$o/by"
	shows '# 0x0020 8 nobody at 4128..4135' '0x0028 2 2 # at 4136..4137' '# 0x002A 358 nobody at 4138..4495' \
		'# ranges 1, bytes of owner 1: 0, of owner 2: 2, of nobody: 366'
}

# ---- the rules of a list ----

# taken OFFSET LENGTH OWNER..: as text and as bytes, with the same lines shown
taken() {
	put_lines l "$@"
	works 0 owners show l v
	cp "$work/out" "$work/of_text"
	put_ranges l "$@"
	works 0 owners show l v
	same "$work/out" "$work/of_text"
	[ "$(grep -c -v '^#' "$work/out")" -eq $(($# / 3)) ] || fail "another count of ranges"
}

# not_taken INDEX VALUES OFFSET LENGTH OWNER..: 23 names that range, by its line or its index; a release too, and nothing is written
not_taken() {
	index=$1
	values_of="$2, ranges so far $((index + 1)), $z_400"
	shift 2
	put_lines l "$@"
	refuses 23 l "$rule_owners: line $((index + 1)): $values_of" owners show l v
	keeps "$o" values 23 l "line $((index + 1)): $values_of" release --owners l --owner 2 v "$work/nothing" keep "$o/out"
	put_ranges l "$@"
	values_of="taken as bytes (it has a 0), $(wc -c <l) bytes: range $index (counted from 0): $values_of"
	values 23 l "$values_of" owners show l v
	keeps "$o" values 23 l "$values_of" release --owners l --owner 1 v good keep "$o/out"
}

try_owner_edges() {
	cp "$work/old" "$o/out"
	taken 32 1 1
	not_taken 0 'offset 0x001F length 1 owner 1' 31 1 1
	not_taken 0 'offset 0x001F length 2 owner 1' 31 2 1
	not_taken 0 'offset 0x0000 length 400 owner 2' 0 400 2
	taken 399 1 2
	taken 32 368 2
	not_taken 0 'offset 0x018F length 2 owner 2' 399 2 2
	not_taken 0 'offset 0x0020 length 369 owner 1' 32 369 1
	not_taken 0 'offset 0x0190 length 1 owner 1' 400 1 1
	not_taken 0 'offset 0xFFFFFFFF length 2 owner 1' 4294967295 2 1
	not_taken 0 'offset 0xFFFFFFE0 length 65 owner 1' 4294967264 65 1
	not_taken 0 'offset 0x10020 length 1 owner 1' 65568 1 1
	not_taken 0 'offset 0x0028 length 0 owner 1' 40 0 1
	not_taken 1 'offset 0x002A (the one before ends at 0x002A) length 0 owner 2' 40 2 1 42 0 2 42 2 2
	not_taken 1 'offset 0x0190 (the one before ends at 0x0190) length 0 owner 1' 398 2 1 400 0 1
	for owner in 0 3 255 256 257 258 512 65535; do
		not_taken 1 "offset 0x002A (the one before ends at 0x002A) length 2 owner $owner" 40 2 2 42 2 "$owner"
	done
}

try_owner_order() {
	taken 40 2 1 42 2 1
	taken 40 2 1 42 2 2
	taken 40 2 2 42 2 1 44 2 2
	not_taken 1 'offset 0x0029 (the one before ends at 0x002A) length 2 owner 2' 40 2 1 41 2 2
	not_taken 1 'offset 0x0029 (the one before ends at 0x002A) length 1 owner 1' 40 2 1 41 1 1
	not_taken 1 'offset 0x0028 (the one before ends at 0x002A) length 2 owner 1' 40 2 1 40 2 1 50 2 1
	not_taken 1 'offset 0x0020 (the one before ends at 0x002A) length 8 owner 2' 40 2 1 32 8 2
	not_taken 2 'offset 0x0028 (the one before ends at 0x0034) length 2 owner 2' 40 2 1 50 2 2 40 2 2
	not_taken 2 'offset 0x0031 (the one before ends at 0x0032) length 1 owner 1' 40 2 2 42 8 1 49 1 1 31 1 1
}

# so many ranges of a byte, side by side or apart, of either owner in turn
many() { awk -v count="$1" -v step="$2" 'BEGIN { for (k = 0; k < count; k++) printf "%d 1 %d ", 32 + step * k, 1 + k % 2 }'; }

try_owner_counts() {
	for step in 1 2 5; do
		for count in 1 2 63 64; do
			# shellcheck disable=SC2046
			taken $(many "$count" "$step")
		done
		for count in 65 66 73; do
			at=$((32 + 64 * step))
			# shellcheck disable=SC2046
			not_taken 64 "offset $(printf '0x%04X' "$at") (the one before ends at $(printf '0x%04X' $((at - step + 1)))) length 1 owner 1" $(many "$count" "$step")
		done
	done
	# shellcheck disable=SC2046
	put_lines l $(many 5000 1)
	values 23 l "line 65: offset 0x0060 (the one before ends at 0x0060) length 1 owner 1, ranges so far 65, $z_400" owners show l v
}

# bytes that make no whole range; without a 0 they would be text
try_owner_rests() {
	put_ranges "$work/two" 32 8 1 40 2 2
	for over in 1 2 3 4 5 6 7; do
		{ cat "$work/two" && head -c "$over" /dev/zero; } >l
		refuses 23 l "$rule_owners: taken as bytes (it has a 0), $((16 + over)) bytes: ranges 2, bytes over $over" owners show l v
		keeps "$o" values 23 l "taken as bytes (it has a 0), $((16 + over)) bytes: ranges 2, bytes over $over" \
			release --owners l --owner 2 v good keep "$o/out"
		head -c "$over" /dev/zero >l
		values 23 l "taken as bytes (it has a 0), $over bytes: ranges 0, bytes over $over" owners show l v
	done
	head -c 8 /dev/zero >l
	values 23 l "taken as bytes (it has a 0), 8 bytes: range 0 (counted from 0): offset 0x0000 length 0 owner 0, ranges so far 1, $z_400" owners show l v
	list '40 2 2\000'
	values 23 l "taken as bytes (it has a 0), 7 bytes: ranges 0, bytes over 7" owners show l v
	values 23 /dev/zero "taken as bytes (it has a 0), more than 16777216 bytes: range 0 (counted from 0): offset 0x0000 length 0 owner 0, \
ranges so far 1, $z_400" owners show /dev/zero v
	keeps "$o" values 23 good "taken as bytes (it has a 0), 26 bytes: range 0 (counted from 0): offset 0x41455254 length 11604 owner 12592, \
ranges so far 1, $z_400" release --owners good --owner 1 v good keep "$o/out"
}

# ---- texts that are no list ----

# no_list LINE FAULT OCTAL: it can't be read as a list, by the fault of that line
no_list() {
	list "$3"
	fails_with "pajurenda: l: line $1: $2" owners show l v
	keeps "$o" fails_with "pajurenda: l: line $1: $2" release --owners l --owner 1 v good keep "$o/out"
}

try_owner_texts() {
	how='is not a number: write hex as 0x00512000, decimal without a leading 0'
	no_list 1 'length and owner are missing: write offset length owner' '40'
	no_list 2 'owner is missing: write offset length owner' '32 8 1\n40 2 # 2\n'
	no_list 3 '"1" is one word too many: write offset length owner' '#\n\n40 2 2 1'
	no_list 1 "offset \"nobody\" $how" 'nobody'
	no_list 1 "length \"2,\" $how" '40 2, 2'
	no_list 1 "owner \"board\" $how" '40 2 board'
	no_list 1 "offset \"40-41\" $how" '40-41 2'
	no_list 1 "offset \"-1\" $how" '-1 2 2'
	no_list 2 'offset "040" starts with 0: write 0x040 for hex or 40 for decimal' '32 8 1\n040 2 2'
	no_list 1 'length "01" starts with 0: write 0x01 for hex or 1 for decimal' '40 01 00'
	no_list 1 'owner "02" starts with 0: write 0x02 for hex or 2 for decimal' '40 2 02'
	no_list 1 'length "1A" has no 0x: write 0x1A for hex' '40 1A 2'
	no_list 1 'owner "0X2" has a capital X: write 0x2 for hex' '40 2 0X2'
	no_list 1 'offset "4294967296" does not fit 32 bits' '4294967296 2 2'
	no_list 1 'offset "0x100000028" does not fit 32 bits' '0x100000028 2 2'
	no_list 1 'length "65536" does not fit 16 bits' '40 65536 2'
	no_list 1 'length "0x10002" does not fit 16 bits' '40 0x10002 2'
	no_list 1 'owner "65536" does not fit 16 bits' '40 2 65536'
	no_list 1 'owner "65538" does not fit 16 bits' '40 2 65538'
	no_list 1 'owner "18446744073709551618" does not fit 16 bits' '40 2 18446744073709551618'
	no_list 1 "offset \"????????\" $how" '\377\377\377\377\377\377\377\377'
	no_list 1 'length and owner are missing: write offset length owner' '12345678'
}

# what a reader does not see may not stand in the text; a 0 makes it bytes
try_owner_hidden() {
	for byte in 001 007 010 013 014 033 177; do
		hex=$(printf '0x%02X' "$((0$byte))")
		no_list 1 "control character $hex" "\\$byte"
		no_list 2 "control character $hex" "32 8 1\\n# \\$byte\\n40 2 2"
		no_list 2 "control character $hex" "32 8 1\\n40 2 2\\$byte"
	done
	no_list 1 'control character 0x0D' '32 8 1\r40 2 2'
	no_list 1 'control character 0x0D' '32 8 1\r\r\n'
	list '4\0000\000 \0002\000 \0002\000\n\000'
	values 23 l "taken as bytes (it has a 0), 14 bytes: range 0 (counted from 0): offset 0x300034 length 32 owner 50, ranges so far 1, $z_400" \
		owners show l v
}

# long lines and many, and files without an end
try_owner_long() {
	{ printf '# ' && head -c 1000000 /dev/zero | tr '\000' x && printf '\n40 2 2'; } >l
	released_by release --owners l --owner 2 v good keep "$o/by"
	{ head -c 1000000 /dev/zero | tr '\000' '\n' && printf '40 2 3'; } >l
	keeps "$o" values 23 l "line 1000001: offset 0x0028 length 2 owner 3, ranges so far 1, $z_400" release --owners l --owner 2 v good keep "$o/out"
	{ printf '40 2 ' && head -c 1000000 /dev/zero | tr '\000' 0; } >l
	fails_with "pajurenda: l: line 1: owner \"0000000000000000000000000000000000000000..\" is not a number" owners show l v
	head -c 16777217 /dev/zero | tr '\000' '#' >l
	keeps "$o" fails_with 'pajurenda: l: File too large' release --owners l --owner 1 v good keep "$o/out"
	fails_with 'pajurenda: l: File too large' owners show l v
	head -c 16777216 l >l2
	works 0 owners show l2 v
	yes '0 0 0' 2>/dev/null | head -c 6000000 >l
	values 23 l "line 1: offset 0x0000 length 0 owner 0, ranges so far 1, $z_400" owners show l v
	rm l l2
	mkfifo l
	printf '40 2 2' >l &
	released_by release --owners l --owner 2 v good keep "$o/by"
	wait
	rm l
}

cd "$i"
cp "$work/old" "$o/out"
for one in owner_missing owner_elsewhere owner_places owner_numbers owners_all owners_none owners_files owners_show owner_forms owner_edges \
	owner_order owner_counts owner_rests owner_texts owner_hidden owner_long; do
	"try_$one"
done
cd "$root"
