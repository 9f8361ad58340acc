# shellcheck shell=sh disable=SC2034,SC2154,SC2162,SC2164
# The accident: in revision A of a maker's image the bypass is at 0x128, in B at 0x12C. What was written for A, used with B, sets a byte
# that is 0 already, and the byte at 0x12C stays 1. It is stopped at five places, each of them alone; and the right way goes through.

# bsf NAME FIRST SECOND DEFAULT DEFAULT: the maker's names, these two at 0x128 and 0x12C
bsf() {
	cat >"$1" <<-END
		/** names of the settings **/
		StructDef
		    Find "TREATU_T"
		        Skip 32 bytes
		        \$gTreatTokenSpaceGuid_SlotCount 2 bytes \$_DEFAULT_ = 0x0501
		        Skip 254 bytes
		        \$gTreatTokenSpaceGuid_$2 1 bytes \$_DEFAULT_ = $4
		        Skip 3 bytes
		        \$gTreatTokenSpaceGuid_$3 1 bytes \$_DEFAULT_ = $5
		EndStruct
		List &EN_DIS
		    Selection 0x1 , "Enabled"
		    Selection 0x0 , "Disabled"
		EndList
		Page "Board"
		    Combo \$gTreatTokenSpaceGuid_BypassRelay, "Bypass relay at restart", &EN_DIS,
		        Help "the pin"
		EndPage
	END
}

# the two images, their names, and what must be of each
make_revisions() {
	poked "$vendor" A 4096 TREATU 4392 '\001' 4396 '\000'
	poked "$vendor" B 4096 TREATU 112 '\005\003\002\001' 4392 '\000' 4396 '\001'
	bsf A.bsf BypassRelay FanSpeed 0x01 0x00
	bsf B.bsf FanSpeed BypassRelay 0x00 0x01
	{ bound A && echo 'base 0x00512000' && echo '0x128 00'; } >A.must
	{ bound B && echo 'base 0x00512000' && echo '0x12C 00'; } >B.must
	relay='gTreatTokenSpaceGuid_BypassRelay ("Bypass relay at restart")'
	see_make='(see pajurenda sheet make --help)'
}

# released IMAGE SHEET: at 0x00512000, into the file shipped
released() { works 0 release "$all" --owner=1 "$1" "$2" 0x00512000 shipped; }

# the text of each revision, by its own names: released, explained, as released, as required
try_right_way() {
	for one in A:0x0128:4392 B:0x012C:4396; do
		image=${one%%:*}
		at=${one#*:}
		offset=${at%:*}
		at=${at#*:}
		rm -f text
		works 0 sheet start --names "$image.bsf" "$image" text
		prints "names 3 of $image.bsf"
		grep -qx "# gTreatTokenSpaceGuid_BypassRelay = Enabled was Enabled # $offset at $at, 1 byte, \"Bypass relay at restart\"" text || fail "no such setting"
		sed -i 's/^# gTreatTokenSpaceGuid_BypassRelay = Enabled/BypassRelay = Disabled/' text
		works 0 sheet make --names "$image.bsf" "$image" text sheet
		[ "$(tail -n 1 "$work/out")" = "set $offset at $at: 01 -> 00; $relay 01 Enabled -> 00 Disabled" ] || fail "the entry is told otherwise"
		works 0 sheet show --names "$image.bsf" sheet "$image"
		grep -qx "$offset 00 was 01 # at $at, changes 1 of 1 bytes; $relay 01 Enabled -> 00 Disabled" "$work/out" || fail "the entry is shown otherwise"
		cp "$work/out" again
		works 0 sheet make "$image" again sheet2
		same sheet sheet2
		released "$image" sheet
		[ "$(tail -n 1 "$work/out")" = "set $offset at $at: 01 -> 00" ] || fail "the release tells otherwise"
		works 0 audit --ranges --names "$image.bsf" "$image" shipped
		[ "$(sed -n 6,7p "$work/out")" = "S $at..$at length 1 region offset $offset; $relay 01 Enabled -> 00 Disabled
verdict explained" ] || fail "the audit tells otherwise"
		works 0 verify --must "$image.must" --names "$image.bsf" --report page "$image" sheet shipped
		steady
		prints "names 3 of $image.bsf" 'verdict as released, as required, owners not checked' "must base 0x00512000, is 0x00512000, maker's 0xFFF80000: held" \
			"must $offset at $at $relay 00 Disabled, is 00 Disabled, maker's 01 Enabled: held" 'base 0x00512000' 'move -4289126400' 'sheet 1 entries 1 sheet' \
			"set $offset at $at: 01 -> 00; $relay 01 Enabled -> 00 Disabled" "settings 0 $of_release" 'strays 0' 'bits 0'
		page_of page
		page_says 'title Verify: as released, as required, owners not checked' 'verdict as released, as required, owners not checked (open)' 'needs Base|0x00512000|0x00512000|0xFFF80000|held' \
			"needs $offset at $at gTreatTokenSpaceGuid_BypassRelay “Bypass relay at restart”|00 Disabled|00 Disabled|01 Enabled|held" \
			"naming names 3 of $image.bsf" "entries 0|$offset at $at $relay 01 Enabled -> 00 Disabled|1|00|01|as set"
	done
}

# the text as it was: it says nothing of a revision
try_stop_unbound() {
	echo '296 00' >text
	keeps . fails_with "pajurenda: text: it does not say which image it is for. If its offsets are those of B itself, write into it:
    identity 54524541542D3031 \"TREAT-01\"
    revision 0x01020305
$what_for" sheet make B text sheet
}

# the text of A
try_stop_revision() {
	{ bound A && echo '0x128 00'; } >text
	keeps . values 16 text 'line 2: revision 0x01020304, B has revision 0x01020305' sheet make B text sheet
	works 0 sheet make A text A.sheet
	keeps . values 16 A.sheet "the sheet is for 54524541542D3031 \"TREAT-01\" revision 0x01020304 extended 0x0000 version 1.2.3.4, B is 54524541542D3031 \
\"TREAT-01\" revision 0x01020305 extended 0x0000 version 1.2.3.5" release "$all" --owner=1 B A.sheet keep shipped
	keeps . values 16 A.must 'line 2: revision 0x01020304, B has revision 0x01020305' must show A.must B
	keeps . values 16 A.must 'line 2: revision 0x01020304, B has revision 0x01020305' audit --must A.must B B
}

# the lines of B written over those of A: what is replaced isn't there
try_stop_was() {
	{ bound B && echo '0x128 00 was 01'; } >text
	keeps . fails_with 'pajurenda: text: line 4: offset 0x0128: was 01, but B has 00: the line was written for other bytes than these' sheet make B text sheet
	{ bound B && echo 'base any' && echo '0x128 00 was 01'; } >text
	keeps . fails_with 'pajurenda: text: line 5: offset 0x0128: was 01, but B has 00: the line was written for other bytes than these' must show text B
}

# without it the sheet is made, and everything says that it changes nothing; what must be isn't there
try_stop_must() {
	{ bound B && echo '0x128 00'; } >text
	works 0 sheet make B text sheet
	[ "$(tail -n 1 "$work/out")" = 'set 0x0128 at 4392: 00, changes nothing' ] || fail "it seems to change something"
	released B sheet
	[ "$(tail -n 1 "$work/out")" = 'set 0x0128 at 4392: 00, changes nothing' ] || fail "it seems to change something"
	works 0 audit B shipped
	[ "$(tail -n 2 "$work/out")" = "verdict explained
$unchecked" ] || fail "the audit seems to have checked it"
	works 0 audit --report page B shipped
	page_of page
	page_says 'verdict explained (open)' 'unchecked Not checked: whether the settings are the wanted ones; verify VENDOR SHEET.. SHIPPED says it by the sheets, --must FILE by a text.'
	works 0 verify --report page B sheet shipped
	page_of page
	page_says 'entries 0|0x0128 at 4392|1|00|00|changes nothing' "because Byte for byte, the shipped file is what releasing the maker's image with the sheets \
below, in their order, to its base makes. 1 of 1 entry changes nothing: the maker's image has these bytes already. $accounted"
	works 1 verify --must B.must --report page B sheet shipped
	steady
	prints 'verdict as released, not as required, owners not checked' "must base 0x00512000, is 0x00512000, maker's 0xFFF80000: held" \
		"must 0x012C at 4396 00, is 01, maker's 01: not held" 'base 0x00512000' 'move -4289126400' 'sheet 1 entries 1 sheet' \
		'set 0x0128 at 4392: 00, changes nothing' "settings 0 $of_release" 'strays 0' 'bits 0'
	page_of page
	page_says 'title Verify: as released, not as required, owners not checked' 'verdict as released, not as required, owners not checked (bad)' 'needs 0x012C at 4396|00|01|01|not held'
	works 1 audit --must B.must --names B.bsf B shipped
	[ "$(tail -n 2 "$work/out")" = "must 0x012C at 4396 $relay 00 Disabled, is 01 Enabled, maker's 01 Enabled: not held
verdict explained, not as required" ] || fail "the audit tells otherwise"
	printf 'B sheet shipped\n' >pairs
	works 1 verify --must B.must --list pairs
	prints 'line 1 as released, not as required base 0x00512000 settings 0 strays 0 bits 0 B sheet shipped' \
		'pairs 1 as released 1 not as released 0 not as required 1 refused 0 failed 0' "$unowned"
	printf 'B shipped\n' >pairs
	works 1 audit --must B.must --list pairs
	prints 'line 1 explained, not as required base 0x00512000 settings 0 strays 0 bits 0 B shipped' \
		'pairs 1 explained 1 unexplained 0 not as required 1 refused 0 failed 0'
}

# the names of A with B: said first, and by such a name nothing is set or required; strictly they are refused
try_stop_names() {
	differ='names: 2 of 3 defaults are not what the image has: probably names of another revision'
	{ bound B && echo 'BypassRelay = Disabled'; } >text
	names='the names may be of another revision; where they are not, write what is replaced after was'
	keeps . fails_with "pajurenda: text: line 4: gTreatTokenSpaceGuid_BypassRelay, offset 0x0128: its default is 01, but B has 00: $names" \
		sheet make --names A.bsf B text sheet
	echo 'base any' >>text
	keeps . fails_with "pajurenda: text: line 4: gTreatTokenSpaceGuid_BypassRelay, offset 0x0128: its default is 01, but B has 00: $names" \
		must show --names A.bsf text B
	for words in 'setting B 0x128 1' 'sheet show B.sheet B' 'owners show owners B' 'audit B B' 'verify B B.sheet B' 'must show B.must B' 'audit --bytes B B'; do
		# shellcheck disable=SC2086
		works 0 $words --names A.bsf
		[ "$(sed -n '1,4s/^# //; 1,4p' "$work/out")" = "names 3 of A.bsf
$differ
names: gTreatTokenSpaceGuid_BypassRelay at 0x0128 has the default 01 and here is 00
names: gTreatTokenSpaceGuid_FanSpeed at 0x012C has the default 00 and here is 01" ] || fail "it isn't said first"
		passed
		# shellcheck disable=SC2086
		keeps . errs 'A.bsf: refused by --names-strict' $words --names A.bsf --names-strict
		# shellcheck disable=SC2086
		works 0 $words --names B.bsf --names-strict
	done
	keeps . errs 'A.bsf: refused by --names-strict' sheet start --names A.bsf --names-strict B new
	works 0 audit --names A.bsf --report page B B
	page_of page
	page_says "naming $differ"
	{ bound A && printf 'find 5452454154555F54\n0x128 1 BypassRelay\ndefault 01\n'; } >A.names
	works 0 setting --names A.names A BypassRelay
	keeps . errs 'A.names: line 2: ' setting --names A.names B BypassRelay
}

mkdir "$work/accident"
cd "$work/accident"
make_revisions
works 0 sheet empty B B.sheet
works 0 owners all B owners
for one in right_way stop_unbound stop_revision stop_was stop_must stop_names; do "try_$one"; done
cd "$root"
