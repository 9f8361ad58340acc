# shellcheck shell=sh disable=SC2034,SC2154,SC2162,SC2164
# Boot logs: every call in every state, by every name and number, the counts, and texts that are no log.

rule_order='after a reset come TempRamInit or not, MemoryInit, TempRamExit where TempRamInit came, SiliconInit, notifications 0x20, 0x40, 0xF0; '\
'each once, in this order'
rule_unknown='a call must be TempRamInit, MemoryInit, TempRamExit, SiliconInit or NotifyPhase (1 to 5), a notification 0x20, 0x40 or 0xF0'
pci='NotifyPhase 0x20 AfterPciEnumeration'
ready='NotifyPhase 0x40 ReadyToBoot'
end_of='NotifyPhase 0xF0 EndOfFirmware'
at_reset='TempRamInit or MemoryInit'
no_more='nothing but a reset'

# log OCTAL: the file g
# shellcheck disable=SC2059
log() { printf -- "$1" >g; }

# ending REFUSALS NEXT: the last line, where these calls would be taken next
ending() {
	case $2:$1 in
	"$no_more":0) echo 'boot complete' ;;
	"$no_more":*) echo 'boot at its end, but with refused calls' ;;
	*) echo "boot not complete, expected $2" ;;
	esac
}

# counts CALLS RESETS REFUSALS NEXT: the last four lines
counts() {
	tail -n 4 "$work/out" >"$work/rest"
	lines "calls $1" "resets $2" "refusals $3" "$(ending "$3" "$4")"
	same "$work/rest" "$work/wanted"
}

# follows LINE..: all that is printed of the log g, of which no call is refused; the exit status is that of its last line
follows() {
	for last in "$@"; do :; done
	case $last in 'boot complete') works 0 station g ;; *) works 1 station g ;; esac
	prints "$@"
}

# stumbles N LINE VALUES: exit status 2, and on standard error the first refusal alone
stumbles() {
	try 2 station g
	case $1 in 40) rule=$rule_order ;; *) rule=$rule_unknown ;; esac
	says "g: refused $1 $(name_of "$1"): $rule: line $2: $3"
}

# ---- whole boots ----

try_boots() {
	log 'TempRamInit\nFspMemoryInit\nTempRamExit\nFspSiliconInit\nAfterPciEnumeration\nReadyToBoot\nEndOfFirmware\n'
	follows '1 TempRamInit accepted' '2 MemoryInit accepted' '3 TempRamExit accepted' '4 SiliconInit accepted' "5 $pci accepted" "6 $ready accepted" \
		"7 $end_of accepted" 'calls 7' 'resets 0' 'refusals 0' 'boot complete'
	log 'MemoryInit\nSiliconInit\nnotify 0x20\nnotify 0x40\nnotify 0xF0\nreset\nTempRamInit'
	follows '1 MemoryInit accepted' '2 SiliconInit accepted' "3 $pci accepted" "4 $ready accepted" "5 $end_of accepted" '6 reset' '7 TempRamInit accepted' \
		'calls 6' 'resets 1' 'refusals 0' 'boot not complete, expected MemoryInit'
	: >g
	follows 'calls 0' 'resets 0' 'refusals 0' "boot not complete, expected $at_reset"
	log '# nothing yet\n\n \t\nreset # here\nreset'
	follows '4 reset' '5 reset' 'calls 0' 'resets 2' 'refusals 0' "boot not complete, expected $at_reset"
	what='station /dev/stdin, a pipe'
	got=0
	printf '2\n4' | run station /dev/stdin >"$work/out" 2>"$work/err" || got=$?
	status_was 1
	prints '1 MemoryInit accepted' '2 SiliconInit accepted' 'calls 2' 'resets 0' 'refusals 0' "boot not complete, expected $pci"
}

# the example of help and man page, as it stands there
try_shown_boot() {
	sed -n 's/^    \([^ ]\)/\1/p' "$work/help.station" >g
	works 0 station g
	counts 7 0 0 "$no_more"
	sed -n '/^.SH BOOT LOGS/,/^.fi/p' "$root/command/pajurenda.1" | grep -v '^[.]' >g2
	same g2 g
	rm g2
}

# every name and number of each call, blanks, line ends and comments
try_boot_forms() {
	for text in '1\n2\n3\n4\n5 0x20\n5 0x40\n5 0xF0' '0x1\n0x02\n3\n4\n5 32\n5 64\n5 240' 'TempRamInit\r\nMemoryInit\r\nTempRamExit\r\nSiliconInit\r\n5 0x20\r\n0x5 0x40\r\n5 0xf0\r\n' \
		'\357\273\277 TempRamInit\n\tFspMemoryInit \nTempRamExit# x\nFspSiliconInit # y\nNotifyPhase AfterPciEnumeration\nNotifyPhase\tReadyToBoot\nNotifyPhase EndOfFirmware' \
		'1\n2\n3\n4\nnotify EnumInitPhaseAfterPciEnumeration\nEnumInitPhaseReadyToBoot\nNotifyPhase EnumInitPhaseEndOfFirmware' \
		'1\n2\n3\n4\nEnumInitPhaseAfterPciEnumeration\nnotify ReadyToBoot\nEnumInitPhaseEndOfFirmware' \
		'1\n2\n3\n4\nnotify 0x0020\nNotifyPhase EnumInitPhaseReadyToBoot\nNotifyPhase 0xF0'; do
		log "$text"
		follows '1 TempRamInit accepted' '2 MemoryInit accepted' '3 TempRamExit accepted' '4 SiliconInit accepted' "5 $pci accepted" \
			"6 $ready accepted" "7 $end_of accepted" 'calls 7' 'resets 0' 'refusals 0' 'boot complete'
	done
}

# what a log may begin its lines with, and what it may not
try_boot_stamps() {
	log '[    0.001204] TempRamInit\n[2026-11-16 14:00:00.5 UTC]MemoryInit\n12: TempRamExit # x\n13:4\n 0.25: notify 0x20\n\t[7] 5 0x40\n1.:EndOfFirmware\n[8]\n9: # x\n'
	follows '1 [    0.001204] TempRamInit accepted' '2 [2026-11-16 14:00:00.5 UTC] MemoryInit accepted' '3 12: TempRamExit accepted' '4 13: SiliconInit accepted' \
		"5 0.25: $pci accepted" "6 [7] $ready accepted" "7 1.: $end_of accepted" 'calls 7' 'resets 0' 'refusals 0' 'boot complete'
	log '[1] reset\n2: MemoryInit\n[3 \303\266\342\200\256] SiliconInit\n'
	follows '1 [1] reset' '2 2: MemoryInit accepted' "3 [3 $(printf '\303\266')?] SiliconInit accepted" 'calls 2' 'resets 1' 'refusals 0' \
		"boot not complete, expected $pci"
	log '[1] SiliconInit\n'
	stumbles 40 1 "SiliconInit, expected $at_reset"
	no_log 1 '"TempRamInit" is one word too many: a line has one call' '[info] TempRamInit'
	no_log 1 '"2]" is one word too many: a line has one call' '[] 2]'
	no_log 1 '"TempRamInit" is one word too many: a line has one call' '[1 TempRamInit'
	no_log 1 'call "00:01:02" is not a number: write hex as 0x00512000, decimal without a leading 0' '1:00:01:02 TempRamInit'
	no_log 1 'call "1.2.3:" is not a number: write hex as 0x00512000, decimal without a leading 0' '1.2.3: TempRamInit'
	log '1: MemoryInit\nSiliconInit\nSiliconInit\n5 0x20\n5 0x40\n5 0xF0\n'
	stumbles 40 3 "SiliconInit, expected $pci"
	counts 6 0 '1, the first in line 3' "$no_more"
}

# ---- every call in every state ----

# refused_there PREFIX EXPECTED NEXT..: after the calls of the prefix each of the known calls but those is 40, with what was expected; and an unknown
# call and notification 41
refused_there() {
	prefix=$1
	expected=$2
	shift 2
	made=$(echo "$prefix" | wc -w)
	for call in TempRamInit MemoryInit TempRamExit SiliconInit AfterPciEnumeration ReadyToBoot EndOfFirmware Nonsense; do
		case " $* " in *" $call "*) continue ;; esac
		echo "$prefix $call" | tr ' ' '\n' | sed '/^$/d' >g
		case $call in
		AfterPciEnumeration) named=$pci ;;
		ReadyToBoot) named=$ready ;;
		EndOfFirmware) named=$end_of ;;
		Nonsense) named='call "Nonsense"' ;;
		*) named=$call ;;
		esac
		number=40
		[ "$call" != Nonsense ] || number=41
		stumbles "$number" $((made + 1)) "$named, expected $expected"
		sed -n "$((made + 1))p" "$work/out" >"$work/rest"
		lines "$((made + 1)) $named refused $number $(name_of "$number"), expected $expected"
		same "$work/rest" "$work/wanted"
		counts $((made + 1)) 0 "1, the first in line $((made + 1))" "$expected"
	done
}

try_boot_states() {
	refused_there '' "$at_reset" TempRamInit MemoryInit
	refused_there 'TempRamInit' MemoryInit MemoryInit
	refused_there 'TempRamInit MemoryInit' TempRamExit TempRamExit
	refused_there 'TempRamInit MemoryInit TempRamExit' SiliconInit SiliconInit
	refused_there 'MemoryInit' SiliconInit SiliconInit
	refused_there 'MemoryInit SiliconInit' "$pci" AfterPciEnumeration
	refused_there 'TempRamInit MemoryInit TempRamExit SiliconInit' "$pci" AfterPciEnumeration
	refused_there 'MemoryInit SiliconInit AfterPciEnumeration' "$ready" ReadyToBoot
	refused_there 'MemoryInit SiliconInit AfterPciEnumeration ReadyToBoot' "$end_of" EndOfFirmware
	refused_there 'MemoryInit SiliconInit AfterPciEnumeration ReadyToBoot EndOfFirmware' "$no_more"
}

# refused calls change nothing, however many there are between; the first alone is on standard error
try_boot_stays() {
	log 'SiliconInit\nTempRamInit\n\nTempRamInit\nMemoryInit\nnotify 0x40\n7\nnotify 1\nTempRamExit\nSiliconInit\nTempRamExit\nnotify 0x20\n'
	stumbles 40 1 "SiliconInit, expected $at_reset"
	prints "1 SiliconInit refused 40 ORDER, expected $at_reset" '2 TempRamInit accepted' '4 TempRamInit refused 40 ORDER, expected MemoryInit' \
		'5 MemoryInit accepted' "6 $ready refused 40 ORDER, expected TempRamExit" '7 call 7 refused 41 UNKNOWN, expected TempRamExit' \
		'8 NotifyPhase 0x01 refused 41 UNKNOWN, expected TempRamExit' '9 TempRamExit accepted' '10 SiliconInit accepted' \
		"11 TempRamExit refused 40 ORDER, expected $pci" "12 $pci accepted" 'calls 11' 'resets 0' 'refusals 6, the first in line 1' "boot not complete, expected $ready"
	log 'MemoryInit\nreset\nTempRamInit\nreset\nSiliconInit\nreset\nMemoryInit'
	stumbles 40 5 "SiliconInit, expected $at_reset"
	counts 4 3 '1, the first in line 5' SiliconInit
}

# what is no call's number and no notification's, all 64 bits of it; names that are nearly one
try_boot_unknown() {
	for number in 0 6 255 256 257 65537 4294967297 4294967298 9223372036854775809 18446744073709551615; do
		log "$number"
		stumbles 41 1 "call $number, expected $at_reset"
	done
	for number in 0x00 0x01 0x1F 0x21 0x3F 0x41 0xEF 0xF1 0xFF 0x120 0x10020 0x100000020 0xFFFFFFFFFFFFFFFF; do
		log "2\\n4\\nnotify $number"
		stumbles 41 3 "NotifyPhase $number, expected $pci"
	done
	for name in tempraminit TempRamInit: 'TempRamInit,' 'TempRamInit()' Reset x FF TempRam '"TempRamInit"' FspTempRamInit "$(printf '\303\266')"; do
		log "$name"
		stumbles 41 1 "call \"$name\", expected $at_reset"
		log "2\\n4\\nnotify $name"
		stumbles 41 3 "NotifyPhase \"$name\", expected $pci"
	done
	log 'notify TempRamInit'
	stumbles 41 1 "NotifyPhase \"TempRamInit\", expected $at_reset"
	long=$(digits 30 | tr -d ' ' | tr 5 a)
	log "$long"
	stumbles 41 1 "call \"$(echo "$long" | head -c 40)..\", expected $at_reset"
	log "%%s%%n\\n"
	stumbles 41 1 "call \"%s%n\", expected $at_reset"
}

# ---- what is no log ----

# no_log LINE FAULT OCTAL [PRINTED..]: an error of that line; the lines before it are shown, and nothing is counted
no_log() {
	log "$3"
	line="pajurenda: g: line $1: $2"
	shift 3
	try 2 station g
	says "$line"
	prints "$@"
}

try_no_log() {
	no_log 1 'a notification is missing: write its name or number, as notify 0x20' 'notify'
	no_log 2 'a notification is missing: write its name or number, as notify 0x20' 'TempRamInit\nNotifyPhase # 0x20' '1 TempRamInit accepted'
	no_log 3 'a notification is missing: write its name or number, as notify 0x20' '2\n4\n5\nnotify 0x20' '1 MemoryInit accepted' '2 SiliconInit accepted'
	no_log 1 '"now" is one word too many: a line has one call' 'MemoryInit now'
	no_log 1 '"MemoryInit" is one word too many: a line has one call' 'TempRamInit MemoryInit'
	no_log 1 '"0x20" is one word too many: a line has one call' '4 0x20'
	no_log 1 '"0x40" is one word too many: a line has one call' 'notify 0x20 0x40'
	no_log 1 '"0x20" is one word too many: a line has one call' 'AfterPciEnumeration 0x20'
	no_log 1 '"1" is one word too many: a line has one call' 'reset 1'
	no_log 1 '"y" is one word too many: a line has one call' 'x y'
	no_log 1 'call "01" starts with 0: write 0x01 for hex or 1 for decimal' '01'
	no_log 1 'notification "020" starts with 0: write 0x020 for hex or 20 for decimal' 'notify 020'
	no_log 1 'notification "0X20" has a capital X: write 0x20 for hex' 'notify 0X20'
	no_log 1 'notification "20h" is not a number: write hex as 0x00512000, decimal without a leading 0' 'notify 20h'
	no_log 1 'call "18446744073709551616" does not fit 64 bits' '18446744073709551616'
	no_log 1 'notification "0x10000000000000020" does not fit 64 bits' 'notify 0x10000000000000020'
	for byte in 000 001 007 013 033 177; do
		hex=$(printf '0x%02X' "$((0$byte))")
		no_log 2 "control character $hex" "TempRamInit\\nMemoryInit\\$byte" '1 TempRamInit accepted'
		no_log 1 "control character $hex" "# \\$byte"
	done
	no_log 1 'control character 0x0D' 'TempRamInit\rMemoryInit'
	log 'SiliconInit\nx y'
	try 2 station g
	says "g: refused 40 ORDER: $rule_order: line 1: SiliconInit, expected $at_reset" 'pajurenda: g: line 2: "y" is one word too many: a line has one call'
	prints "1 SiliconInit refused 40 ORDER, expected $at_reset"
}

try_log_files() {
	fails_with 'pajurenda: missing: No such file or directory' station missing
	fails_with "pajurenda: $o: Is a directory" station "$o"
	fails_with 'pajurenda: /dev/zero: File too large' station /dev/zero
	fails_with 'pajurenda: station: LOG is missing (see pajurenda station --help)' station
	fails_with 'pajurenda: station: one word too many: "b" (see pajurenda station --help)' station a b
	fails_with 'pajurenda: station: takes no option --words (see pajurenda station --help)' station --words g
	errs 'pajurenda: v: line 1: control character 0x' station v
	{ head -c 1000000 /dev/zero | tr '\000' '\n' && echo SiliconInit; } >g
	stumbles 40 1000001 "SiliconInit, expected $at_reset"
	yes reset | head -n 20000 >g
	works 1 station g
	counts 0 20000 0 "$at_reset"
	printf 'MemoryInit' >"a
g: refused"
	works 1 station 'a
g: refused'
	printf 'TempRamExit' >'a
g: refused'
	try 2 station 'a
g: refused'
	says "a?g: refused: refused 40 ORDER: $rule_order: line 1: TempRamExit, expected $at_reset"
	rm 'a
g: refused'
	log 'TempRamInit\n'
	unheard station g
	log 'TempRamExit\n'
	unheard station g
}

# ---- long logs ----

# the table written apart, in awk: the answer of each of 400 calls and resets from a seed
try_drawn_log() {
	awk -v seed="$seed" 'BEGIN { srand(seed); split("TempRamInit MemoryInit TempRamExit SiliconInit AfterPciEnumeration ReadyToBoot EndOfFirmware reset Other", name, " ")
		for (n = 0; n < 400; n++) { k = 1 + int(rand() * 9); if (n % 3) k = 1 + last % 7; if (k == 8 && rand() < 0.5) k = 2; last = k; print name[k] } }' >g
	awk 'BEGIN { row["reset TempRamInit"] = "T"; row["reset MemoryInit"] = "S"; row["T MemoryInit"] = "X"; row["X TempRamExit"] = "S"; row["S SiliconInit"] = "p"
			row["p AfterPciEnumeration"] = "r"; row["r ReadyToBoot"] = "e"; row["e EndOfFirmware"] = "done"; state = "reset" }
		$1 == "reset" { state = "reset"; print NR, "reset"; next }
		$1 == "Other" { print NR, "refused 41"; next }
		(state " " $1) in row { state = row[state " " $1]; print NR, "accepted"; next }
		{ print NR, "refused 40" }' g >"$work/wanted_answers"
	try 2 station g
	sed '/^[a-z]/d' "$work/out" | sed 's/^\([0-9]*\) .*\(accepted\)$/\1 \2/; s/^\([0-9]*\) .* \(refused 4[01]\) .*/\1 \2/' >"$work/answers"
	same "$work/answers" "$work/wanted_answers"
	for answer_of in accepted reset 'refused 40' 'refused 41'; do
		[ "$(grep -c " $answer_of\$" "$work/answers")" -ge 5 ] || fail "hardly any $answer_of in the drawn log"
	done
}

cd "$i"
for one in boots shown_boot boot_forms boot_stamps boot_states boot_stays boot_unknown no_log log_files drawn_log; do "try_$one"; done
cd "$root"
