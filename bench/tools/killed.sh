# Builds that are ended by a signal: all that was started ends, and nothing is left behind.
# shellcheck shell=sh
# shellcheck disable=SC2034,SC2154

# begun WORDS..: they run in the background with the usual signals, as from a terminal; words for env may come first
begun() {
	rm -f "$work/pids"
	env --default-signal=INT,TERM,HUP "$@" >"$work/out" 2>"$work/err" &
	begun=$!
	until_true [ -s "$work/pids" ]
}

# ends SIGNAL STATUS: the run ends by it within five seconds, and all that it started
ends() {
	from=$(date +%s)
	kill -s "$1" "$begun"
	got=0
	wait "$begun" 2>/dev/null || got=$?
	status_was "$2"
	[ $(($(date +%s) - from)) -le 5 ] || fail "it took $(($(date +%s) - from)) seconds to end"
	# shellcheck disable=SC2013
	for pid in $(cat "$work/pids"); do
		! alive "$pid" || fail "process $pid is left"
		passed
	done
	nothing_about
}

# no_half: neither command nor archive is there
no_half() {
	lacks "$clone/target/c"
	lacks "$clone/target/staticlib/libpajurenda.a"
	lacks "$clone/target/staticlib/libpajurenda.a.built"
}

if env --default-signal=INT true 2>/dev/null; then
	for signal in INT:130 TERM:143 HUP:129; do
		afresh
		what="tools/audit, ${signal%:*} while it proves"
		begun TRY_HOW=hangs "$clone/tools/audit"
		ends "${signal%:*}" "${signal#*:}"
		has "$work/told"
		no_half
	done
	afresh
	what='tools/audit, TERM, and the prover minds no TERM'
	begun TRY_HOW=stubborn "$clone/tools/audit"
	ends TERM 143
	no_half
	afresh
	what='tools/build, TERM while it compiles'
	begun TRY_COMPILING=hangs "$clone/tools/build"
	lacks "$clone/target/c"
	has "$clone/target/c.new"
	ends TERM 143
	lacks "$clone/target/c"
	lacks "$clone/target/c.new"
	try 1 "$clone/tools/audit"
	prints "$work/sample"
else
	not_run="$not_run; signals while building (env gives no signal its usual meaning)"
fi
