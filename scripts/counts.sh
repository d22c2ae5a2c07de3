# shellcheck shell=bash
# For scripts that count, after base.sh: their last line is 'N passed, M failed', and their exit status is 0 exactly when
# M is 0. Whatever ends such a script, that line comes, once, and an end before its time is a failure.

passed=0 failed=0 closed='' remarks=()

fault() { say "FAILED: $*"; failed=$((failed + 1)); }
stop() { fault "$*"; close; }

# Says the remarks, prints the closing line, and ends the script by it.
close() {
    [ -z "$closed" ] || return 0
    closed=yes
    trap - EXIT
    clean
    for remark in ${remarks[@]+"${remarks[@]}"}; do say "$remark"; done
    printf '%d passed, %d failed\n' "$passed" "$failed"
    [ "$failed" -eq 0 ]
    exit
}

killed() { # SIGNAL
    trap '' HUP INT TERM PIPE
    end_child
    stop "the run was ended by SIG$1"
}

catch_signals
trap 'fault "the run ended before its time"; close' EXIT
