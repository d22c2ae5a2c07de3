# shellcheck shell=bash disable=SC2154 # base.sh, counts.sh and edits.sh set what is only read here.
# For scripts that hold the refusals of must-fail edits to what the edits expect, after base.sh, counts.sh and edits.sh.

# Tries every must-fail edit of some crates once more, for the whole of what its refusal says. What an earlier run in this
# folder kept of one counts where all that it rests on is the same.
try_edits() { # CRATE...
    local edit crate log sum
    : >"$scratch/edits"
    for crate; do
        sum=$(sum_of "$crate")
        for edit in "crates/$crate/must-fail"/*.edit; do
            log=$(log_of "$edit")
            sum_with "$sum" "$edit" >"$scratch/sum"
            if cmp -s -- "$scratch/sum" "$log.sum"; then continue; fi
            rm -f -- "$log" "$log.sum"
            mkdir -p -- "${log%/*}" && mv -- "$scratch/sum" "$log.new"
            printf '%s %s %s\n' "$crate" "$edit" "$log" >>"$scratch/edits"
        done
    done
    [ -s "$scratch/edits" ] || return 0
    say "trying $(wc -l <"$scratch/edits") must-fail edits once more, for all that their refusals say"
    keep_work "$@" || { fault "a crate is not proved as it stands; rt check in its folder says more"; return; }
    apart try_all "$scratch/edits"
}

# Prints what is wrong with a must-fail edit and its refusal; nothing where the refusal shows what the edit expects.
# An edit that misspells a name, or that only takes away what a proof names, is refused as well, and shows nothing about
# the contract.
edit_fault() { # TOLD EDIT
    local edit=$2 log text told
    log=$(log_of "$edit") told=${edit#crates/}
    told=$(grep -F "rt: must-fail ${told/must-fail\//}: " "$1")
    if grep -Eq '^file:[[:space:]]*proofs/' "$edit"; then
        echo "it changes a proof, so its refusal shows nothing"
    elif ! grep -q '^# expect:' "$edit"; then
        echo "it has no line '# expect:'"
    elif [[ $told == *': BAD EDIT: '* ]]; then
        echo "it cannot be applied or read:${told#*BAD EDIT:}"
    elif [[ $told != *': refused, as it must be'* ]]; then
        echo "rt did not refuse it"
    elif [[ $told == *'(only because a proof file names what the edit took away'* ]]; then
        echo "it only broke the proof's shape: what the proof names is gone"
    elif ! grep -q '^logic=not-proved' "$log" 2>/dev/null; then
        echo "its refusal did not come again: $(tail -n 1 -- "$log" 2>&1)"
    elif grep -Eq ': error(\[unknown-name\]|: expected .*, found)' "$log"; then
        echo "it was refused for a name that is not found or text that cannot be parsed"
    else
        while IFS= read -r text; do
            if [ -z "$text" ]; then
                echo "its line '# expect:' is empty"
            elif ! shown "$log" | grep -Fq -- "$text"; then
                echo "its refusal does not show: $text"
            fi
        done < <(expected "$edit")
    fi
}

# Holds the refusal of every must-fail edit of some crates to the texts after '# expect:' in it, given what `rt ci` or
# `rt must-fail` said.
refusals() { # TOLD CRATE...
    local told=$1 crate edit found
    shift
    try_edits "$@"
    for crate; do
        for edit in "crates/$crate/must-fail"/*.edit; do
            found=$(edit_fault "$told" "$edit")
            if [ -z "$found" ]; then
                printf '[expect] %s/%s: refused for what it expects\n' "$crate" "$(basename -- "$edit" .edit)"
                passed=$((passed + 1))
            else
                fault "$edit: $found"
            fi
        done
    done
}
