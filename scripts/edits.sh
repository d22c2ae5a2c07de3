# shellcheck shell=bash disable=SC2154 # base.sh sets what is only read here.
# For scripts that try edits, after base.sh: makes each edit's change in a copy of the crates outside the repository, has rt
# check the crate there over what its check as it stands has kept, and keeps all that is said. (rt ci and rt must-fail try an
# edit in the same way, and show one line of its refusal.)

# The crates that have edits.
crates_with_edits() {
    local edit
    for edit in crates/*/must-fail/*.edit; do
        [ -f "$edit" ] && basename -- "${edit%%/must-fail/*}"
    done | sort -u
}

# Where what is said of an edit of a crate, or of a twin, is kept.
log_of() { # EDIT
    local file=${1#*/}
    file=${file/must-fail\//}
    echo "target/must-fail/${file%.edit}.log"
}

# The crates that a crate's proof reads, itself among them, as far as crates.txt names them.
read_by() { # CRATE
    awk -F '[: ]+' -v crate="$1" '
        { sub(/#.*/, ""); for (k = 2; k <= NF; k++) below[$1] = below[$1] " " $k }
        END {
            count = split(crate, todo, " ")
            for (k = 1; k <= count; k++) {
                if (seen[todo[k]]++) continue
                print todo[k]
                more = split(below[todo[k]], found, " ")
                for (j = 1; j <= more; j++) todo[++count] = found[j]
            }
        }' crates.txt
}

# A sum of all that a check of a crate reads.
sum_of() { # CRATE
    local crate
    { rt version; for crate in $(read_by "$1"); do
        find "crates/$crate/src" "crates/$crate/specs" "crates/$crate/proofs" -type f -exec sha256sum -- {} + 2>/dev/null
    done | sort; } | sha256sum
}

# A sum of all that the refusal of an edit of a crate rests on.
sum_with() { # SUM EDIT
    { echo "$1"; grep -E '^(file|old|new):' "$2"; } | sha256sum
}

# How many are tried at a time: RT_JOBS, or one a processor, as far as memory goes.
lanes() {
    local processors memory
    processors=$(nproc) memory=$(awk '/^MemAvailable:/ { print int($2 / 3000000) }' /proc/meminfo)
    echo "${RT_JOBS:-$((memory < 1 ? 1 : memory < processors ? memory : processors))}"
}

# Copies a folder of rt's to a place, what was proved by links: a check replaces such a file and writes into none.
copy_kept() { # FOLDER PLACE
    [ -d "$1" ] || return 0
    mkdir -p -- "$2"
    cp -al -- "$1/." "$2" 2>/dev/null || { rm -rf -- "$2" && cp -a -- "$1" "$2"; } || return
    (cd -- "$1" && find . -type f ! -name '*.oantt' ! -path './*.rlib/*' -exec cp -a --parents --remove-destination -t "$2" -- {} +)
}

# Makes a folder in which rt finds every crate, without its edits, and the libraries as they are built.
make_lane() { # LANE
    local crate part
    mkdir -p -- "$1/.git" && cp -- crates.txt "$1" || return
    [ ! -f HANDLES ] || cp -- HANDLES "$1" || return
    for crate in crates/*/; do
        crate=${crate%/}
        mkdir -p -- "$1/$crate" || return
        for part in src specs proofs; do
            [ ! -d "$crate/$part" ] || cp -a -- "$crate/$part" "$1/$crate" || return
        done
        copy_kept "$crate/out/rlib" "$1/$crate/out/rlib" || return
    done
}

check_copy() (cd -- "$1" && rt check --jobs 1 </dev/null) # FOLDER

# Tries one edit of a crate. A check that came to no verdict, for want of memory, say, gets a second try.
try_edit() { # LANE CRATE EDIT LOG
    local folder=$1/crates/$2 file
    rm -rf -- "$folder/out/incremental"
    if copy_kept "$PWD/crates/$2/out/incremental" "$folder/out/incremental" >"$4" 2>&1 &&
        awk -v crate="$folder" -f scripts/edit.awk "$3" >"$4" 2>&1; then
        check_copy "$folder" >"$4" 2>&1
        grep -q '^logic=' "$4" || check_copy "$folder" >"$4" 2>&1
    fi
    while IFS= read -r file; do
        if [ -f "crates/$2/$file" ]; then cp -a -- "crates/$2/$file" "$folder/$file"; fi
    done < <(sed -n 's/^file:[[:space:]]*//p' "$3" | sed 's/[[:space:]]*$//')
}

# Tries those edits of a list that nothing else has begun with. Where a sum lies beside a log's place, under the end .new, it
# gets the end .sum once the edit is tried.
work_on() { # LANE LIST
    local number=0 crate edit log
    while IFS=' ' read -r crate edit log; do
        number=$((number + 1))
        mkdir -- "$2.$number" 2>/dev/null || continue
        [ -d "$1" ] || make_lane "$1" || return
        mkdir -p -- "${log%/*}" && try_edit "$1" "$crate" "$edit" "$log" && say "  tried $edit"
        if [ -f "$log.new" ] && grep -q '^logic=' "$log"; then mv -f -- "$log.new" "$log.sum"; fi
    done <"$2"
}

# Tries all edits of a list, lines 'CRATE EDIT LOG'.
try_all() { # LIST
    local lane count
    count=$(lanes)
    for ((lane = 1; lane <= count; lane++)); do work_on "$1.lane$lane" "$1" & done
    wait
}

# Sees that there is something kept of each crate for its edits to begin with.
keep_work() { # CRATE...
    local crate
    for crate; do
        [ -d "crates/$crate/out/incremental" ] || apart run_rt "$scratch/kept" "$crate" check || return
    done
}

# A log as one line and without what only follows from a change of names: the prover breaks long lines.
shown() { # LOG
    grep -Ev '^logic|^(note: )?(\./)?proofs/.*(has no field|is not in scope|has no `|was not admitted)' "$1" | tr -s '\n ' ' '
}

# The texts that an edit expects its refusal to show, one a line.
expected() { # EDIT
    sed -n 's/^# expect:[[:space:]]*//p' "$1" | sed 's/[[:space:]]*$//' | tr -s ' '
}
