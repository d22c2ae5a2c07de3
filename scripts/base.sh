# shellcheck shell=bash
# What the scripts of this repository share: what they say, how they end, the kit, and target/.
#
# A script sets `name`, the word before each of its sentences, and sources this file. Where it has another end than a
# sentence and status 2, it defines `stop` anew; where it has something to do when a signal comes, `killed`.
set -u

# So that awk, sed and grep take bytes as bytes, whatever a sheet or a refusal has in it.
export LC_ALL=C

child='' scratch=''

say() { printf '%s: %s\n' "$name" "$*" >&2; }
stop() { say "$*"; exit 2; }

# Says why the words cannot be taken, and how they go. The script has a function `usage`.
misused() { # WHY
    say "$1"
    usage | head -n 1 >&2
    stop "./$name --help says more"
}

need() { # TOOL...
    local tool
    for tool; do
        command -v -- "$tool" >/dev/null 2>&1 || stop "the command $tool is missing; install it or put it on the PATH"
    done
}

# Makes the repository's folder the current one.
enter() { # FOLDER
    cd -- "$1" || stop "the repository's folder cannot be entered"
}

# Makes a folder for what lasts as long as the script.
make_scratch() {
    scratch=$(mktemp -d 2>/dev/null) || stop "no temporary folder can be made in ${TMPDIR:-/tmp}"
}

clean() {
    [ -z "$scratch" ] || rm -rf -- "$scratch"
    scratch=''
}

# Ends what `apart` has started, all of it.
end_child() { [ -z "$child" ] || kill -TERM -- "-$child" 2>/dev/null; }

# Answers a signal: what was started ends, and then the script by the same signal, so that its caller sees which.
killed() { # SIGNAL
    trap - EXIT "$1"
    end_child
    clean
    kill -s "$1" "$$"
}

catch_signals() {
    local signal
    for signal in HUP INT TERM PIPE; do
        # shellcheck disable=SC2064 # The name is to be put in now.
        trap "killed $signal" "$signal"
    done
}

# Runs a command, without input, in a process group of its own and beside the script, so that a signal to the script is
# answered at once and reaches all that the command started. What a shell starts in the background is deaf to Ctrl-C,
# and so are the provers under rt.
apart() { # COMMAND...
    local status
    set -m
    (
        set +m
        "$@"
    ) </dev/null &
    child=$!
    set +m
    wait "$child"
    status=$?
    child=''
    return "$status"
}

# Finds the kit's folder, two above the real rt.
find_kit() {
    need rt
    kit=$(dirname -- "$(dirname -- "$(readlink -f -- "$(command -v rt)")")")
}

# Sees that programs can be started here: the kit and all that it builds are for x86-64.
find_start() {
    machine=$(uname -m)
    [ "$machine" = x86_64 ] || stop "this machine is $machine, and the programs and the kit of rt are for x86_64"
}

# Sees that what is built can be put below target/.
make_target() { # FOLDER...
    local folder
    mkdir -p -- target "$@" 2>/dev/null
    for folder in target target/*/ "$@"; do
        [ -d "$folder" ] && [ -w "$folder" ] && continue
        [ "$folder" = 'target/*/' ] && continue
        stop "the folder $PWD/${folder%/} cannot be written, and what is proved is built there"
    done
}

# Runs rt in a crate's folder, keeps all that it says in a file, and shows how far it is: rt's own lines, and one for each
# crate that is proved.
run_rt() { # FILE CRATE WORD...
    local log=$1 folder=crates/$2
    shift 2
    (cd -- "$folder" && rt "$@") 2>&1 | tee -- "$log" | sed -un -e '/^rt: running /d' -e "s/^rt: /$name:   /p" \
        -e '/^crate /{s/^crate \([^:]*\): .*/\1 is proved/;h;}' -e "/^logic=proved /{x;s/^./$name:   &/p;}" >&2
    return "${PIPESTATUS[0]}"
}

# Whether a program is missing or older than something that it is built from. What rt makes in a crate's folder out/ is none
# of that.
stale() { # PROGRAM
    [ ! -x "target/bin/$1" ] ||
        [ -n "$(find crates crates.txt \( -name must-fail -o -regex 'crates/[^/]*/out' \) -prune -o \
            \( -type f -o -path 'crates/*/*' \) -newer "target/bin/$1" -print -quit)" ]
}

# Puts what rt built into its place below target/, whole or not at all. Given a file, it gets that one's time.
take_built() { # FILE PLACE [FILE]
    cp -- "$1" "$2.new" 2>/dev/null && { [ $# -eq 2 ] || touch -r "$3" "$2.new"; } && mv -f -- "$2.new" "$2" ||
        stop "$1, which rt has built, cannot be put to $2"
}

# Proves and builds a program, which rt then starts, here on an empty input. It gets the time at which this began, so that
# an edit made meanwhile counts as newer.
build_program() { # PROGRAM
    local program=$1 log=$scratch/build built=crates/$1/out/$1
    need rt
    make_target target/bin
    say "proving and building the program; the first time this takes some minutes, later only what changed"
    : >"$scratch/began"
    if ! apart run_rt "$log" "$program" run; then
        tail -n 30 -- "$log" >&2
        stop "the program is not built, because rt run failed in crates/$program; the lines above are the end of what it said"
    fi
    [ -x "$built" ] || stop "rt run ended well in crates/$program and left no program at $built"
    take_built "$built" "target/bin/$program" "$scratch/began"
}

# Proves the library and writes its archive, target/staticlib/libexports.a.
build_archive() { # FILE
    local built=crates/exports/out/libexports.a
    say "proving the library and writing its archive; the first time this takes some minutes, later only what changed"
    if ! apart run_rt "$1" exports lib; then
        tail -n 20 -- "$1" >&2
        stop "rt lib failed in crates/exports; the lines above are the end of what it said"
    fi
    [ -f "$built" ] || stop "rt lib ended well in crates/exports and left no archive at $built"
    take_built "$built" target/staticlib/libexports.a
}
