# shellcheck shell=bash
# What `plan` and `ask` share, after base.sh: a street sheet comes in, a program answers, and its answer goes out with a
# sentence about it. Each has a function `usage`. Exit status: 0 answered; 1 refused; 2 there is no answer.

quiet='' words=()

# What is read, and the most bytes that it may have.
paper='street sheet' most=2048

# Takes the options in front and leaves the words after them.
take_options() { # WORD...
    while [ $# -gt 0 ]; do
        case $1 in
        -h | --help) usage; exit 0 ;;
        -q) quiet=yes ;;
        --) break ;;
        -?*) misused "there is no option $1; a file of that name is typed after --" ;;
        *) break ;;
        esac
        shift
    done
    words=("$@")
}

# Makes the file that the words name the standard input, while the caller's folder is still the current one.
open_sheet() { # [--] [FILE]
    [ "${1:-}" != -- ] || shift
    [ $# -le 1 ] || misused "one $paper is read, and here are $#: $*"
    if [ $# -eq 0 ] || [ "$1" = - ]; then
        { : 3<&0; } 2>/dev/null || stop "standard input is closed, and no file is named"
        [ ! -t 0 ] || say "reading a $paper from the terminal; end it with Ctrl-D"
        return
    fi
    [ -e "$1" ] || stop "there is no file $1"
    [ ! -d "$1" ] || stop "$1 is a folder, not a $paper"
    [ -r "$1" ] || stop "the file $1 may not be read"
    exec <"$1" || stop "the file $1 cannot be read"
}

# Keeps the first bytes of the sheet: one more than it may have, so that one that is too long is seen to be.
take_sheet() {
    head -c "$((most + 1))" >"$scratch/sheet" 2>"$scratch/fault" || stop "the $paper cannot be read: $(reason)"
}

# What a command said last, without its name.
reason() { sed -n '${s/.*: //;p;}' "$scratch/fault"; }

# Reads the sheet that the words name, and sees that the program is there; from here on the repository's folder is the
# current one.
ready() { # PROGRAM FOLDER [--] [FILE]
    local program=$1 folder=$2
    shift 2
    need awk cat cp dirname find head mktemp mv od readlink rm sed tail tee touch tr uname
    open_sheet "$@"
    enter "$folder"
    catch_signals
    trap clean EXIT
    make_scratch
    take_sheet
    find_start
    if stale "$program"; then build_program "$program"; fi
}

# Has the program answer a file. One that could not write its answer says so, whatever status it ends with.
run_program() { # PROGRAM FILE
    local status
    "target/bin/$1" <"$2" >"$scratch/printed" 2>"$scratch/fault"
    status=$?
    if [ "$status" -ne 0 ] || [ -s "$scratch/fault" ]; then
        stop "the program target/bin/$1 ended with status $status and without its whole answer: $(reason)"
    fi
}

# Writes the answer to standard output. That a reader went away is no news; an answer lost otherwise is.
hand_over() {
    local status
    cat -- "$scratch/printed" 2>"$scratch/fault" && return
    status=$?
    [ "$status" -eq 141 ] || grep -q 'Broken pipe' "$scratch/fault" || say "the answer cannot be written: $(reason)"
    exit 2
}

# Runs a script of awk, after what such scripts share, on its input.
run_awk() { # SCRIPT OPTION...
    awk "${@:2}" -f scripts/words.awk -f "scripts/$1.awk"
}

# A sentence about the sheet or the rows: the street's size, or what was refused and where.
look() { # CODE PLACE REQUEST
    local about=(-v code="$1" -v place="$2" -v request="$3")
    case $3 in
    survey*) typed_rows "${about[@]}" ;;
    *) od -An -v -t u1 "$scratch/sheet" | run_awk sheet "${about[@]}" ;;
    esac
}

# Has the typed rows read, where a byte 0 is as little of a row as a byte 1 is.
typed_rows() { # OPTION...
    tr '\000' '\001' <"$scratch/sheet" | run_awk rows "$@"
}

# Hands the answer over with a sentence about it, and answers 1 where it is a refusal.
conclude() { # REQUEST
    local first code place
    read -r first code place <"$scratch/printed" || stop "the program printed nothing"
    hand_over
    if [ "$first" = refused ]; then
        say "$(look "$code" "$place" "$1")"
        case $code$1 in
        *survey*) say "docs/RULES.md says what the rows of a survey may have, and docs/EXAMPLES.md shows some." ;;
        [1-7][!0-9]* | 13*) say "docs/SHEETS.md shows what gets each code and how to mend it; docs/RULES.md has the form of a sheet in full." ;;
        *) say "docs/RULES.md says what a request may ask, and docs/EXAMPLES.md shows some." ;;
        esac
        return 1
    fi
    [ -n "$quiet" ] || say "$(look 0 0 "$1")"
}
