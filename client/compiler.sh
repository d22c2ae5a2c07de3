# shellcheck shell=bash disable=SC2154 # client/run sets what is only read here.
# How client/run compiles and links programs. The ways are tried in turn, or the one alone that CLIENT_CC names:
#     cc      the machine's own compiler
#     kit     the kit's compiler and linker; the kit has no C headers, so it takes the machine's own

# Adds the folders of the machine's C headers to the compiler's words: the first that a compiler brought along, and the
# C library's. What the programs take from them is the same on every 64-bit Linux with glibc.
add_headers() {
    local folder
    for folder in "$(cc -print-file-name=include 2>/dev/null)" /usr/lib/gcc/*/*/include /usr/lib/clang/*/include \
        /usr/lib/llvm-*/lib/clang/*/include; do
        [ -f "$folder/stddef.h" ] || continue
        compile+=(-isystem "$folder")
        break
    done
    compile+=(-isystem /usr/include/x86_64-linux-gnu -isystem /usr/include)
}

# Sets the words that compile and those that link.
set_way() { # WAY
    case $1 in
    cc) compile=(cc) link=(cc) ;;
    kit)
        compile=("$kit/toolchain/bin/clang" --target=x86_64-linux-gnu -nostdinc)
        link=("$kit/bin/rattle-link" --target x86_64-unknown-linux-gnu --toolchain "$kit/toolchain")
        add_headers
        ;;
    *) stop "CLIENT_CC is cc or kit, and not $1" ;;
    esac
}

# Whether the compiler is there, takes the language, and finds the headers that the programs include.
compiles() { # FLAG...
    printf '#include <%s>\n' inttypes.h stddef.h stdint.h stdio.h stdlib.h string.h |
        "${compile[@]}" "$@" -fsyntax-only - >>"$out/tried" 2>&1
}

# Sets the first way that works for a language.
choose() { # LANGUAGE FLAG...
    local way ways=(cc kit) language=$1
    shift
    [ -z "${CLIENT_CC:-}" ] || ways=("$CLIENT_CC")
    : >"$out/tried"
    for way in "${ways[@]}"; do
        set_way "$way"
        compiles "$@" || continue
        say "$language is compiled with ${compile[0]} ($way)"
        return
    done
    return 1
}

# Installs a C compiler and its headers where no way works, or says what is missing.
install_compiler() {
    local packages=(gcc libc6-dev)
    tail -n 5 -- "$out/tried" >&2
    [ -z "${CLIENT_CC:-}" ] || stop "CLIENT_CC names $CLIENT_CC, which does not compile here"
    if [ "$(id -u)" -ne 0 ] || ! command -v apt-get >/dev/null 2>&1; then
        stop "no C compiler finds its headers here; install the packages ${packages[*]} (their names in Debian)"
    fi
    say "no C compiler finds its headers here; installing ${packages[*]}"
    if ! apart get_packages "${packages[@]}" >"$out/install" 2>&1; then
        tail -n 5 -- "$out/install" >&2
        stop "the packages ${packages[*]} cannot be installed; the lines above are the end of what apt-get said"
    fi
}

get_packages() { apt-get update && apt-get install -y --no-install-recommends "$@"; }

# Compiles a program, the flags being those of its language, and links it with the archive that was installed.
make_program() { # SOURCE PROGRAM FLAG...
    local source=$1 program=$2
    shift 2
    rm -f -- "$program" "$program.o"
    "${compile[@]}" "$@" -O2 -fPIE -Wall -Wextra -Wpedantic -Werror -I "$installed/include" -c -o "$program.o" "$source" &&
        "${link[@]}" -o "$program" "$program.o" "$installed/lib/libcorbatan.a"
}

# The same for a program of this folder, which has to be there.
need_program() { # NAME
    say "building client/$1.c over the archive"
    make_program "client/$1.c" "$out/$1" -std=c99 >"$out/built" 2>&1 && return
    tail -n 20 -- "$out/built" >&2
    stop "client/$1.c cannot be compiled and linked with the archive"
}
