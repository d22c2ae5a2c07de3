# shellcheck shell=bash disable=SC2154 # client/run sets what is only read here.
# The programs of docs/CALLING.md, for client/run. The page is their one source: a block of it that has a name after its
# language is taken out into a file of that name, each program is built and run over what ./install made, and what it
# prints is held to the page's own text. That is done by the page's own commands. Where these lack cc or c++, C and C++ are
# built as client.c is; a program for which something else is missing is named and not run.

blocks=(street.txt street.c c.sh pkg-config.sh street.cc cpp.sh street.rs rust.sh shared.sh street.py python.sh
    sheet.txt sheet.c sheet.sh survey.txt survey.c survey.sh seconds.txt seconds.c seconds.sh)

take_out() {
    local block
    awk -v folder="$calling" '
        /^```/ && file != "" { close(file); file = ""; next }
        /^```[a-z]+ [a-z.-]+$/ { file = folder "/" $2; next }
        file != "" { print >file }' docs/CALLING.md || stop "the programs of docs/CALLING.md cannot be taken out of it"
    for block in "${blocks[@]}"; do
        [ -s "$calling/$block" ] || stop "docs/CALLING.md has no block with the name $block"
    done
}

# Runs a command in the folder of the page's programs, and leaves the script where it is.
in_calling() (cd -- "$calling" && "$@") # COMMAND...

# Whether the page's own commands can be run here; if not, `why` says what they lack.
can() { # TOOL...
    local tool
    for tool; do
        why="the command $tool is missing"
        command -v -- "$tool" >/dev/null 2>&1 || return 1
    done
}

# Holds what a program printed to the page's text, which run_page names.
hold() { # LANGUAGE STATUS
    if [ "$2" -eq 0 ] && cmp -s -- "$calling/$text" "$calling/printed"; then
        say "  the program in $1 prints what the page shows"
        passed=$((passed + 1))
        return
    fi
    tail -n 20 -- "$calling/said" >&2
    fault "the program in $1 on docs/CALLING.md (exit status $2); the page's lines with -, its own with +"
    diff -u -- "$calling/$text" "$calling/printed" | tail -n +4 >&2
}

# Runs commands of the page as they stand there.
by_page() { # LANGUAGE BLOCK
    apart in_calling sh -eu "$2" >"$calling/printed" 2>"$calling/said"
    hold "$1" $?
}

# Builds a program of the page as client.c is built, and runs it.
by_way() { # LANGUAGE FILE FLAG...
    local language=$1 program=$calling/program
    if ! choose "$language" "${@:3}"; then
        say "not run here: $language, because no compiler for it finds the C headers"
        return
    fi
    : >"$calling/printed"
    make_program "$calling/$2" "$program" "${@:3}" >"$calling/said" 2>&1 &&
        "$program" >"$calling/printed" 2>>"$calling/said" </dev/null
    hold "$language" $?
}

# Names a program that cannot be run here, and sees whether its text compiles, where the command for that is there.
not_run() { # LANGUAGE COMMAND...
    local language=$1
    shift
    if ! command -v -- "$1" >/dev/null 2>&1; then
        say "not run here: $language, because $why"
    elif apart in_calling "$@" >"$calling/said" 2>&1; then
        say "not run here: $language, because $why; its text compiles"
    else
        tail -n 20 -- "$calling/said" >&2
        fault "the program in $language on docs/CALLING.md does not compile"
    fi
}

# Makes the shared object, by the page's command or by the kit's linker.
make_shared() {
    if can cc; then
        in_calling sh -eu shared.sh
        return
    fi
    "$kit/toolchain/bin/ld.lld" -shared -o "$calling/libcorbatan.so" --whole-archive "$installed/lib/libcorbatan.a"
}

# Links the client with the shared object instead of the archive.
link_shared() { # PROGRAM
    local lib=$kit/toolchain/lib
    if can cc; then
        cc -o "$1" "$out/client.o" "$calling/libcorbatan.so"
        return
    fi
    "$kit/toolchain/bin/ld.lld" -pie -dynamic-linker /lib64/ld-linux-x86-64.so.2 -o "$1" "$lib"/{Scrt1,crti,crtbeginS}.o \
        "$out/client.o" "$calling/libcorbatan.so" "$lib"/{libc.so.6,libc_nonshared.a,crtendS.o,crtn.o}
}

# Sees that the shared object has every call: the client makes each of them with the word `empty`.
shared() {
    local program=$out/client-shared
    if make_shared >"$calling/said" 2>&1 && link_shared "$program" >>"$calling/said" 2>&1 &&
        "$out/client" empty >"$calling/archive" && "$program" empty >"$calling/printed" 2>>"$calling/said" &&
        cmp -s -- "$calling/archive" "$calling/printed"; then
        say "  the shared object answers every call as the archive does"
        passed=$((passed + 1))
    else
        tail -n 20 -- "$calling/said" >&2
        fault "the client over a shared object does not print for 'empty' what it prints over the archive"
    fi
}

# Holds the words that pkg-config gives to the folder; where a program cannot be built with them, to the files in it.
package() {
    local version
    if can cc pkg-config; then
        by_page 'C by pkg-config' pkg-config.sh
        return
    elif ! command -v pkg-config >/dev/null 2>&1; then
        say "not run here: C by pkg-config, because the command pkg-config is missing"
        return
    fi
    export PKG_CONFIG_PATH=$PWD/$installed/lib/pkgconfig
    version=$(pkg-config --modversion corbatan 2>&1)
    if grep -Fxq "#define CORBATAN_VERSION \"$version\"" "$(pkg-config --variable=includedir corbatan)/corbatan.h" &&
        [ -s "$(pkg-config --variable=libdir corbatan)/libcorbatan.a" ]; then
        say "  pkg-config finds the header, the archive and their version, $version"
        passed=$((passed + 1))
    else
        fault "pkg-config does not find the header, the archive or their version: $version"
    fi
}

# Runs all that the page has.
run_page() {
    local text=street.txt
    say "building and running the programs of docs/CALLING.md"
    take_out
    if can cc; then by_page C c.sh; else by_way C street.c -x c -std=c99; fi
    package
    if can cc c++; then by_page C++ cpp.sh; else by_way C++ street.cc -x c++ -std=c++11; fi
    if can cc rustc; then by_page Rust rust.sh; else not_run Rust rustc --edition 2021 --emit=metadata street.rs; fi
    shared
    if can python3; then by_page Python python.sh; else not_run Python python3 -m py_compile street.py; fi
    text=sheet.txt
    if can cc; then by_page 'C that writes a sheet' sheet.sh; else by_way 'C that writes a sheet' sheet.c -x c -std=c99; fi
    text=survey.txt
    if can cc; then by_page 'C that reads a survey' survey.sh; else by_way 'C that reads a survey' survey.c -x c -std=c99; fi
    text=seconds.txt
    if can cc; then by_page 'C that asks for seconds' seconds.sh; else by_way 'C that asks for seconds' seconds.c -x c -std=c99; fi
}
