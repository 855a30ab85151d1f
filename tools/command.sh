# shellcheck shell=bash
# Sourced by the commands at the root, which set `root`, `me`, `usage` (one line) and `help` (what their options and words mean).
# shellcheck disable=SC2034,SC2154  # option, files, tool, linked and room are read, root, me, usage and help set by the script that sources this
# shellcheck source=tests/machine.sh
source "$root/tests/machine.sh"

# What -h and -V print.
tell_help() {
    printf 'usage: %s\n%s\n  -h, --help     this text\n  -V, --version  the version\n' "$usage" "$help"
    printf 'man -l man/%s.1 says more. The status is 1 where input is refused, 2 for wrong use.\n' "$me"
}

version() {
    sed -n 's/^#define TORALINGE_VERSION "\(.*\)"$/\1/p' "$root/include/toralinge.h"
}

tell_version() {
    printf '%s (Toralinge) %s\n' "$me" "$(version)"
}

# take OPTION.. -- WORD..: sets `option` to the one of the options that the words have, or to nothing, and `files` to the other words.
take() {
    local known=' '
    while [[ $1 != -- ]]; do
        known+="$1 "
        shift
    done
    shift
    option='' files=()
    while [[ $# -gt 0 ]]; do
        case $1 in
        -h | --help) tell_help && exit 0 ;;
        -V | --version) tell_version && exit 0 ;;
        --)
            files+=("${@:2}")
            break
            ;;
        -?*)
            [[ $known = *" $1 "* ]] || give_up 2 "no such option: $1; usage: $usage"
            [[ -z $option || $option = "$1" ]] || give_up 2 "only one of $option and $1; usage: $usage"
            option=$1
            ;;
        -) files+=(/dev/stdin) ;;
        *) files+=("$1") ;;
        esac
        shift
    done
}

# want_linked [CRATE ..]: sets `linked` to what a program in C is compiled with for the calls of these crates, or for all, and `headers`.
# TORALINGE_LIBRARY may name a library to link in place of the one that is proved here, with its header in include/ beside it.
want_linked() {
    local name
    headers=$root/include
    linked=()
    if [[ -n ${TORALINGE_LIBRARY-} ]]; then
        [[ -f $TORALINGE_LIBRARY ]] || give_up 2 "TORALINGE_LIBRARY names no file: $TORALINGE_LIBRARY"
        linked=("$(readlink -f "$TORALINGE_LIBRARY")")
        [[ ! -d ${linked[0]%/*}/include ]] || headers=${linked[0]%/*}/include
    elif [[ $# -eq 0 ]]; then
        want_calls
        linked=("$library")
    else
        linked=("$root/c/toralinge.c")
        want_libraries "$@"
        for name in "$@"; do
            linked+=("$root/target/staticlib/lib$name.a")
        done
    fi
}

# want_tool NAME FILE..: compiles the files, sources and libraries, where they are newer than what was made of them, and sets `tool`.
want_tool() {
    local name=$1 new
    shift
    tool=$root/target/tools/$name
    [[ -z ${TORALINGE_LIBRARY-} ]] || tool+=-$(cksum <<<"${linked[*]-}" | cut -d' ' -f1)
    want_runner
    want_compiler
    if [[ -x $tool && -z $(find "$@" "$root"/tools/*.h "$headers" -newer "$tool" -print -quit) ]]; then
        return
    fi
    mkdir -p "${tool%/*}"
    new=$(mktemp "$tool.XXXXXX")
    "${compiler[@]}" -std=c99 -O2 -Wall -Wextra -Werror -pedantic "-I$headers" "-I$root/tools" "$@" -o "$new" ||
        { rm -f "$new" && give_up 1 "tools/$name cannot be compiled"; }
    chmod 755 "$new"
    mv -f "$new" "$tool"
}

# want_turns NAME [CRATE ..]: the tool of tools/NAME.c, which plays a stream a record at a time, and has the calls of the crates too.
want_turns() {
    want_linked feed "${@:2}"
    want_tool "$1" "$root/tools/$1.c" "$root/tools/turns.c" "$root/tools/input.c" "${linked[@]}"
}

# spool MOST: puts the bytes of the input, so many at most, into $room/bytes.
spool() {
    local headers=$root/include linked=()
    want_tool bytes "$root/tools/bytes.c" "$root/tools/input.c"
    room=$(mktemp -d)
    trap 'rm -rf "$room"' EXIT
    "${runner[@]}" "$tool" "$me" "$1" "${files[@]}" >"$room/bytes"
}
