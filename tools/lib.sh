# shellcheck shell=sh
# lib.sh: what the shell tools share. Each sources it first, with its own words in "$@"; it is never run by itself.
#
# The statuses of all tools: 0 all is as it should be, 1 something differs or is not proved, 2 it could not be tried (something is missing,
# or cannot be read or written), 64 wrong use.

tool=$(basename "$0")
root=$(dirname "$(dirname "$(readlink -f "$0")")")
# shellcheck disable=SC2034
machine=$(uname -m)

say() { printf '%s: %s\n' "$tool" "$*" >&2; }

fail() {
    say "$@"
    exit 2
}

# A tool's help is the comment at its head.
help() { sed -n '2,/^[^#]/s/^# \{0,1\}//p' "$0"; }

wrong() {
    say "$@"
    help >&2
    exit 64
}

case ${1:-} in
    -h | --help)
        help
        exit 0
        ;;
esac

# Are all the words numbers, of no more digits than a shell reckons with?
numbers() {
    for word; do
        case $word in
            '' | *[!0-9]* | ????????????????*) return 1 ;;
        esac
    done
}

# A path as the caller means it, from the root of all: a tool may stand elsewhere when it uses it.
path_of() {
    case $1 in
        /*) printf '%s\n' "$1" ;;
        *) printf '%s/%s\n' "$PWD" "$1" ;;
    esac
}

# A folder for this run alone, which goes with it.
temporary() {
    temp=$(mktemp -d) || fail "no temporary folder can be made: let TMPDIR name a folder that can be written"
    trap 'rm -rf "$temp"' EXIT
    trap 'exit 129' HUP
    trap 'exit 130' INT
    trap 'exit 143' TERM
}

# The folder to build in. rt keeps its own work in crates/NAME/out, and tools/library leaves the library in target/native; all else goes where
# SPHAIRUNE_WORK says.
working() {
    work=$(path_of "${SPHAIRUNE_WORK:-$root/target}")
    { mkdir -p "$work" && [ -w "$work" ]; } 2>/dev/null || fail "cannot write in $work: name a folder to build in, SPHAIRUNE_WORK=FOLDER"
    export CARGO_TARGET_DIR="$work/rust"
}

# The library to link: that of the folder which SPHAIRUNE_LIB names, as it is, or else it is proved and built.
library() {
    if [ -z "${SPHAIRUNE_LIB:-}" ]; then
        "$root/tools/library" >&2 || exit $?
        SPHAIRUNE_LIB=$root/target/native
    fi
    SPHAIRUNE_LIB=$(path_of "$SPHAIRUNE_LIB")
    [ -f "$SPHAIRUNE_LIB/libsphairune.a" ] || fail "no $SPHAIRUNE_LIB/libsphairune.a: SPHAIRUNE_LIB names the folder of a library built before"
    export SPHAIRUNE_LIB
}

# Where the kit stands: rt names a page at its top.
find_kit() {
    command -v rt >/dev/null || fail "no rt on the path: put the bin folder of the Rattle kit there"
    kit=$(dirname "$(rt doc)")
}

# proof LOG CRATE WORDS..: has rt prove a crate and what it stands on, which may take a while, and ends the tool where it does not.
proof() {
    log=$1 crate=$2 status=0
    shift 2
    { mkdir -p "$(dirname "$log")" && : >"$log"; } 2>/dev/null ||
        fail "$(dirname "$log") cannot be written: make target a link to a folder that can, or work in a copy"
    say "proving, rt $* in crates/$crate: long from nothing, seconds where nothing changed (it tells $log how far it is)"
    (cd "$root/crates/$crate" && rt "$@") >"$log" 2>&1 || status=$?
    [ "$status" -eq 0 ] || {
        cat "$log" >&2
        say "rt $* ended with status $status"
        [ "$status" -eq 1 ] || status=2
        exit "$status"
    }
}

# A word as a shell reads it back.
quoted() { printf "'%s'\n" "$(printf '%s\n' "$1" | sed "s/'/'\\\\''/g")"; }

# links FROM TO BUT..: a link in TO for each entry of FROM but those.
links() {
    from=$1 to=$2
    shift 2
    for entry in "$from"/*; do
        case " $* " in
            *" $(basename "$entry") "*) ;;
            *) ln -s "$entry" "$to/" ;;
        esac
    done
}

# linked_kit PLACE: the kit once more at PLACE, as links, with the program on standard input in place of its clang. What rt takes for its kit
# is the folder above the one that its own text stands in, so that this is copied.
linked_kit() {
    rm -rf "$1"
    mkdir -p "$1/bin" "$1/toolchain/bin"
    links "$kit" "$1" bin toolchain
    links "$kit/bin" "$1/bin" rt rtlib.py
    cp "$kit/bin/rt" "$kit/bin/rtlib.py" "$1/bin/"
    links "$kit/toolchain" "$1/toolchain" bin
    links "$kit/toolchain/bin" "$1/toolchain/bin" clang
    cat >"$1/toolchain/bin/clang"
    chmod +x "$1/toolchain/bin/clang"
}

# What sed takes out of the text of an LLVM module that the kit made, so that it is for no machine in particular. Tools use it.
# shellcheck disable=SC2034
no_machine='/^target triple/d
/^target datalayout/d
s/"target-cpu"="[^"]*"//
s/"target-features"="[^"]*"//'
