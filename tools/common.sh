# shellcheck shell=bash disable=SC2034
# Sourced by the scripts of this folder: where things stand, how crates are proved, how Rust is built over the library.

top=$(cd "$(dirname "${BASH_SOURCE[0]}")/.." && pwd -P)
target=$top/target
parts=(host_c host_streams_c host_whole_c) # the static libraries whose exports are the library
library=$target/library/libclomaverift.a   # the library, which tools/library makes
abi=3                                      # of its layout: raised if an entry's signature, a row or a number changes its meaning
triple=x86_64-unknown-linux-gnu            # what the library is compiled for

toolchain='logic dac8208d650f15bf' # what `rt version` has to end with; README.md names it for the reader

fail() {
    echo "$(basename "$0"): $*" >&2
    exit 1
}

# The comment at the top of the script that runs, which is its help: usage and, after a colon, what it does.
help_text() { sed -n '2,${/^#/!q;s/^# \{0,1\}//p}' "$0"; }

wrong_usage() { # SENTENCE
    echo "$(basename "$0"): $*" >&2
    echo "usage: $(help_text | sed '1s/ : .*//;1q'); --help says more" >&2
    exit 2
}

# Ends a run that has two options or one that is not among OPTIONS, or more than so many other words.
takes() { # OPTIONS MOST WORDS..
    local word options=0 others=0
    for word in "${@:3}"; do
        case $word in
        -*)
            [[ " $1 " = *" $word "* ]] || wrong_usage "there is no option $word"
            options=$((options + 1))
            ;;
        *) others=$((others + 1)) ;;
        esac
    done
    [ "$options" -le 1 ] || wrong_usage "these options do not go together"
    [ "$others" -le "$2" ] || wrong_usage "too many words"
}

# A script that sources this file lends it its words: so every script has --help.
if [ "${1:-}" = --help ]; then
    help_text
    exit 0
fi

# Whether the toolchain is the one that the project is proved with; a warning where it is not.
is_pinned() {
    local version
    version=$(rt version)
    [[ $version = *"$toolchain" ]] && return
    echo "$(basename "$0"): warning: 'rt version' says '$version'; README.md asks for '$toolchain'" >&2
    return 1
}

need_rt() {
    type -P rt >/dev/null || fail "rt is missing: install the Rattle toolchain that README.md names and put rt on PATH"
}

need_python() {
    type -P python3 >/dev/null || "$top/tools/setup" python3 || fail "python3 is missing"
    type -P python3 >/dev/null || fail "python3 is missing from PATH"
}

# A program of the toolchain that the Rattle toolchain brings: clang or llvm-ar.
kit_tool() { echo "$(dirname "$(rt doc)")/toolchain/bin/$1"; } # NAME

# Whether a file is there and no input is newer.
up_to_date() { # FILE INPUT..
    [ -e "$1" ] && [ -z "$(find "${@:2}" -newer "$1" -print -quit)" ]
}

# ---- Proving.

# These crates and all that they are built on, leaves first, by crates.txt.
below() { # CRATE..
    tac "$top/crates.txt" | awk -F '[: ]+' -v wanted="$*" '
        BEGIN { for (i = split(wanted, names, " "); i > 0; i--) needed[names[i]] = 1 }
        NF && $1 in needed { print $1; for (i = 2; i <= NF; i++) needed[$i] = 1 }' | tac
}

# Whether what is built of crates is there, and no source of them or of those below them is newer.
crates_up_to_date() { # FILE CRATE..
    local crate folder folders=("$top/crates.txt")
    for crate in $(below "${@:2}"); do
        for folder in "$top/crates/$crate"/{src,specs,proofs}; do
            [ ! -d "$folder" ] || folders+=("$folder")
        done
    done
    up_to_date "$1" "${folders[@]}"
}

# Proves crates and builds them, those first that the others are built on: a library for the crates above it, a static library as an archive,
# a program, which is run on no input. What rt says goes to a log, which is named if it fails; a line is shown for each crate.
build_crates() { # WHAT MINUTES CRATE..
    local crate verb began number=0 crates=("${@:3}") log=$target/prove.log
    need_rt
    is_pinned || true
    mkdir -p "$target"
    echo "$(basename "$0"): proving $1, ${#crates[@]} crates: about $2 minutes on four processors, less where some are proved" >&2
    for crate in "${crates[@]}"; do
        began=$SECONDS number=$((number + 1)) verb=lib
        [ ! -e "$top/crates/$crate/src/main.rt" ] || verb=run
        (cd "$top/crates/$crate" && rt "$verb" </dev/null) >"$log" 2>&1 ||
            fail "crate $crate: 'rt $verb' failed; $log has what it said"
        printf '%4d of %d  %s, %d s\n' "$number" "${#crates[@]}" "$crate" $((SECONDS - began)) >&2
    done
}

# ---- Rust over the library.

# A compiler that has a std for the library's target. Debian's comes first: tools/setup brings it.
find_rustc() {
    local found
    for found in /usr/bin/rustc $(type -aP rustc); do
        if [ -d "$("$found" --print sysroot 2>/dev/null)/lib/rustlib/$triple" ]; then
            echo "$found"
            return
        fi
    done
    fail "no rustc has a std for $triple: run tools/setup"
}

# The library, made if it is not there or older than a source.
need_library() {
    local made
    made=$(dirname "$library")/made
    crates_up_to_date "$made" "${parts[@]}" && up_to_date "$made" "$top"/tools/{library,common.sh} "$top/include/clomaverift.h" ||
        "$top/tools/library" >/dev/null || fail "the library cannot be made"
}

# The oracle, in target/oracle: with Debian's crates or, where they do not build, with stand-ins for them.
need_oracle() {
    local mode log=$target/oracle.log rustc
    up_to_date "$target/oracle/mode" "$top/rust/oracle" && return
    rustc=$(find_rustc)
    mkdir -p "$target"
    for mode in real stub; do
        rm -rf "$target/oracle"
        if RUSTC=$rustc "$top/rust/oracle/build.sh" x86_64 "$mode" "$target/oracle" >"$log" 2>&1; then
            echo "$mode" >"$target/oracle/mode"
            return
        fi
        cat "$log" >&2
    done
    fail "the oracle cannot be built"
}

say_oracle() {
    case $(cat "$target/oracle/mode") in
    real) echo "oracle: mpeg2ts-reader unchanged, with Debian's log, fixedbitset and encoding_rs" ;;
    stub) echo "oracle: mpeg2ts-reader unchanged, with stand-ins for log, fixedbitset and encoding_rs" ;;
    esac
}

# A program of rust/ with the oracle in it, as target/NAME/libNAME.a: all but the library, so that another library costs a link. It has
# the library's declarations, and may have modules of the differential.
need_rust() { # NAME RUSTC-WORDS..
    local name=$1 archive=$target/$1/lib$1.a rustc
    need_oracle
    up_to_date "$archive" "$top/rust/$name" "$top/rust/differential" "$top/rust/clomaverift/src" "$target/oracle/mode" &&
        return
    rustc=$(find_rustc)
    mkdir -p "$target/$name"
    "$rustc" --target "$triple" --crate-name "$name" --crate-type staticlib --edition 2021 -C opt-level=3 \
        -L "dependency=$target/oracle" --extern "mpeg2ts_reader=$target/oracle/libmpeg2ts_reader.rlib" "${@:2}" \
        -o "$archive" "$top/rust/$name/main.rs" || fail "rust/$name cannot be built"
}

# Links such a program with a library, its archives or objects.
link_rust() { # NAME PROGRAM LIBRARY..
    type -P cc >/dev/null || fail "the linker cc is missing: run tools/setup"
    cc -Wl,--gc-sections -o "$2" "$target/$1/lib$1.a" "${@:3}" || fail "rust/$1 cannot be linked with the library"
}
