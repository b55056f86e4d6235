#!/usr/bin/env bash
# build.sh ARCH MODE OUT : the crate mpeg2ts-reader, unchanged, by plain rustc calls: no cargo, so no network.
#   ARCH  x86_64 | aarch64
#   MODE  real (log, fixedbitset and encoding_rs out of Debian's librust-*-dev packages) | stub (stand-ins for them too)
#   OUT   folder for the rlibs
# smptera-format-identifiers-rust is in no Debian package and has a stand-in in both modes; packet.rs and pes.rs never reach it.
# Environment: RUSTC, a compiler with a std for ARCH; SRC, the crate's source where it is not the folder beside this file.
set -euo pipefail
here=$(cd "$(dirname "$0")" && pwd -P)
arch=$1 mode=$2 out=$3
src=${SRC:-$here/src} rustc=${RUSTC:-rustc}

# The root file of a crate that a Debian package brings.
source_of() { # CRATE
    local found
    found=$(dpkg -L "librust-${1//_/-}-dev" | awk '/\/src\/lib\.rs$/ && !n++')
    [ -n "$found" ] || { echo "build.sh: the Debian package of $1 has no source" >&2; return 1; }
    echo "$found"
}

lib() { # CRATE FILE EDITION WORDS..
    local name=$1 file=$2 edition=$3
    shift 3
    "$rustc" --target "$arch-unknown-linux-gnu" --crate-name "$name" --crate-type rlib --edition "$edition" \
        -C opt-level=3 -C debuginfo=0 --cap-lints allow -L "dependency=$out" "$@" -o "$out/lib$name.rlib" "$file"
}

debian() { # CRATE WORDS..
    local file
    file=$(source_of "$1")
    lib "$1" "$file" 2018 "${@:2}"
}

stub() { # CRATE..
    local name
    for name in "$@"; do lib "$name" "$here/stub/$name.rs" 2021; done
}

with() { # CRATE.. : the words that name built crates, one to a line
    local name
    for name in "$@"; do printf '%s\n' --extern "$name=$out/lib$name.rlib"; done
}

mkdir -p "$out"
case $mode in
real)
    debian cfg_if
    mapfile -t cfg_if < <(with cfg_if)
    debian log --cfg atomic_cas --cfg has_atomics "${cfg_if[@]}"
    debian fixedbitset --cfg 'feature="std"'
    debian encoding_rs --cfg 'feature="alloc"' "${cfg_if[@]}"
    ;;
stub) stub log fixedbitset encoding_rs ;;
*) echo "build.sh: the mode is real or stub" >&2; exit 2 ;;
esac
stub smptera_format_identifiers_rust
mapfile -t dependencies < <(with log fixedbitset encoding_rs smptera_format_identifiers_rust)
lib mpeg2ts_reader "$src/lib.rs" 2018 "${dependencies[@]}"
