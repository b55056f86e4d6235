#!/usr/bin/env bash
# rust/clomaverift/test.sh : builds the crate over the library, by rustc alone, with and without std, and runs its tests: those of its
# modules, of tests/, of its documentation, what its build script says, that it does not link with a library of another layout, and the
# examples on the sample stream. The library is proved and built first if it is missing or older than a source.
set -euo pipefail
# shellcheck source-path=SCRIPTDIR source=../../tools/common.sh
. "$(dirname "$0")/../../tools/common.sh"

here=$top/rust/clomaverift
out=$target/clomaverift
rustc=$(find_rustc)
linked=(-L "native=$(dirname "$library")" -lstatic=clomaverift)
crate=(--extern "clomaverift=$out/libclomaverift.rlib")
flags=(--target "$triple" --edition 2021 -D warnings)
std=(--cfg 'feature="std"')
runner=$here/.cargo/runner
mapfile -t tests < <(basename -s .rs "$here"/tests/*.rs)

build() { # FILE PROGRAM RUSTC-WORDS..
    CARGO_MANIFEST_DIR=$here "$rustc" "${flags[@]}" -o "$out/$2" "${@:3}" "$here/$1" || fail "$1 cannot be built"
}

build_all() {
    local name
    build src/lib.rs no_std.rlib --crate-name clomaverift --crate-type rlib "${linked[@]}"
    build src/lib.rs libclomaverift.rlib --crate-name clomaverift --crate-type rlib "${std[@]}" "${linked[@]}"
    build src/lib.rs modules --crate-name clomaverift --test "${std[@]}" "${linked[@]}"
    build build.rs build_script
    for name in "${tests[@]}"; do
        build "tests/$name.rs" "$name" --test "${crate[@]}"
    done
    for name in times payload rewrite standard; do
        build "examples/$name.rs" "$name" "${crate[@]}"
    done
}

# A library of another layout.
make_other_library() {
    mkdir -p "$out/other"
    cp "$library" "$out/other/libclomaverift.a"
    "$(kit_tool llvm-ar)" d "$out/other/libclomaverift.a" abi.o
}

# Dead code is linked here, because rustc 1.63 lets the linker drop the reference with it; Cargo does not come so far, for the build script
# stops before.
check_layout() {
    local words=(--test "${std[@]}" -C link-dead-code -L "native=$out/other" -lstatic=clomaverift)
    if (build src/lib.rs other/modules --crate-name clomaverift "${words[@]}") >"$out/said" 2>&1; then
        fail "the crate links with a library of another layout"
    fi
    grep -q "undefined reference to .cmv_abi_$abi'" "$out/said" || { cat "$out/said" && fail "it does not link, for another reason"; }
    echo "a library of another layout: does not link"
}

# Runs the tests of a program; what it says is shown where one fails.
run_tests() { # PROGRAM
    "$runner" "$out/$1" --quiet >"$out/said" 2>&1 || { cat "$out/said" && fail "a test of $1 failed"; }
    echo "$1: $(grep '^test result' "$out/said")"
}

run_examples_of_documentation() {
    "$(dirname "$rustc")/rustdoc" --test "${flags[@]}" "${std[@]}" --test-runtool "$runner" --crate-name clomaverift "${crate[@]}" "$here/src/lib.rs" \
        >"$out/said" 2>&1 ||
        { cat "$out/said" && fail "an example of the documentation failed"; }
    echo "documentation: $(grep '^test result' "$out/said")"
}

# The build script with this environment. It fails, if it does, with one line.
run_build_script() { # VARIABLE=VALUE..
    env -u CLOMAVERIFT_LIBRARY -u RUSTC_LINKER TARGET="$triple" HOST="$triple" RUSTC="$rustc" "$@" \
        "$runner" "$out/build_script" 2>"$out/said" >"$out/linked"
}

says() { # WORDS VARIABLE=VALUE..
    if run_build_script "${@:2}"; then
        fail "the build script does not stop: ${*:2}"
    fi
    [ "$(wc -l <"$out/said") $(grep -cF "clomaverift: $1" "$out/said")" = '1 1' ] || fail "the build script says: $(cat "$out/said")"
}

check_build_script() {
    says 'the library is for x86-64 and the target is aarch64-' TARGET=aarch64-unknown-linux-gnu
    says '/nowhere has no libclomaverift.a: ' CLOMAVERIFT_LIBRARY=/nowhere
    says "the libclomaverift.a of $out/other has another layout than this crate: it has no symbol cmv_abi_$abi. " CLOMAVERIFT_LIBRARY="$out/other"
    says 'no linker for x86-64 is named: ' HOST=aarch64-unknown-linux-gnu
    says 'the linker none-such is missing: ' HOST=aarch64-unknown-linux-gnu RUSTC_LINKER=none-such
    run_build_script CLOMAVERIFT_LIBRARY= || fail "the build script stops: $(cat "$out/said")"
    grep -qx 'cargo:rustc-link-lib=static=clomaverift' "$out/linked" || fail "the build script does not link the library"
    echo "build script: says what is missing"
}

# A recording that begins with a break: a packet without the start flag, and the next unit without the packet before it.
begun_late() { # FILE
    head -c $((15 * 188)) "$1" | tail -c 188
    tail -c +$((16 * 188 + 1)) "$1"
}

run_examples() {
    local bytes file
    "$runner" "$out/times" "$top/samples/sample.ts" 2>/dev/null | diff "$here/examples/times.txt" - || fail "the example times prints something else"
    bytes=$("$runner" "$out/payload" "$top/samples/sample.ts" 256 2>/dev/null | wc -c)
    [ "$bytes" -eq 7600 ] || fail "the example payload writes $bytes bytes" # four units: tools/sample says how long each is
    need_python
    python3 -B "$top/tools/python/twice.py" "$top/samples/sample.ts" "$out/twice.ts"
    begun_late "$top/samples/sample.ts" >"$out/late.ts"
    for file in "$top/samples/sample.ts" "$out"/{twice,late}.ts; do "$runner" "$out/standard" "$file"; done |
        diff "$here/examples/standard.txt" - || fail "the example standard prints something else"
    echo "examples: as stored"
}

need_library
mkdir -p "$out"
build_all
make_other_library
check_layout
for name in modules "${tests[@]}"; do
    run_tests "$name"
done
run_examples_of_documentation
check_build_script
run_examples
