# shellcheck shell=bash
# Sourced by host/run, host/weigh and host/stack: where results go, and the compiler and linker for x86-64, the one machine of today's kit.
top=$(cd "$(dirname "${BASH_SOURCE[0]}")/.." && pwd)
out=$top/target/host
target=x86_64-unknown-linux-gnu
source=${ENET_SRC:-$top/../shared/docs/src/src}

say() { printf 'host: %s\n' "$*" >&2; }
has_std() { [ -d "$("$1" --print target-libdir --target "$target" 2>/dev/null)" ]; }

# a compiler with a standard library for the target, and a linker
find_rustc() {
    rustc=''
    for r in $(type -ap rustc); do
        if has_std "$r"; then rustc=$r && return; fi
    done
    return 1
}
find_tools() { find_rustc && command -v cc >/dev/null; }
install() {
    say "installing a Rust compiler and a linker"
    apt-get update -qq
    apt-get install -yqq --no-install-recommends rustc-web gcc libc6-dev
}

need_source() { [ -d "$source" ] || { say "the Rust is not at hand: no $source"; exit 2; }; }

# installs what is missing, or names it
need_tools() {
    command -v rt >/dev/null || { say "rt is not on the PATH"; exit 2; }
    [ "$(uname -m)" = x86_64 ] || { say "the kit builds for x86-64, and this machine is $(uname -m)"; exit 2; }
    mkdir -p "$out"
    find_tools || install >"$out/install.log" 2>&1 || true
    find_tools || { say "no rustc with $target, or no cc; what was tried is in target/host/install.log"; exit 2; }
}

# a disassembler, for host/stack
need_objdump() {
    mkdir -p "$out"
    command -v objdump >/dev/null || { apt-get update -qq && apt-get install -yqq --no-install-recommends binutils; } >"$out/install.log" 2>&1 || true
    command -v objdump >/dev/null || { say "no objdump; what was tried is in target/host/install.log"; exit 2; }
}

# need_library CRATE: target/staticlib/libCRATE.a, built of the proved crate; of a library that crates stand on, CRATE_c has the exports
need_library() {
    local crate=$1 archives=$top/target/staticlib
    if [ -d "$top/crates/${1}_c" ]; then crate=${1}_c; fi
    mkdir -p "$out" "$archives"
    (cd "$top/crates/$crate" && rt lib) >"$out/staticlib.log" 2>&1 || { cat "$out/staticlib.log"; exit 1; }
    cp "$top/crates/$crate/out/lib$crate.a" "$archives/lib$1.a"
}

flags=(--edition 2021 -O)
# cross WORD..: rustc for the target
cross() { "$rustc" "${flags[@]}" --target "$target" "$@"; }

# the source as a library for the target, at the same level as ours
build_enet() {
    rustc "${flags[@]}" -o "$out/prepare" "$top/oracle/enet/prepare/main.rs"
    rm -rf "$out/tree"
    "$out/prepare" "$source" "$out/tree"
    ENET_TREE=$out/tree cross --crate-type rlib --crate-name enet -o "$out/libenet.rlib" "$top/oracle/enet/src/lib.rs"
}
