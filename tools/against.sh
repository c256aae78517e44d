# shellcheck shell=bash
# Sourced by tools/compare and tools/scale: the oracle, built, and replay's lines for its scripts.
# shellcheck disable=SC2154 # $out is assigned there
top=$(cd "$(dirname "${BASH_SOURCE[0]}")/.." && pwd)
(cd "$top/oracle" && cargo build --release --quiet)
oracle=$top/oracle/target/release/compare

# The oracle's script of these words in $out/script with its lines in $out/expected, and replay's in $out/got; with $ops, of these ops.
answer() { # WORDS..
    mkdir -p "$out"
    "$oracle" "$@" "$out/script" "$out/expected" ${ops:+"$ops"}
    "$top/replay" "$out/script" >"$out/got"
}

# The same of runs with inserted repeats; in $out/plain-got replay's lines for the same runs without them, and in $out/left what is left of
# $out/got without the inserted lines.
answer_repeats() { # SEED COUNT
    mkdir -p "$out"
    "$oracle" repeats "$@" "$out/script" "$out/plain" "$out/inserted" "$out/expected"
    "$top/replay" "$out/script" >"$out/got"
    "$top/replay" "$out/plain" >"$out/plain-got"
    "$oracle" without "$out/inserted" "$out/got" >"$out/left"
}
