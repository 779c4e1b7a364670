#!/bin/sh
# Prints the instructions that one call of each entry takes, counted by callgrind: those of the
# library, those of the twin written by hand where there is one, and how many times as many.
#   run.sh [ENTRY [CASE]]
# The library is looked for as the Rust crate does: REPLICA_LIB_DIR, else crates/capi/out.
set -eu
cd "$(dirname "$0")/.."
cargo build --release --quiet --package bench
folder=${CARGO_TARGET_DIR:-target/cargo}
bench=$folder/release/bench
log=$(mktemp)
trap 'rm -f "$log"' EXIT

# Runs the program with the words given; the instructions below the function named first.
counted() {
    toggle=$1
    shift
    valgrind --tool=callgrind --callgrind-out-file=/dev/null \
        --toggle-collect="$toggle" "$bench" "$@" >/dev/null 2>"$log" || {
        cat "$log" >&2
        exit 1
    }
    sed -n 's/.*Collected *: *//p' "$log"
}

printf '%-19s%-18s%14s%14s%8s\n' entry case library twin ratio
"$bench" list | while read -r entry name twin; do
    if [ "${1:-$entry}" != "$entry" ] || [ "${2:-$name}" != "$name" ]; then
        continue
    fi
    library=$(counted "replica_$entry" "$entry" "$name")
    ours=- ratio=-
    if [ -n "$twin" ]; then
        ours=$(counted "twin_$entry" twin "$entry" "$name")
        ratio=$(awk "BEGIN { printf \"%.2f\", $library / $ours }")
    fi
    printf '%-19s%-18s%14s%14s%8s\n' "$entry" "$name" "$library" "$ours" "$ratio"
done
