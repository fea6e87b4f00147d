#!/usr/bin/env bash
# Every measurement, one after another, or those that are named: store, stream, shelf.
set -euo pipefail
cd "$(dirname "$0")/.."
work=$(mktemp -d)
trap 'rm -rf "$work"' EXIT
mkdir -p target

# measure NAME CRATE [WORD..]: bench/NAME.c over the static library of a crate.
measure() {
    (cd "crates/$2" && rt lib >/dev/null)
    gcc -O2 -Iinclude -o "target/bench_$1" "bench/$1.c" "crates/$2/out/lib$2.a"
    "target/bench_$1" "${@:3}"
}

[ $# -gt 0 ] || set -- store stream shelf
for name; do
    case $name in
    store) measure store benchmarks ;;
    # with Ceph's `rbd`, where it is installed, the join of files is compared with it in this folder
    stream) if command -v rbd >/dev/null; then measure stream lovgwarzh_c "$work"; else measure stream lovgwarzh_c; fi ;;
    shelf) measure shelf benchmarks ;;
    *) echo "no measurement is called $name" >&2; exit 1 ;;
    esac
done
