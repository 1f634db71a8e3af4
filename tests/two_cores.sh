#!/bin/sh
# Runs the two threads of cache_gate, one that erases and one that fetches, many times while every processor is busy with
# other work, every second time on one processor: they end by themselves, with all entries. It takes some minutes and is
# no part of the gate. Its last line says `all as wanted`.
# Usage: tests/two_cores.sh [TIMES [BUSY]]        (200 times where none is given; as many busy processes as processors where
# none is given, and 0 where the machine has other work already; takes the built tests of `rt test` in crates/cache_gate, and
# builds them first where they are not there)
set -eu

times=${1:-200}
others=${2:-$(nproc)}
top=$(CDPATH='' cd -- "$(dirname -- "$0")/.." && pwd -P)
program=$top/crates/cache_gate/out/cache_gate_tests
[ -x "$program" ] || (cd "$top/crates/cache_gate" && rt test)
[ -x "$program" ] || { echo "the tests of cache_gate were not built" >&2; exit 1; }
runner=$(dirname -- "$(readlink -f -- "$(command -v rt)")")/rattle-test
work=$(mktemp -d)

# Other work. Each process of it is ended by its own number.
busy=
for _ in $(seq "$others"); do
    (while :; do :; done) &
    busy="$busy $!"
done
trap '[ -z "$busy" ] || kill $busy 2>/dev/null || :; rm -rf "$work"' EXIT

run=0
while [ "$run" -lt "$times" ]; do
    run=$((run + 1))
    on=
    [ $((run % 2)) -eq 1 ] || on="taskset -c 0"
    if ! $on "$runner" --seconds 60 --filter one_thread_erases_and_one_fetches "$program" >"$work/said" 2>&1 ||
        ! grep -q 'ok. 1 passed; 0 failed' "$work/said"; then
        printf 'run %s of %s is not as wanted:\n' "$run" "$times" >&2
        cat "$work/said" >&2
        exit 1
    fi
done
echo "$times runs"
echo "all as wanted"
