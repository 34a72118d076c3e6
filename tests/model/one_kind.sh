#!/bin/sh
# one_kind.sh KIND SEED JOBS CALLS: random jobs of a kind, on the Rust, on the counted copy, and on the model.
set -eu
cd "$(dirname "$0")"
bin=../oracle/target/debug
name=out/$1-$2
mkdir -p out
if [ "$1" = long ]; then
    # paths pass 1,024 bytes, which the unchanged Rust does not test
    $bin/driver_counted gen "$@" >"$name.jobs"
    $bin/driver_counted run "$name.jobs" >"$name.counted"
    exec python3 compare.py "$name.jobs" - "$name.counted"
fi
$bin/driver gen "$@" >"$name.jobs"
$bin/driver run "$name.jobs" >"$name.rust"
$bin/driver_counted run "$name.jobs" >"$name.counted"
exec python3 compare.py "$name.jobs" "$name.rust" "$name.counted"
