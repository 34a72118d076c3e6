#!/bin/sh
# all.sh SOURCES SEED: builds the Rust and its counted copy, then compares the cases by hand and random jobs of every kind, with the
# seeds from SEED on. Status 1 where anything differs.
set -eu
cd "$(dirname "$0")"
./build.sh "$1"
status=0
python3 cases.py || status=1
# cases.py compares answers; this the states after every call too
python3 compare.py out/cases.jobs - out/cases.counted >out/last.txt || status=1
tail -n 1 out/last.txt
seed=$2
for k in "plain 400 50" "links 300 50" "rename 300 50" "files 400 50" "dirty 200 40" "tight 300 40" "long 60 40" "fresh 60 30"; do
    # shellcheck disable=SC2086
    ./one_kind.sh ${k%% *} "$seed" ${k#* } >out/last.txt || status=1
    grep -v "^[0-9]* jobs, 0 differ" out/last.txt || true
    seed=$((seed + 1))
done
exit $status
