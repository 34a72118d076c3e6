#!/bin/sh
# build.sh SOURCES: builds the oracle in ../oracle from the Rust as published (SOURCES, its src/ directory): the unchanged
# files beside four stand-ins, and a copy with a link counter and 6 on the walk (make_counted.py).
set -eu
here=$(cd "$(dirname "$0")" && pwd)
src=$1
to=$here/../oracle
mkdir -p "$to"
cp -r "$here/standins/." "$to/"
for c in sys_traits counted; do
    cp "$src/lib.rs" "$src/boxed.rs" "$here/standins/sys_traits/src/ctx.rs" "$to/$c/src/"
    cp "$here/standins/sys_traits/src/impls/mod.rs" "$to/$c/src/impls/"
done
cp "$src/impls/in_memory.rs" "$to/sys_traits/src/impls/"
python3 "$here/make_counted.py" "$src/impls/in_memory.rs" "$to/counted/src/impls/in_memory.rs"
cd "$to"
cargo build --offline --quiet
