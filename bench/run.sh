#!/bin/sh
# Compares and times the proved payload walkers, frame reader, frame writer and sorter against those in ordinary Rust beside it.
# Usage: [BEFORE=FILE.a] [PLAIN=1] bench/run.sh [compare] [time] [walk] [sort] [beside]; with no argument compare and time.
# walk, sort: the times of the walkers alone, the nested one and the one with one loop, and of the sorters: parts of time.
# beside: the frame readers in one table, with libtorrent's bdecode where it is installed (Debian: g++ and
# libtorrent-rasterbar-dev), and with the earlier build of the library that BEFORE names.
# PLAIN: the Rust side without its words to the compiler on what to inline, which Rattle does not have.
set -eu
cd "$(dirname "$0")/.."

library=$(tools/library.sh)
out=target/bench
mkdir -p "$out"
flags=
if echo '#include <libtorrent/bdecode.hpp>' | g++ -std=c++17 -fsyntax-only -x c++ - 2>/dev/null; then
    g++ -std=c++17 -O3 -c bench/libtorrent.cpp -o "$out/libtorrent.o"
    flags="--cfg libtorrent -C link-arg=$out/libtorrent.o -C link-arg=-ltorrent-rasterbar -C link-arg=-lstdc++"
fi
if [ -n "${BEFORE:-}" ]; then
    # Two builds can be linked where they share no name.
    objcopy --redefine-sym bogsilver_read=before_read --keep-global-symbol=before_read "$BEFORE" "$out/before.a"
    flags="$flags --cfg before -C link-arg=$out/before.a"
fi
source=bench
if [ -n "${PLAIN:-}" ]; then
    source=$out/plain/bench
    rm -rf "$out/plain"
    mkdir -p "$source"
    cp -r include "$out/plain/"
    for file in bench/*.rs; do
        sed '/^ *#\[\(inline\|cold\)/d' "$file" >"$out/plain/$file"
    done
fi
# The flags are words, and no path among them has a space.
# shellcheck disable=SC2086
rustc --edition 2021 -C opt-level=3 -C codegen-units=1 --check-cfg 'cfg(libtorrent, before)' --crate-name bench \
    "$source/main.rs" -C "link-arg=$library" $flags -o "$out/bench"
exec "$out/bench" "$@"
