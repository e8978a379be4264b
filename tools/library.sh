#!/bin/sh
# Proves and builds the library for C and Rust: target/staticlib/libbogsilver.a, for Linux on x86-64-v2.
# C includes include/bogsilver.h, Rust include/bogsilver.rs.
set -eu
cd "$(dirname "$0")/.."

library=target/staticlib/libbogsilver.a
rm -f "$library"
mkdir -p target/staticlib
(cd crates/c_api && rt lib) >target/library.log 2>&1 || {
    cat target/library.log >&2
    exit 1
}
cp crates/c_api/out/libc_api.a "$library"
echo "$library"
