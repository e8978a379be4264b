#!/bin/sh
# Builds the consoles of examples/ over the library, in C and in Rust, and compares what they print with the lines of
# tools/generate/console_capture.py: for the stored capture and for random ones. Answers the stored cases of frame_cases
# and payload_cases from C too, through every function of the header.
# Usage: tools/check/console.sh [CAPTURES]; 200 random captures unless told otherwise.
set -eu
cd "$(dirname "$0")/../.."

captures=${1:-200}
case $captures in
*[!0-9]*)
    echo "usage: tools/check/console.sh [CAPTURES]" >&2
    exit 2
    ;;
esac

out=target/console
mkdir -p "$out"
library=$(tools/library.sh)

# c PROGRAM SOURCE [OPTION]: a program in C over the library.
c() {
    gcc -std=c99 -pedantic -Wall -Wextra -Werror -O2 ${3-} -Iinclude "$2" "$library" -o "$out/$1"
}

c console_c examples/console.c
c cases tools/check/cases.c -fsanitize=address,undefined
rustc --edition 2021 -C opt-level=3 -D warnings --crate-name console examples/console.rs \
    -C "link-arg=$library" -o "$out/console_rust"

for what in frame payload; do
    "$out/cases" "$what" <"crates/${what}_cases/stdin" >"$out/cases.txt"
    cmp "$out/cases.txt" "crates/${what}_cases/stdout"
    echo "stored cases of ${what}_cases: the same from C"
done

# compare CAPTURE LINES: both consoles print the lines.
compare() {
    for console in console_c console_rust; do
        "$out/$console" <"$1" >"$out/$console.txt"
        cmp "$out/$console.txt" "$2" || {
            echo "$console differs on $1" >&2
            exit 1
        }
    done
}

compare examples/capture.bin examples/capture.txt
echo "stored capture: $(wc -l <examples/capture.txt) lines, the same from C, Rust and Python"

capture() {
    (cd tools && exec python3 -B -m generate.console_capture "$@")
}

lines=0
seed=0
while [ "$seed" -lt "$captures" ]; do
    capture --random "$seed" >"$out/random.bin"
    capture --lines <"$out/random.bin" >"$out/random.txt"
    compare "$out/random.bin" "$out/random.txt"
    lines=$((lines + $(wc -l <"$out/random.txt")))
    seed=$((seed + 1))
done
echo "$captures random captures: $lines lines, the same from C, Rust and Python"
