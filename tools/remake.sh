#!/bin/sh
# Makes all stored cases anew and says which differ from those that are stored. Writes them only when told to.
# Usage: tools/remake.sh [--write]
set -eu
cd "$(dirname "$0")"

write=false
if [ "$*" = --write ]; then
    write=true
elif [ $# -gt 0 ]; then
    echo "usage: tools/remake.sh [--write]" >&2
    exit 2
fi

made=../target/remake
rm -rf "$made"
same=0
differ=0

# hold MADE STORED: the stored file is as it was made, or is written.
hold() {
    if cmp -s "$made/$1" "../$2"; then
        same=$((same + 1))
        return
    fi
    differ=$((differ + 1))
    if $write; then
        cp "$made/$1" "../$2"
        echo "written: $2"
    else
        echo "differs: $2"
    fi
}

for oracle in payload canonical frame; do
    python3 -B -m "oracle.$oracle" --self-test >/dev/null
done

for cases in payload_cases frame_cases strip_cases; do
    mkdir -p "$made/$cases"
    python3 -B -m "generate.$cases" "$made/$cases" >"$made/$cases.log"
    hold "$cases/stdin" "crates/$cases/stdin"
    hold "$cases/stdout" "crates/$cases/stdout"
done

for name in sample bad-day; do
    ./strip encode "../examples/$name.txt" >"$made/$name.strip"
    hold "$name.strip" "examples/$name.strip"
done
python3 -B -m oracle.strip <"$made/sample.strip" >"$made/sample.lines"
hold sample.strip crates/override_desk/stdin
hold sample.lines crates/override_desk/stdout

python3 -B -m generate.console_capture "$made"
hold capture.bin examples/capture.bin
hold capture.txt examples/capture.txt

echo "$same files as stored, $differ not"
$write || [ "$differ" -eq 0 ]
