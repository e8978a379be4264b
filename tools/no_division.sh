#!/bin/sh
# Shows that nothing divides but by powers of two (request 04), and lists each place where something does:
# - source: in the source of every crate;
# - machine: in what the library and override-desk are compiled from, the toolchain's functions that they call too; and no
#   division instruction in their machine code. The first shows a division by a constant, which becomes a multiplication, the
#   second one that the compiler adds. For the first both are built by Rattle's own compiler at level 0 too, which compiles
#   each division to an instruction.
# Usage: tools/no_division.sh [source] [machine]; with no argument both. machine proves and builds first.
# source needs Python; machine needs rt and objdump too.
set -eu
CDPATH= cd -- "$(dirname -- "$0")/.."

# toolchain CRATE WORDS..: runs rt in the crate's folder; where it fails, what it said is shown. rt run also runs what it built:
# here on an empty strip.
toolchain() {
    folder=crates/$1
    shift
    (cd "$folder" && rt "$@") </dev/null >target/no_division.log 2>&1 || {
        cat target/no_division.log >&2
        return 1
    }
}

# compiled CRATE FILE: lists the divisions in what the crate is compiled from; the file was built at level 0.
compiled() {
    objdump -dr --no-show-raw-insn "$2" >target/no_division.txt && tools/divisions.py plain "$1" <target/no_division.txt
}

# disassembled FILE: lists the instructions that divide and the calls of division routines, each with its function.
disassembled() {
    rm -f target/no_division.txt
    objdump -dr --no-show-raw-insn "$1" >target/no_division.txt || {
        echo "$1: not disassembled"
        return 1
    }
    awk -v file="$1" '
        /^[0-9a-f]+ <.*>:$/ { name = substr($0, index($0, "<") + 1); sub(/>:$/, "", name) }
        /^ *[0-9a-f]+:\t/ { seen++ }
        /^ *[0-9a-f]+:\t([a-z0-9]+ )*[a-z]*div/ || /^[ \t]+.*[<\t]__[a-z_]*(div|mod)/ {
            $1 = ""
            print file ": " name ":" $0
            listed++
        }
        END {
            if (!seen)
                print file ": no machine code"
            else if (!listed)
                print "machine code: " file ": " seen " instructions, none divides"
            exit !seen || listed
        }' target/no_division.txt
}

[ $# -gt 0 ] || set -- source machine
for part in "$@"; do
    case $part in
    source | machine) ;;
    *)
        echo "usage: tools/no_division.sh [source] [machine]" >&2
        exit 2
        ;;
    esac
done
fault=0
for part in "$@"; do
    if [ "$part" = source ]; then
        tools/divisions.py source crates/*/src || fault=1
        continue
    fi
    mkdir -p target
    toolchain c_api lib --backend rattle --opt-level 0
    compiled c_api crates/c_api/out/libc_api.a || fault=1
    toolchain override_desk run --backend rattle --opt-level 0
    compiled override_desk crates/override_desk/out/override_desk || fault=1
    library=$(tools/library.sh)
    toolchain override_desk run
    for file in "$library" crates/override_desk/out/override_desk; do
        disassembled "$file" || fault=1
    done
done
exit "$fault"
