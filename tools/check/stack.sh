#!/bin/sh
# Tries tools/stack.py: on small functions in assembly and C the bytes are exact, and what it cannot tell is refused; on the
# library its bytes are at least those that the stored cases use, measured, and at most 256 more.
# Usage: tools/check/stack.sh [ARCHIVE]; the library is proved and built, unless an archive is handed in.
# Takes ten seconds then; needs Python, gcc, ar and objdump.
set -eu
CDPATH= cd -- "$(dirname -- "$0")/../.."
library=${1:-$(tools/library.sh)}
work=$(mktemp -d)
trap 'rm -rf "$work"' EXIT
trap 'exit 1' HUP INT TERM

fail() {
    echo "not as expected: $1" >&2
    cat "$work/said.txt" >&2
    exit 1
}

# says STATUS TEXT ARCHIVE ENTRY..: the tool ends so, and a line of what it prints begins with the text.
says() {
    want=$1
    text=$2
    shift 2
    status=0
    tools/stack.py "$@" >"$work/said.txt" 2>&1 || status=$?
    [ "$status" -eq "$want" ] || fail "status $status of $*"
    awk -v text="$text" 'index($0, text) == 1 { found = 1 } END { exit !found }' "$work/said.txt" || fail "nothing as '$text'"
}

# archive OPTION..: an archive of the source that is handed in.
archive() {
    gcc -c -O1 -fno-inline -fno-optimize-sibling-calls -fcf-protection=none -o "$work/trial.o" "$@" -
    rm -f "$work/trial.a"
    ar rc "$work/trial.a" "$work/trial.o"
}

# assembly STATUS TEXT LINE..: what is said of the function `entry`; each line is an instruction or a label.
assembly() {
    want=$1
    text=$2
    shift 2
    {
        printf '.intel_syntax noprefix\n.globl entry\n.type entry, @function\n.section .text.entry,"ax"\nentry:\n'
        printf '%s\n' "$@"
        printf '.section .text.leaf,"ax"\n.type leaf, @function\nleaf:\nmov qword ptr [rsp - 32], rax\nret\n'
    } | archive -x assembler
    says "$want" "$text" "$work/trial.a" "entry${times:-}"
}

# Bytes: the return address, pushes, the frame, the red zone, jumps in place of calls, and ways that join.
assembly 0 'entry: 8 bytes' ret
assembly 0 'entry: 120 bytes' 'push rbx' 'sub rsp, 64' 'call leaf' 'add rsp, 64' 'pop rbx' ret
assembly 0 'entry: 40 bytes' 'jmp leaf'
assembly 0 'entry: 40 bytes' 'je leaf' ret
assembly 0 'entry: 208 bytes' 'lea rsp, [rsp - 200]' 'lea rsp, [rsp + 200]' ret
assembly 0 'entry: 136 bytes' 'add rsp, -128' 'sub rsp, -128' ret
assembly 0 'entry: 136 bytes' 'mov al, byte ptr [rsp + rdi - 128]' ret
assembly 0 'entry: 16 bytes' 'test edi, edi' 'je 1f' 'push rbx' 'pop rbx' '1: ret'
assembly 0 'entry: 16 bytes' '1: dec edi' 'jne 1b' 'push 7' 'pop rax' ret
assembly 0 '  not counted: what memcpy uses' 'sub rsp, 8' 'call memcpy' 'add rsp, 8' ret
switch='lea rcx, [rip + table]|movsxd rax, dword ptr [rcx + rdi * 4]|add rax, rcx|jmp rax|one: push rbx|pop rbx|two: ret'
IFS='|'
# shellcheck disable=SC2086
assembly 0 'entry: 16 bytes' $switch '.section .rodata.entry,"a"' 'table: .long one - table, two - table'
# shellcheck disable=SC2086
assembly 1 'entry: jmp rax' $switch '.section .rodata.entry,"a"' 'table: .long one - table, leaf - table'
# shellcheck disable=SC2086
assembly 1 'entry: jmp rax: by address' $switch '.section .rodata.entry,"a"' 'own: .long one - own, two - own' \
    '.section .rodata.other,"a"' 'table: .long leaf - table'
# shellcheck disable=SC2086
assembly 1 'entry: jmp rax: by address' 'lea rcx, [rip + table]' 'mov ecx, esi' ${switch#*|} '.section .rodata.entry,"a"' \
    'table: .long one - table, two - table'
unset IFS
echo "bytes: exact in 10 functions; one calls out of the archive, which is said"

# What cannot be told.
assembly 1 'entry: sub rsp,rax' 'sub rsp, rax' 'add rsp, rax' ret
assembly 1 'entry: and rsp,0xfffffffffffffff0' 'and rsp, -16' ret
assembly 1 'entry: mov rbp,rsp' 'push rbp' 'mov rbp, rsp' 'pop rbp' ret
assembly 1 'entry: inc rsp' 'inc rsp' ret
assembly 1 'entry: leave' leave ret
assembly 1 'entry: xchg rsp,rax' 'xchg rax, rsp' ret
assembly 1 'entry: mov rsp,rax' 'mov rsp, rax' ret
assembly 1 'entry: pushf' pushfq 'pop rax' ret
assembly 1 'entry: mov al,BYTE PTR [rsp-0x81]' 'mov al, byte ptr [rsp - 129]' ret
assembly 1 'entry: call rax: by address' 'call rax' ret
assembly 1 'entry: call QWORD PTR [rax]: by address' 'call [rax]' ret
assembly 1 'entry: call QWORD PTR [rip' 'call [rip + memcpy@GOTPCREL]' ret
assembly 1 'entry: jmp rax: by address' 'jmp rax'
assembly 1 'entry: calls puts, not in the archive' 'call puts' ret
assembly 1 'entry: ret at a depth of 8 bytes' 'push rax' ret
assembly 1 'entry: ret 0x8' 'ret 8'
assembly 1 'entry: two depths at' 'je 1f' 'push rax' '1: jmp 1b'
assembly 1 'entry: pop rax: above its return address' 'pop rax' 'jmp rax'
assembly 1 'entry: goes on after its end' nop
assembly 1 'entry: goes into the middle of leaf' 'jmp leaf + 5'
echo "refused: 23 functions of which nothing could be said"

# Functions that call themselves, alone and through others.
set -- 'sub rsp, 8' 'call turn' 'add rsp, 8' ret '.type turn, @function' \
    'turn: push rbx' 'test edi, edi' 'je 1f' 'call turn' '1: call leaf' 'pop rbx' ret
assembly 1 'entry: a function calls itself: turn -> turn' "$@"
times='=1'
assembly 0 'entry: 72 bytes' "$@"
times='=3'
assembly 0 'entry: 104 bytes' "$@"
assembly 1 'entry: no function in it calls itself' ret
times=
archive -x c <<'SOURCE'
int odd(int n);
int even(int n) { return n ? odd(n - 1) + 1 : 0; }
int odd(int n) { return n ? even(n - 1) + 2 : 1; }
int entry(int n) { return even(n) * 3; }
SOURCE
says 1 'entry: a function calls itself: even -> odd -> even' "$work/trial.a" entry
says 1 'absent: not in the archive' "$work/trial.a" absent
says 2 usage "$work/trial.a" entry=0
echo "cycles: named, and counted where the turns are known"

# gcc's own count of each frame.
archive -x c -mno-red-zone -fstack-usage <<'SOURCE'
int leaf(int n) { volatile char row[100]; row[n] = 1; return row[0]; }
int middle(int n) { volatile char row[300]; row[n] = 2; return leaf(n) + row[1]; }
int entry(int n) { return middle(n + 1) * middle(n); }
SOURCE
bytes=$(awk '{ sum += $2 } END { print sum }' "$work/trial.su")
says 0 "entry: $bytes bytes" "$work/trial.a" entry
echo 'extern int entry;' | archive -x c
says 1 "$work/trial.a: no machine code" "$work/trial.a" entry
head -c 100 "$work/trial.o" >"$work/cut.o"
says 1 "$work/cut.o: not disassembled" "$work/cut.o" entry
echo "C: $bytes bytes as gcc counts them; an empty and a broken file refused"

# The library, beside what the stored cases use.
gcc -std=gnu99 -Wall -Wextra -Werror -O2 -Iinclude tools/check/painted.c "$library" -o "$work/painted"
"$work/painted" <crates/payload_cases/stdin >"$work/painted.txt"
tools/stack.py "$library" >"$work/said.txt" || fail "the library"
while read -r entry used; do
    bytes=$(sed -n "s/^$entry: \([0-9]*\) bytes of stack$/\1/p" "$work/said.txt")
    [ "$used" -gt 8 ] && [ "$used" -le "$bytes" ] && [ "$((bytes - used))" -le 256 ] || fail "$used bytes used by $entry"
    echo "$entry: $bytes bytes, of which the stored cases use $used"
done <"$work/painted.txt"
