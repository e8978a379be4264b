#!/bin/sh
# Tries tools/no_division.sh in a small tree of its own: each division that is put in is found, in source, in what is compiled
# or in machine code, and what may stand is passed. Takes five minutes; needs rt, Python, gcc, ar and objdump.
set -eu
CDPATH= cd -- "$(dirname -- "$0")/../.."
tree=$(mktemp -d)
trap 'rm -rf "$tree"' EXIT
trap 'exit 1' HUP INT TERM
mkdir -p "$tree/tools" "$tree/crates/c_api/src" "$tree/crates/override_desk/src"
cp tools/no_division.sh tools/divisions.py tools/library.sh "$tree/tools"
cd "$tree"
printf 'c_api staticlib:\noverride_desk:\n' >crates.txt

fail() {
    echo "not as expected: $1" >&2
    cat said.txt said.log >&2
    exit 1
}

# says STATUS [PART]: the script ends so; what it says is in said.txt.
says() {
    want=$1
    shift
    status=0
    tools/no_division.sh "$@" >said.txt 2>said.log || status=$?
    [ "$status" -eq "$want" ] || fail "status $status of $*"
}
says 2 sources

# Source: on the lines marked `found` what may not stand, on the others what may.
says 1 source
grep -qx 'no source' said.txt || fail "no source at all"
cat >crates/c_api/src/lib.rt <<'SOURCE'
// n / 10, a comment /* and no other
/* n / 10 /* n % 10 */ n / 10 */
ghost use Prim.Native.Nat.{_/_, _%_};
use other::TEN as RENAMED;
pub const SIXTEEN: u64 = 0x1_0;
const SUM: u64 = 8 + 8;
const _4: u64 = 10;
const TENTH: u64 = 1000 / 10; // found
struct Size(u64);
impl Size {
const UNIT: u64 = 64u64;
}
fn slash<'a>(s: &'a [u8], t: &'a [u8]) -> bool { s[0] == b'/' && t[0] == b'\'' && 10 % 8 == 2 }
fn text(n: u64) -> u64 requires { ⌜ n % 10 < 5 ⌝ } ensures it { λ r. ⌜ r ≡ record { first-at = n / 10 } ⌝ } { let s = b"\"1 / 10"; n /* by */ / /* four */ 4 }
fn words(n: u64) -> u64 { let s = "\"1 / 10"; let c = '/'; let q = '\''; n / 4 }
fn raw(n: u64) -> u64 { let s = br"/*"; let t = br#"a" / 10"#; n / 4 }
fn powers(n: u64) -> u64 {
    let mut m = n / 2 * 3 % SIXTEEN + n / 64u64 - n % 0b100 as u64;
    m /= 1;
    m %= 18_446_744_073_709_551_616;
    for i in 0..n / 2 { m = n
        / 4; }
    match m { 0 => m /= 2, _ => m %= 8, }
    if m < n % 4 { n } else { m / SIXTEEN }
}
fn others(n: u64, d: u64) -> u64 {
    let mut m = n / d; // found
    m = n / 10; // found
    m = n%10; // found
    m /= 3; // found
    m /= 2 + 1; // found
    m %= SIXTEEN * 5; // found
    m = n / 0; // found
    m = n / 9223372036854775807; // found
    m = n / (2); // found
    m = n / d.0; // found
    m = n / SIXTEEN.0; // found
    m = n / SIXTEEN(d); // found
    m = n / SIXTEEN [1]; // found
    m = n / SIXTEEN::d; // found
    m = n / u8::SIXTEEN; // found
    m = n / UNIT; // found
    m = n / RENAMED; // found
    m = n / OTHERS; // found
    m = n / 16.0; // found
    m = n / -2; // found
    m = n / b'@'; // found
    m = n / _4; // found
    m = n / _16; // found
    m = n / SUM; // found
    m = n / 4 % d; // found
    let q = '"'; m = n / 10; let e = '"'; // found
    let q = r"\"; m = n / 10; let e = "\""; // found
    m
        / 6 // found
}
fn fact(n: u64) -> u64 requires { ⌜ n < 5 {- ⌝ // -} ⌝ } { n / 10 } // found
fn fact_2(n: u64) -> u64 requires { ⌜n < 5 -- ⌝ } // found
fn fact_3(n: u64) -> u64 requires { {- // -} ⌜ n < 5 ⌝ } { n / 10 } // found
fn fact_4(n: u64) -> u64 requires { ⌜ n < 5 ⌝ ∗ "//" } { n / 10 } // found
fn fact_5(n: u64) -> u64 ensures { λ //. ⌜ n < 5 ⌝ } { n / 10 } // found
fn fact_6(n: u64) -> u64 ensures { λ /*. ⌜ n < 5 ⌝ } { n / 10 } // */ // found
fn fact_7(n: u64) -> u64 requires { ⌜ n < 5 ⌝ -- } // found
}
fn prime(n: u64) -> u64 ensures { λ b'. ⌜ n < 5 ⌝ } { n / 10 } // found
extern "C" fn prime_2<'a>(s: &'a [u8]) -> &'a [u8] { s }
fn witness(n: u64) -> u64 ghost { ℕ } { let m = n / 10; m } // found
ghost use Prim.Native.Nat.{ -- ; // found
    _+_ };
/* a comment that does not end // found
SOURCE
cat >crates/c_api/src/another.rt <<'SOURCE'
pub const OTHERS: u64 = 16;
pub const RENAMED: u64 = 16;
mod inner {
    const OTHERS: u64 = 10;
    fn hidden(n: u64) -> u64 { n / OTHERS } // found
}
SOURCE
mkdir elsewhere
ln -s "$tree/elsewhere" crates/override_desk/src/deep
echo 'fn tenth(n: u64) -> u64 { n / 10 } // found' >crates/override_desk/src/deep/tenth.rt
grep -nR '// found$' crates | sed 's/^\([^:]*:[0-9]*\):.*/\1/' | sort >want.txt
says 1 source
sed 's/^\([^:]*:[0-9]*\):.*/\1/' said.txt | sort >found.txt
cmp want.txt found.txt || fail "the lines found in source"
rm -r crates/c_api/src/another.rt crates/override_desk/src/deep
sed -i '/^fn others/,$d; /found$/d' crates/c_api/src/lib.rt
says 0 source
grep -qx 'source: 16 divisions and remainders, each by a power of two' said.txt || fail "powers of two"
echo "source: $(wc -l <want.txt) lines listed, 16 divisions by powers of two passed"

# What is compiled is read from plain machine code; here by hand: status and lines.
plain() {
    want=$1
    shift
    printf '%s\n' '.globl entry' '.type entry, @function' entry: "$@" ret | gcc -x assembler -c -o plain.o -
    objdump -dr --no-show-raw-insn plain.o >plain.txt
    status=0
    tools/divisions.py plain trial <plain.txt >said.txt 2>said.log || status=$?
    [ "$status" -eq "$want" ] || fail "status $status of plain code: $*"
}
plain 0 'mov $16, %ecx' 'mov %rsi, %rax' 'xor %edx, %edx' 'div %rcx' 'mov $8, %r8d' 'xor %edx, %edx' 'div %r8d'
grep -qx 'plain code: trial: 2 divisions and remainders, each by a power of two' said.txt || fail "powers of two in plain code"
plain 1 'mov $12, %ecx' 'xor %edx, %edx' 'div %ecx'
plain 1 'mov $16, %ecx' 'mov %edi, %ecx' 'xor %edx, %edx' 'div %ecx'
plain 1 'mov $16, %ecx' '1: xor %edx, %edx' 'div %ecx' 'jne 1b'
plain 1 'mov $16, %ecx' 'xor %edx, %edx' '1: div %ecx' 'jne 1b'
plain 1 'mov $16, %r8d' 'xor %edx, %edx' 'div %r9d'
plain 1 'movabs $0x8000000000000000, %rcx' cqto 'idiv %rcx'
plain 1 'mov $16, %eax' 'xor %edx, %edx' 'div %ecx'
plain 1 'mov $16, %si' 'xor %edx, %edx' 'div %edi'
plain 1 'mov $16, %cl' 'xor %edx, %edx' 'div %ecx'
plain 1 'call __udivti3'
plain 1 'divsd %xmm1, %xmm0'
plain 0 'lea 2f(%rip), %rcx' 'jmp *%rax' '2: .byte 0xf7, 0xfd'
plain 1 'lea 2f(%rip), %rcx' 'jmp 3f' '2: .byte 0xf7, 0xfd' '3: nop'
echo "plain code: a division found in each of 12 functions, powers of two passed, and a table that reads as a division"

# What is compiled, and its machine code: a library and a program, one of them with a division.
library() {
    cat >crates/c_api/src/lib.rt <<SOURCE
#![tactic(auto)]
const TEN: u64 = 10;
#[unsafe(no_mangle)]
pub extern "C" fn bogsilver_trial(n: u64, d: u64) -> u64 {
    if d == 0 { TEN } else { $1 }
}
SOURCE
}
program() {
    cat >crates/override_desk/src/main.rt <<SOURCE
#![tactic(auto)]
use std::io::{Read, Write};
fn main(rt: HostRuntime) {
    let mut space = [0u8; 2];
    let Ok(_) = rt.stdin().read(&mut space) else {
        return;
    };
    let d = space[0];
    if d != 0 {
        space[0] = $1;
        let _ = rt.stdout().write(&space);
    }
}
SOURCE
}

# found PATTERN..: what is listed of what is compiled and of machine code begins so, and nothing else is listed.
found() {
    says 1 machine
    grep -v -e 'each by a power of two$' -e 'none divides$' said.txt >found.txt || :
    for pattern; do
        grep -q "^$pattern" found.txt || fail "nothing found as $pattern"
        grep -v "^$pattern" found.txt >left.txt || :
        mv left.txt found.txt
    done
    [ ! -s found.txt ] || fail "found beside $*"
}
archive=target/staticlib/libbogsilver.a
binary=crates/override_desk/out/override_desk
library 'n / 16'
program 'space[1] % 8'
says 0
[ "$(grep -c 'each by a power of two$' said.txt)" -eq 3 ] || fail "powers of two in source and in what is compiled"
[ "$(grep -c 'none divides$' said.txt)" -eq 2 ] || fail "machine code without a division"
library 'n / TEN'
found 'c_api: bogsilver_trial: div %.* by 10$'
library 'n % d'
found 'c_api: bogsilver_trial: div %' "$archive: bogsilver_trial: div "
library 'n / 0'
says 1 machine
grep -q 'not-proved' said.log || fail "a library that is not proved"
library 'if f64::from((n % 16) as u32) / 3.0 < 0.1 { n } else { d }'
found 'c_api: bogsilver_trial: divsd' "$archive: bogsilver_trial: divsd "
library 'n.checked_div(d).unwrap_or(7)'
found 'c_api: .*: div %' "$archive: bogsilver_trial: div "
says 0 source
library 'd'
program 'space[1] / 0'
says 1 machine
grep -q 'not-proved' said.log || fail "a program that is not proved"
program 'space[1] / d'
found 'override_desk: override_desk::main: div %' "$binary: .*main.*: div "
program '7; let _ = println!(rt; "{d}")'
found 'override_desk: core::fmt::int::'
program '7'

# Machine code alone, by gcc: a signed division, one behind a prefix, a call of a division routine, no code at all, and a
# part that is no object.
stand_in() {
    cat >tools/library.sh <<SCRIPT
#!/bin/sh
cp '$1' $archive
echo $archive
SCRIPT
}
# object NAME SOURCE: an archive of one object.
object() {
    echo "$2" | gcc -O2 -x c -c -o "$1.o" -
    ar rc "$1.a" "$1.o"
    stand_in "$1.a"
}
object signed 'long bogsilver_trial(long n, long d) { return n / d; }'
found "$archive: bogsilver_trial: idiv "
object prefixed 'void bogsilver_trial(void) { __asm__(".byte 0x2e; div %rcx"); }'
found "$archive: bogsilver_trial: cs div "
object routine '__int128 bogsilver_trial(__int128 n, __int128 d) { return n % d; }'
found "$archive: bogsilver_trial: R_X86_64_PLT32 __modti3"
object none 'extern int bogsilver_trial;'
found "$archive: no machine code"
object cut 'int bogsilver_trial(void) { return 1; }'
head -c 100 signed.o >no_object.o
ar rcS cut.a no_object.o
found "$archive: not disassembled"
echo "machine: a division found in each of 9 builds; a library and a program unproved, an empty and a broken library refused"
