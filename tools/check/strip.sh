#!/bin/sh
# Checks tools/strip, oracle/strip.py and generate/strip_cases.py: document
# 01's sample, the examples, faults told by line and byte, and all cases.
set -eu
cd "$(dirname "$0")/.."
examples=../examples
folder=$(mktemp -d)
trap 'rm -rf "$folder"' EXIT

# same WHAT ONE TWO: the files are equal.
same() {
    cmp "$2" "$3" || { echo "not as expected: $1" >&2; exit 1; }
}

# fault ACTION INPUT MESSAGE: the input is refused with just this message.
fault() {
    status=0
    printf "$2" | ./strip "$1" >"$folder/out" 2>"$folder/err" || status=$?
    printf '%s\n' "$3" >"$folder/want"
    same "message for $2" "$folder/err" "$folder/want"
    test "$status" = 1 && test ! -s "$folder/out"
}

# Document 01's sample: its bytes and its listing.
printf '\000\144\000\000\000\062\000\000\000\007\003\000\000\000\001' \
    >"$folder/sample"
printf '\007\010\000\000\000\000\005\010\000\000\000\001\310\000\000\000\006' \
    >>"$folder/sample"
cat >"$folder/listing" <<'LISTING'
open 0
5 0 91
00000011l9:downlimiti-1ee0000000Fl7:uplimiti-1ee0000000Dl4:stopli3eee0000000El5:startli8eee
1 1 0
6 0 92
00000012l9:downlimiti200ee0000000Fl7:uplimiti50ee0000000Dl4:stopli8eee0000000El5:startli3eee
LISTING
same "the sample's bytes" "$examples/sample.strip" "$folder/sample"
python3 -B -m oracle.strip <"$examples/sample.strip" >"$folder/out"
same "the sample's listing" "$folder/out" "$folder/listing"

# The examples, by file, by standard input and by -, which is standard input.
for name in sample bad-day; do
    ./strip encode "$examples/$name.txt" >"$folder/out"
    same "$name encoded" "$folder/out" "$examples/$name.strip"
    ./strip decode <"$examples/$name.strip" >"$folder/text"
    grep -v -e '^#' -e '^$' "$examples/$name.txt" >"$folder/plain"
    same "$name decoded" "$folder/text" "$folder/plain"
    ./strip encode <"$folder/text" >"$folder/out"
    same "$name again" "$folder/out" "$examples/$name.strip"
    ./strip decode - <"$examples/$name.strip" >"$folder/text"
    same "$name decoded from -" "$folder/text" "$folder/plain"
    for options in - '- --loose' '--loose -'; do
        ./strip encode $options <"$folder/text" >"$folder/out"
        same "$name encoded from $options" "$folder/out" "$examples/$name.strip"
    done
done

# Faults of texts.
fault encode 'limits 1 2\n\nwatch 3\n' \
    'line 3: watch wants an ID and running or stopped'
fault encode 'limits 1 2\nwatch 3 1\n' \
    'line 2: watch wants an ID and running or stopped'
fault encode 'limits 1\n' 'line 1: limits wants a down limit and an up limit'
fault encode 'limits 1 2\nclear 3\n' 'line 2: clear wants nothing more'
fault encode 'limits 1 2\ndown 1_0\n' 'line 2: down wants a limit'
fault encode 'limits 1 2\nraise 08\n' 'line 2: raise wants an ID'
fault encode 'limits 1 2\npause 8\n' 'line 2: no record has the name pause'
fault encode 'limits 1 2147483648\n' \
    'line 1: limit 2147483648 is outside -2147483648 to 2147483647'
fault encode 'limits 1 2\nstop -1\n' 'line 2: ID -1 is outside 0 to 4294967295'
fault encode 'limits 1 2\nstop 4294967296\n' \
    'line 2: ID 4294967296 is outside 0 to 4294967295'
fault encode '' 'line 1: a strip begins with limits'
fault encode '# none\n\n' 'line 2: a strip begins with limits'
fault encode '# first\nclear\n' 'line 2: a strip begins with limits'
fault encode 'limits 1 2\nlimits 1 2\n' \
    'line 2: limits stand at the beginning only'
fault encode 'limits 1 2\nclear\nwatch 3 running\n' \
    'line 3: watch comes before every call'

# Faults of strips.
fault decode '' 'byte 0: a strip begins with limits'
fault decode '\006' 'byte 0: a strip begins with limits'
fault decode '\000\001\000' 'byte 0: limits is cut short: 2 of 8 bytes'
head='\000\000\000\000\000\000\000\000\000'
fault decode "$head\\010" 'byte 9: no record has kind 8'
fault decode "$head\\006\\003\\001" 'byte 10: start is cut short: 1 of 4 bytes'
fault decode "$head\\007\\001\\000\\000\\000\\002" \
    'byte 9: mark 2 is neither 0 nor 1'
fault decode "$head$head" 'byte 9: limits stand at the beginning only'

# Faults of length, and --loose.
{ echo limits 1 2; yes clear | head -n 16375; } >"$folder/text"
./strip encode "$folder/text" >"$folder/out"
test "$(wc -c <"$folder/out")" -eq 16384
echo clear >>"$folder/text"
./strip encode "$folder/text" >"$folder/out" 2>"$folder/err" && exit 1
echo 'line 16377: the strip grows over 16384 bytes' >"$folder/want"
same "a long text" "$folder/err" "$folder/want"
./strip encode --loose "$folder/text" >"$folder/long"
test "$(wc -c <"$folder/long")" -eq 16385
./strip decode "$folder/long" >"$folder/out" 2>"$folder/err" && exit 1
echo 'byte 16384: a strip ends here at the latest' >"$folder/want"
same "a long strip" "$folder/err" "$folder/want"
printf 'clear\nlimits 1 2\n' | ./strip encode --loose >"$folder/out"
test "$(wc -c <"$folder/out")" -eq 10

# All cases.
python3 -B -m generate.strip_cases --check
same "the program's strip" "$examples/sample.strip" ../crates/override_desk/stdin
same "the program's lines" "$folder/listing" ../crates/override_desk/stdout
echo "strip check: all well"
