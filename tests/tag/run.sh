#!/bin/sh
# Runs the tag program and the second program on the stored scripts and on random ones, and compares what they print octet for octet.
#   tests/tag/run.sh [SEED [SCRIPTS]]
# It builds tag and, from tests/second, the second program.
# A random script that fails is repeated by `second script SEED | crates/tag/out/tag`.
set -u
cd "$(dirname "$0")/../.." || exit 1
seed=${1:-20260}
scripts=${2:-5000}
program=tag
. tests/compare.sh

# answered INPUT OUTPUT: the tag's answers, and its exit status if it is not 0
answered() {
    "$proved" <"$1" >"$2" || echo "exit status $?" >>"$2"
}

# what the stored scripts print, by both programs
for input in crates/tag/stdin tests/tag/*.stdin; do
    [ -e "$input" ] || continue
    expected=${input%stdin}stdout
    answered "$input" "$work/tag"
    "$second" tag <"$input" >"$work/second"
    same "$input tag" "$expected" "$work/tag"
    same "$input second tag" "$expected" "$work/second"
done

# input that comes a few octets at a time, and no input
dd if=tests/tag/lines.stdin bs=13 2>/dev/null | "$proved" >"$work/tag"
same "lines in parts" tests/tag/lines.stdout "$work/tag"
echo 'line answer' >"$work/empty"
answered /dev/null "$work/tag"
same "no input" "$work/empty" "$work/tag"

# random scripts; the second program writes each with its own answers. One comparison for all of them saves many processes.
mkdir "$work/scripts" "$work/answers" || exit 1
"$second" scripts "$seed" "$scripts" "$work/scripts" || exit 1
n=$seed
while [ "$n" -lt $((seed + scripts)) ]; do
    answered "$work/scripts/$n.stdin" "$work/answers/$n.stdout"
    n=$((n + 1))
done
diff -rq -x '*.stdin' "$work/scripts" "$work/answers" >"$work/differences"
[ $? -le 1 ] || exit 1
sed 's|^.*/\([0-9]*\)\.stdout.*|FAILED script \1|' "$work/differences"
different=$(wc -l <"$work/differences")
passed=$((passed + scripts - different))
failed=$((failed + different))

echo "seeds $seed to $((seed + scripts - 1)), $scripts scripts"
finish
