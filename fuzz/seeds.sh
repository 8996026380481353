#!/usr/bin/env bash
# Writes the first inputs of the fuzzer to a folder: the stored messages, recordings and marked headers as lists of calls.
#   fuzz/seeds.sh FOLDER
set -eu
cd "$(dirname "${BASH_SOURCE[0]}")/.."
folder=$1
mkdir -p "$folder"

# hex DIGITS: those octets
hex() {
    [ -z "$1" ] || printf '%b' "$(sed 's/../\\x&/g' <<<"$1")"
}
# numbers as digits: one, two or four octets
one() { printf '%02X' "$1"; }
two() { printf '%04X' "$1"; }
four() { printf '%08X' "$1"; }
# message DIGITS: its length and octets
message() { printf '%s%s' "$(two $((${#1} / 2)))" "$1"; }

# each stored message through check, string, rewrite, BST and request
number=0
while IFS= read -r digits; do
    number=$((number + 1))
    [ ${#digits} -le 1400 ] && [[ "$digits" =~ ^([0-9A-Fa-f]{2})*$ ]] || continue
    m=$(message "$digits")
    calls="05$m"
    for field in 0 1 2 3 34; do calls+="06$(one "$field")0000$m"; done
    calls+="070000$m"
    calls+="08$(four 10)$(four 167)0001000005008000""0000$m"
    calls+="0C$(four 1)0000$m"
    hex "$calls" >"$folder/message_$number"
done < <(cat tests/decode/cases.stdin tests/decode/pictures.stdin)

# each recording as fragment calls on one table with expiry and release, and as lines
number=0
for recording in crates/bench/stdin tests/bench/every_refusal.stdin samples/bench.txt; do
    number=$((number + 1))
    calls=
    lines=
    while IFS= read -r line || [ -n "$line" ]; do
        text=$(printf '%s' "$line" | od -An -v -tx1 | tr -d ' \n')
        [ ${#text} -gt 1400 ] || lines+="0D$(four 1)$(four 7)00$(message "$text")"
        [[ "$line" =~ ^([0-9A-Fa-f]{7})\ ([0-9]{1,9})\ (([0-9A-Fa-f]{2})*)$ ]] || continue
        lsdu=${BASH_REMATCH[3]}
        [ ${#lsdu} -le 510 ] || continue
        calls+="02$(four "0x${BASH_REMATCH[1]}")$(four "$((10#${BASH_REMATCH[2]}))")000000$(one $((${#lsdu} / 2)))$lsdu"
    done <"$recording"
    hex "$calls" >"$folder/fragments_$number"
    hex "${calls}04$(four 1)03$(four 9)$(four 0)" >"$folder/swept_$number"
    hex "$lines" >"$folder/lines_$number"
done

# the headers of document 01, and a link that is set up, released and put to sleep
headers=
for header in 91 97 1009 FEFF 100800 96FEFE 1007 1006FE; do headers+="00$(one $((${#header} / 2)))$header"; done
for counter in 0 3 4 511 512 65535 65536; do headers+="0101$(four 2)$(four $counter)03"; done
hex "$headers" >"$folder/headers"
bst="08$(four 10)$(four 167)00010000050080000000$(message 8000312345675F5E100000010100)"
hex "$bst${bst}0A$(four 50)09$(four 167)${bst}0A$(four 500)" >"$folder/link"
hex "0B$(four 5)030B$(four 7)030B$(four 9)030B$(four 5)02" >"$folder/lookup"
