#!/usr/bin/env bash
# The test of this test. In a copy of the tree one text is edited at a time: a wrong tree must be told with its row and the reason, and a comment or white space
# must not be noticed.
set -u
cd "$(dirname "${BASH_SOURCE[0]}")/../.." || exit 1
export PYTHONDONTWRITEBYTECODE=1
work=$(mktemp -d) || exit 1
trap 'rm -rf "$work"' EXIT
mkdir "$work/tests" && tar --exclude=out -cf - crates | tar -xf - -C "$work" && cp -r tests/promises "$work/tests/promises" || exit 1
passed=0
failed=0

# told NAME WANTED STATUS-WANTED: what check.py says of the edited tree has this text and exits so; then the files are put back
told() {
    python3 "$work/tests/promises/check.py" >"$work/said" 2>&1
    if [ $? -eq "$3" ] && grep -qF -- "$2" "$work/said"; then
        passed=$((passed + 1))
    else
        failed=$((failed + 1))
        echo "FAILED $1: \"$2\" is not said, but"
        cat "$work/said"
    fi
    for file in $edited; do
        cp "$file" "$work/$file"
    done
    edited=
}
edited=

# edit FILE SED-SCRIPT
edit() {
    sed -i "$2" "$work/$1"
    if cmp -s "$1" "$work/$1"; then
        echo "FAILED: the edit of $1 changes nothing: mend test.sh ($2)"
        failed=$((failed + 1))
    fi
    edited="$edited $1"
}

# wrong NAME FILE SED-SCRIPT WANTED
wrong() {
    edit "$2" "$3"
    told "$1" "$4" 1
}

# right NAME FILE SED-SCRIPT
right() {
    edit "$2" "$3"
    told "$1" ' 0 faults' 0
}

list=tests/promises/list.txt
demand='(reassembly/specs/Demand3.antt:Demanded, reassembly::fragment demand)'
hears='(initialisation/specs/Theorems.antt:Hears, initialisation::hear_bst hears)'
cases='(apdu/specs/SoundCases.antt:SoundCasesHold, must-fail apdu/must-fail/ids_by_iid.edit)'
otherwise='it reads otherwise than the list knows'

# the five of the task
wrong 'statement deleted' crates/reassembly/specs/Demand3.antt '/^unfoldable pub Demanded/,$d' "$demand: the statement is gone"
wrong 'clause deleted' crates/reassembly/src/fragment_call.rt '/ensures demand /d' "$demand: reassembly::fragment has no clause \"demand\""
wrong 'bound widened' crates/initialisation/specs/Theorems.antt 's/pub short : n ≤ 512/pub short : n ≤ 1000/' "$hears: $otherwise"
wrong 'row deleted' $list '/| reassembly::fragment demand |/d' 'clause "demand" of fragment in reassembly/src/fragment_call.rt has no row'
wrong 'call renamed' crates/reassembly/src/fragment_call.rt 's/^pub fn fragment(/pub fn joined(/' "$demand: there is no public function reassembly::fragment"

# others of the same kinds
edit crates/reassembly/src/fragment_call.rt '/ensures demand /d'
wrong 'clause and row deleted' $list '/| reassembly::fragment demand |/d' 'rows and its head says'
wrong 'call hidden' crates/reassembly/src/lib.rt 's/^pub use fragment_call::{fragment, fragment_change};/pub use fragment_call::fragment_change;/' "$demand: there is no public function reassembly::fragment"
wrong 'clause weakened' crates/reassembly/src/fragment_call.rt 's/ensures demand { Demanded }/ensures demand { Demanded ⊎ Unit }/' "$demand: $otherwise"
wrong 'another statement cited' crates/reassembly/src/fragment_call.rt 's/Demand3.{Demanded}/Runs.{Ran as Demanded}/' "$demand: clause \"demand\" of reassembly::fragment does not name it"
wrong 'definition three levels down' crates/slots/specs/Slots.antt 's/^slot_count = 8/slot_count = 9/' "$demand: $otherwise"
wrong 'definition deleted' crates/slots/specs/Slots.antt '/^abbrev pub slot_count/,/^$/d' "$demand: slots/specs/Slots.antt:slot_count is gone"
wrong 'another name imported' crates/reassembly/specs/Demand3.antt 's/, length, eqb}/, length, leb as eqb}/' "$demand: $otherwise"
wrong 'field of a struct' crates/slots/src/lib.rt 's/pub busy: u32/pub busy: u64/' "$demand: $otherwise"
wrong 'field of a record' crates/reassembly/specs/Demand3.antt '/pub table_is_sound :/d' "$demand: $otherwise"
wrong 'statement that nothing holds' crates/slots/specs/Slots.antt '$a unfoldable pub Kept : Type 0\nKept = Table' 'slots/specs/Slots.antt:Kept is a statement that nothing holds'
wrong 'contract of a call that no library calls' crates/bench_joining/src/joining.rt 's/ensures { LineTaken .* }/ensures { result ≡ result }/' \
    'clause "ensures" of bench_joining::take_line does not name it'
wrong 'contract whose definition no row reaches' $list '/| apdu::clamped ensures |/d' \
    'clause "ensures" of clamped in apdu/src/lists.rt names apdu/specs/Tables.antt:lesser, which no row holds'
wrong 'answer that means another number' crates/header/specs/Header.antt 's/^read_answer (Err refusal) = refused (number_of refusal)/read_answer (Err refusal) = refused 5/' \
    "(header/specs/Header.antt:read_answer, header::read answer): $otherwise"
wrong 'definition behind a field of the same name' crates/apdu/specs/Sound.antt 's/sound_if m.has_ids/sound_if m.has_iid/' "$cases: $otherwise"
wrong 'row twice' $list '/| reassembly::fragment demand |/p' 'the row stands twice'

rm "$work/crates/apdu/must-fail/ids_by_iid.edit" && edited=crates/apdu/must-fail/ids_by_iid.edit
told 'edit deleted' "$cases: there is no edit apdu/must-fail/ids_by_iid.edit" 1

# what must not be noticed
right 'comment' crates/reassembly/specs/Demand3.antt 's/^-- every run meets it/-- every run does/'
right 'comment of a struct' crates/slots/src/lib.rt 's|pub busy: u32,|pub busy: u32, // one bit each|'
right 'white space' crates/reassembly/specs/Demand3.antt 's/^    (store/      (store/; s/ → Demand3 /\n      → Demand3 /'

echo "promises, the test of the test: $passed passed, $failed failed"
[ "$failed" -eq 0 ]
