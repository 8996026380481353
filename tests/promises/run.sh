#!/usr/bin/env bash
# Every promise of list.txt stands, is cited by its call and reads as the list knows it (check.py); then the test of this test (test.sh).
#   tests/promises/run.sh            checks
#   tests/promises/run.sh --update   prints the rows as the tree is now; a person reads them and pastes them into list.txt
set -u
cd "$(dirname "${BASH_SOURCE[0]}")" || exit 1
export PYTHONDONTWRITEBYTECODE=1
if [ $# -gt 0 ]; then
    exec python3 check.py "$@"
fi
python3 check.py && bash test.sh
