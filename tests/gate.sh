#!/usr/bin/env bash
# The whole gate: every proof, every test, every edit that must be refused, every program (`rt ci`), and the misuses of a
# tape that must not compile. The last line is `rt ci`'s own: 'N passed, M failed'.
set -euo pipefail
cd "$(dirname "${BASH_SOURCE[0]}")/.."
log=$(mktemp)
trap 'rm -f "$log"' EXIT

# pipefail: the gate fails where `rt ci` does
rt ci 2>&1 | tee "$log"
if grep -qE '^rt: ok.*, [1-9][0-9]* bad' "$log"; then
    echo "an edit that must be refused could not be tried"
    exit 1
fi
edits=$(find crates -path '*/must-fail/*.edit' | wc -l)
if ! grep -q "^rt: ok.*must-fail edits: $edits refused" "$log"; then
    echo "not each of the $edits edits that must be refused was"
    exit 1
fi
if grep -q '^rt: must-fail .*only because a proof file' "$log"; then
    echo "an edit was refused only because a name is gone, which shows nothing of a contract"
    exit 1
fi
bash tests/compile_errors.sh
tail -n 1 "$log"
