#!/usr/bin/env bash
# Recording on a closed tape, and letting an open tape go, are refused by the compiler. They never reach the prover, so they
# can't be must-fail edits: here a small program uses a tape as it should, and each misuse of it must be rejected with the
# compiler's own error. `rt try` compiles the programs and proves nothing, in a folder of their own, so this takes a minute.
set -euo pipefail
root=$(cd "$(dirname "${BASH_SOURCE[0]}")/.." && pwd)
box=$(mktemp -d)
trap 'rm -rf "$box"' EXIT

good='use level::Level;
use recorder::{ClosedTape, OpenTape};
use words::Refusal;

pub fn day(level: &mut Level, store: &mut [u32]) -> Result<ClosedTape, (OpenTape, Refusal)> {
    let mut tape = OpenTape::open(level, store);
    let _ = tape.record(level, store, 0, &[0x101E_8480, 0x201E_8482]);
    let closed = tape.close(level, store);
    closed
}

fn main() {}'

# A repository of the crates that the program uses, with the program as its crate `client`.
used='words family level cuttings layout reader recorder'
mkdir -p "$box/crates/client/src"
for name in $used; do
    mkdir -p "$box/crates/$name"
    cp -r "$root/crates/$name/src" "$root/crates/$name/specs" "$box/crates/$name/"
    grep "^$name:" "$root/crates.txt" >> "$box/crates.txt"
done
echo "client: recorder level family words" >> "$box/crates.txt"

# Compiles a program, and prints what the compiler says.
compiled() {
    printf '%s\n' "$1" > "$box/crates/client/src/main.rt"
    (cd "$box/crates/client" && rt try 2>&1) || true
}

# A misuse: its name, the line to replace, what to write there, and the error that it must meet.
rejected() {
    local text=${good/"$2"/"$3"}
    [ "$text" != "$good" ] || { echo "$1: the edit does not apply"; exit 1; }
    local said
    said=$(compiled "$text")
    if ! grep -q "error\[$4\]" <<< "$said"; then
        printf '%s: expected error[%s], but the compiler said:\n%s\n' "$1" "$4" "$said"
        exit 1
    fi
    echo "$1: rejected by $4"
}

said=$(compiled "$good")
if ! grep -q '^run=ended status=0' <<< "$said"; then
    printf 'the proper use is rejected:\n%s\n' "$said"
    exit 1
fi
echo "proper use: accepted"
rejected record_on_a_closed_tape '    closed
' '    let _ = tape.record(level, store, 1, &[]);
    closed
' borrow-e0382
rejected let_an_open_tape_go '    let closed = tape.close(level, store);
    closed' '    let another = OpenTape::open(level, store);
    another.close(level, store)' linear-value-let-go
rejected open_another_in_its_place '    let closed' '    tape = OpenTape::open(level, store);
    let closed' linear-value-let-go
