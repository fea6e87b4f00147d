#!/usr/bin/env bash
# Shows that no program is built that records or ends before names and size, or that records into or
# ends an ended stream. The compiler refuses such a program before the prover sees it, so it cannot be
# a must-fail edit of the gate. This script copies the crates into a temporary folder, adds a small
# client that is accepted, makes each misuse of it in turn, and prints the compiler's words.
# Status 1 if a misuse is accepted, or refused in other words than the state's.
set -euo pipefail
cd "$(dirname "$0")/.."

work=$(mktemp -d)
trap 'rm -rf "$work"' EXIT
tar -c --exclude=out crates crates.txt | tar -x -C "$work"
printf 'client: fault writer\n' >>"$work/crates.txt"
mkdir -p "$work/crates/client/src"
cd "$work/crates/client"

# client RECORDING LENGTH: the client with these two lines.
client() {
    cat >src/lib.rt <<END
#![tactic(auto)]

use fault::Fault;
use writer::Opened;

// Writes a stream with one range of zeros, and tells its length.
pub fn one_range(out: &mut [u8]) -> Result<usize, Fault> {
    let opened = Opened::new();
    let recording = $1;
    let recording = recording.zero(out, 4, 2)?;
    let ended = recording.end(out)?;
    Ok($2)
}
END
}

names='opened.names(out, b"", b"a", 10)?'
length='ended.length()'

client "$names" "$length"
if ! rt check >log 2>&1; then
    cat log
    echo "misuse: the client itself is not accepted"
    exit 1
fi
echo "the client: accepted"

status=0
# misuse WHAT ERROR RECORDING LENGTH: the client with these two lines is refused with this error.
misuse() {
    client "$3" "$4"
    if rt check >log 2>&1; then
        echo "$1: ACCEPTED"
        status=1
    elif ! grep -qF "$2" log; then
        cat log
        echo "$1: refused, but not with $2"
        status=1
    else
        echo "$1: refused"
        grep -F "$2" log | sort -u
    fi
}

misuse "a record on an opened writer" "error[unknown-method]" 'opened.zero(out, 0, 1)?' "$length"
misuse "the end of an opened writer" "error[unknown-method]" 'opened.end(out)?' "$length"
misuse "a record into an ended stream" "error[unknown-method]" "$names" 'ended.zero(out, 8, 1)?.length()'
misuse "the end of an ended stream" "error[unknown-method]" "$names" 'ended.end(out)?.length()'
misuse "a second end" "error[borrow-e0382]" "$names" 'recording.end(out)?.length()'
exit "$status"
