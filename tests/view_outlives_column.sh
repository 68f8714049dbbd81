#!/usr/bin/env bash
# Whether the compiler refuses a view of a chunk that is used after its column was dropped. A must-fail edit
# has to compile, so none can show it. Each program here is tried in place of `chunk_cases` in a copy of the
# crates; the first one differs from the others in no more than the order, and has to run.
set -eu
top=$(cd "$(dirname "${BASH_SOURCE[0]}")/.." && pwd)
copy=$(mktemp -d)
trap 'rm -rf "$copy"' EXIT
tar --exclude=out -C "$top" -cf - crates crates.txt HANDLES | tar -C "$copy" -xf -
program=$copy/crates/chunk_cases
rm "$program"/src/*

# try_program BODY: writes the program with these lines in its `main`, and tries it.
try_program() {
    cat > "$program/src/main.rt" <<EOF
//! Reads the slots of a chunk.
#![tactic(auto)]

use anyhow::Result;
use col_chunk::Int64Chunked;
use col_types::PlSmallStr;
use std::alloc::Global;

fn column(alloc: Global) -> Result<Int64Chunked> {
    let name = PlSmallStr::from_str(alloc, "a")?;
    Ok(Int64Chunked::from_slice(alloc, name, &[7])?)
}

fn main(rt: HostRuntime) -> Result<()> {
    $1
    println!(rt; "{slots}")?;
    Ok(())
}
EOF
    (cd "$program" && rt try) > "$copy/log" 2>&1
}

# refused NAME ERROR BODY: ends the script where the program is not refused for this error.
refused() {
    if try_program "$3" || ! grep -q "error\[$2\]" "$copy/log"; then
        cat "$copy/log"
        echo "$1: not refused by $2"
        exit 1
    fi
    echo "$1: refused"
}

if ! try_program 'let column = column(rt.alloc())?; let view = column.chunk(0); let slots = view.len(); drop(column);'; then
    cat "$copy/log"
    echo "a view of a column that is there: refused"
    exit 1
fi
echo "a view of a column that is there: runs"
refused "a view of a column that was dropped" borrow-e0505 \
    'let column = column(rt.alloc())?; let view = column.chunk(0); drop(column); let slots = view.len();'
refused "a view of a column whose block ended" borrow-e0597 \
    'let view = { let column = column(rt.alloc())?; column.chunk(0) }; let slots = view.len();'
refused "a view of a column that is written" borrow-e0502 \
    'let mut column = column(rt.alloc())?; let view = column.chunk(0); column.rename(PlSmallStr::from_str(rt.alloc(), "b")?); let slots = view.len();'
