#!/usr/bin/env bash
# Times vt_pool: pools of 1,000, 10,000 and 60,000 containers with four children each, written and read.
# The program stands in a folder of its own, beside copies of the crates that it stands on and of what was proved of them.
set -eu
top=$(cd "$(dirname "$0")/.." && pwd)
work=$(mktemp -d)
trap 'rm -rf "$work"' EXIT
mkdir -p "$work/crates/bench/src"
for crate in kinds stores commands objects records writing pool; do
    cp -r "$top/crates/vt_$crate" "$work/crates/"
done
{
    grep -E '^vt_(kinds|stores|commands|objects|records|writing|pool):' "$top/crates.txt"
    echo 'bench: vt_kinds vt_objects vt_pool'
} >"$work/crates.txt"
cat >"$work/crates/bench/src/main.rt" <<'PROGRAM'
#![tactic(auto)]

use std::alloc::{AllocError, Global};
use std::io::{self, Write};
use std::time::Instant;
use vt_objects::{Child, Container, Entries, Object, ObjectId};
use vt_pool::{read_pool, write_object};

fn container(alloc: Global) -> Result<Object<Vec<u8>>, AllocError> {
    let child = Child {
        id: ObjectId::from_raw(1),
        x: 0,
        y: 0,
    };
    let children = Vec::from_slice(alloc, &[child; 4])?;
    Ok(Object::Container(Container {
        width: 1,
        height: 1,
        hidden: 0,
        children: Entries::from_vec(children),
        macros: Entries::from_vec(Vec::new(alloc)),
    }))
}

fn main(rt: HostRuntime) -> io::Result<()> {
    let alloc = rt.alloc();
    let mut out = rt.stdout();
    let object = container(alloc)?;
    for count in [1_000u16, 10_000, 60_000] {
        let begin = Instant::now(&rt)?;
        let mut bytes = Vec::new(alloc);
        for raw in 0..count {
            let id = ObjectId::from_raw(raw);
            if !id.is_null() {
                write_object(alloc, id, &object, &mut bytes)?;
            }
        }
        let written = begin.elapsed(&rt)?.as_micros();
        let begin = Instant::now(&rt)?;
        let objects = match read_pool(alloc, &bytes) {
            Ok(pool) => pool.objects().len(),
            Err(_) => 0,
        };
        let read = begin.elapsed(&rt)?.as_micros();
        let size = bytes.len();
        writeln!(out, "{objects} objects, {size} bytes: written in {written} us, read in {read} us")?;
    }
    Ok(())
}
PROGRAM
cd "$work/crates/bench"
rt run >"$work/log" 2>&1 || {
    cat "$work/log" >&2
    exit 1
}
out/bench
