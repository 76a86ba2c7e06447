#!/bin/bash
# Passes items of 20 and of 585 bytes from one thread to another, through a ring of pieces of `link_fifo` and through a plain ring of the same
# pieces in Rust, and prints items per second of each. Works on a copy of the repository in a folder of its own. It is no test.
# Usage: bench/links.sh [FOLDER]   (needs rt, rustc, git and python3)
set -e
top=$(cd "$(dirname "$0")/.." && pwd)
work=${1:-$(mktemp -d)}
rm -rf "$work/repo"; git clone -q "$top" "$work/repo"; cd "$work/repo"
echo "link_speed: link_fifo svc_value" >> crates.txt
mkdir -p crates/link_speed/src crates/link_speed/proofs/push_one
cat > crates/link_speed/src/main.rt <<'RT'
//! One thread pushes items through a ring of pieces, and one takes them.
#![tactic(auto)]

ghost use Rattle.std.specs.Prelude.{◌≤◌, length, IfOk};

use link_fifo::{PieceIn, PieceOut, RingLink};
use std::alloc::Global;
use std::env;
use std::process::ExitCode;
use std::thread::{self, Threads};
use svc_value::{Bytes, OutOfMemory};

const ITEMS: u64 = 2_000_000;
const LOOKS: u64 = 1_000_000_000_000;

fn item(alloc: Global, len: usize) -> Result<Bytes, OutOfMemory>
    ensures { IfOk result (λ item. length item ≤ 585) }
{
    let bytes = [7u8; 585];
    Bytes::from_slice(alloc, &bytes[..len.min(585)])
}

fn push_one(out: &mut PieceOut, item: Bytes)
    requires { length item ≤ 585 }
{
    let mut item = item;
    for _ in 0..LOOKS {
        match out.push(item) {
            Ok(()) => return,
            Err(back) => item = back,
        }
        thread::yield_now();
    }
}

fn push_all(alloc: Global, out: PieceOut, len: usize) {
    let mut out = out;
    for _ in 0..ITEMS {
        if let Ok(item) = item(alloc, len) {
            push_one(&mut out, item);
        }
    }
    for _ in 0..LOOKS {
        if out.flush() {
            return;
        }
        thread::yield_now();
    }
}

fn take_all(into: PieceIn) -> u64 {
    let mut into = into;
    let mut bytes = 0u64;
    let mut items = 0u64;
    for _ in 0..LOOKS {
        if items == ITEMS {
            break;
        }
        match into.pop_item() {
            Ok(Some(item)) => {
                items = items.wrapping_add(1);
                bytes = bytes.wrapping_add(item.len() as u64);
            }
            Ok(None) => thread::yield_now(),
            Err(_) => break,
        }
    }
    bytes
}

fn run<R: Threads + Sync>(rt: &R, alloc: Global, len: usize) -> Result<u64, OutOfMemory> {
    let (out, into) = RingLink::new(alloc)?.split();
    let out = PieceOut::new(out);
    let into = PieceIn::new(alloc, into);
    let ((), bytes) = thread::join(rt, move || push_all(alloc, out, len), move || take_all(into));
    Ok(bytes)
}

fn main(rt: HostRuntime) -> ExitCode {
    let long = match env::args(&rt) {
        Ok(words) => words.count() > 1,
        Err(_) => return ExitCode::FAILURE,
    };
    let len = if long { 585 } else { 20 };
    match run(&rt, rt.alloc(), len) {
        Ok(bytes) if bytes == ITEMS * len as u64 => ExitCode::SUCCESS,
        _ => ExitCode::FAILURE,
    }
}
RT
cat > crates/link_speed/proofs/push_one/Invariants.antt <<'ANTT'
use Rattle.std.proofs.Common.{◌≤◌, length}
use Rattle.link_speed.proofs.push_one.Given as goal

abbrev pub invariant-loop : goal.invariant-loop
invariant-loop l = length l.item ≤ 585
ANTT
cat > "$work/plain.rs" <<'RS'
use std::cell::UnsafeCell;
use std::sync::atomic::{AtomicUsize, Ordering::{Acquire, Relaxed, Release}};
use std::sync::Arc;
use std::thread;
const ITEMS: usize = 2_000_000;
#[derive(Clone, Copy)]
struct Piece { len: usize, bytes: [u8; 64] }
#[repr(align(128))]
struct Place(AtomicUsize);
struct Ring { slots: [UnsafeCell<Piece>; 32], head: Place, tail: Place }
unsafe impl Sync for Ring {}
impl Ring {
    fn push(&self, bytes: &[u8]) -> bool {
        let tail = self.tail.0.load(Relaxed);
        if tail - self.head.0.load(Acquire) == 32 { return false; }
        let piece = unsafe { &mut *self.slots[tail % 32].get() };
        piece.len = bytes.len();
        piece.bytes[..bytes.len()].copy_from_slice(bytes);
        self.tail.0.store(tail + 1, Release);
        true
    }
    fn pop(&self, into: &mut Vec<u8>) -> bool {
        let head = self.head.0.load(Relaxed);
        if head == self.tail.0.load(Acquire) { return false; }
        let piece = unsafe { &*self.slots[head % 32].get() };
        into.extend_from_slice(&piece.bytes[..piece.len]);
        self.head.0.store(head + 1, Release);
        true
    }
}
fn main() {
    let len = if std::env::args().count() > 1 { 585 } else { 20 };
    let ring = Arc::new(Ring { slots: std::array::from_fn(|_| UnsafeCell::new(Piece { len: 0, bytes: [0; 64] })), head: Place(AtomicUsize::new(0)), tail: Place(AtomicUsize::new(0)) });
    let out = ring.clone();
    let pusher = thread::spawn(move || {
        for _ in 0..ITEMS {
            let item = vec![7u8; len];
            let mut framed = [0u8; 587];
            framed[..2].copy_from_slice(&(len as u16).to_be_bytes());
            framed[2..2 + len].copy_from_slice(&item);
            for piece in framed[..2 + len].chunks(64) { while !out.push(piece) { thread::yield_now(); } }
        }
    });
    let (mut held, mut start, mut items, mut bytes) = (Vec::with_capacity(2048), 0usize, 0usize, 0usize);
    while items < ITEMS {
        if start > 1024 { held.drain(..start); start = 0; }
        if !ring.pop(&mut held) { thread::yield_now(); continue; }
        while held.len() - start >= 2 {
            let size = usize::from(held[start]) * 256 + usize::from(held[start + 1]);
            if held.len() - start - 2 < size { break; }
            let item = held[start + 2..start + 2 + size].to_vec();
            start += size + 2; items += 1; bytes += item.len();
        }
    }
    pusher.join().unwrap();
    assert_eq!(bytes, ITEMS * len);
}
RS
rustc --edition 2021 -O -o "$work/plain" "$work/plain.rs"
(cd crates/link_speed && rt run > "$work/first")
for program in "$work/plain" "$work/repo/crates/link_speed/out/link_speed"; do
    for word in "" long; do
        best=$(for _ in 1 2 3; do python3 -c 'import subprocess,sys,time; t=time.time(); subprocess.run([w for w in sys.argv[1:] if w], check=True); print(time.time()-t)' "$program" "$word"; done | sort -n | head -1)
        python3 -c 'import sys; b=float(sys.argv[2]); print(sys.argv[1].split("/")[-1], "585 bytes" if sys.argv[3] else "20 bytes", "%.3f s" % b, "%.2f million items/s" % (2/b))' "$program" "$best" "$word"
    done
done
