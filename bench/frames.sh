#!/bin/bash
# Reads a stream of a million frames in pieces of 64 bytes, with `Framer` and with a plain Rust reader of the same format,
# and prints the seconds and MB per second of each. Works on a copy of the repository in a folder of its own.
# Usage: bench/frames.sh [FOLDER]   (needs rt, rustc and git)
set -e
top=$(cd "$(dirname "$0")/.." && pwd)
work=${1:-$(mktemp -d)}
rm -rf "$work/repo"; git clone -q "$top" "$work/repo"; cd "$work/repo"
echo "frame_speed: anyhow svc_value wire_frame" >> crates.txt
mkdir -p crates/frame_speed/src crates/frame_speed/specs crates/frame_speed/proofs
: > crates/frame_speed/specs/Lib.antt; : > crates/frame_speed/proofs/Lib.antt
cat > crates/frame_speed/src/main.rt <<'RT'
//! Reads a stream of frames in pieces of 64 bytes, again and again.
#![tactic(auto)]

use anyhow::{Result, bail};
use std::alloc::Global;
use wire_frame::{Frame, Framer, StreamError};

const FRAMES: [&[u8]; 4] = [
    &[0, 20, 5, 0, 0, 0, 1, 1, 0, 0, 0, 0, 0, 0, 0, 3, 1, 0, 0, 0, 0, 1],
    &[0, 25, 5, 0, 0, 0, 1, 1, 0, 0, 0, 0, 0, 0, 0, 9, 2, 0, 0, 0, 0, 7, 3, 0, 0, 0, 2],
    &[0, 10, 3, 0, 0, 0, 1, 2, 0, 0, 0, 5],
    &[0, 5, 1, 0, 0, 0, 9],
];

fn stream(alloc: Global) -> Result<Vec<u8>> {
    let mut bytes = Vec::new(alloc);
    for _ in 0..2500 {
        for frame in FRAMES {
            bytes.extend_from_slice(frame)?;
        }
    }
    Ok(bytes)
}

fn weight(frame: &Frame) -> u64 {
    match frame {
        Frame::Changed(delta) => delta.clocks.len() as u64,
        _ => 1,
    }
}

fn read(framer: &mut Framer, bytes: &[u8]) -> Result<u64> {
    let mut sum = 0u64;
    for piece in bytes.chunks(64) {
        if framer.feed(piece).is_err() {
            bail!("out of memory");
        }
        for _ in 0..64 {
            match framer.next() {
                Ok(Some(frame)) => sum = sum.wrapping_add(weight(&frame)),
                Ok(None) => break,
                Err(StreamError::OutOfMemory) => bail!("out of memory"),
                Err(StreamError::Bad { at, .. }) => bail!("no stream at {at}"),
            }
        }
    }
    Ok(sum)
}

fn main(rt: HostRuntime) -> Result<()> {
    let bytes = stream(rt.alloc())?;
    let mut framer = Framer::new(rt.alloc());
    let mut sum = 0u64;
    for _ in 0..100 {
        sum = sum.wrapping_add(read(&mut framer, bytes.as_slice())?);
    }
    println!(rt; "{sum}")?;
    Ok(())
}
RT
cat > "$work/plain.rs" <<'RS'
enum Value { Int(i64), Words(String), Bad(u8) }
enum Frame { Subscribe(u32), Unsubscribe(u32), Sources(u32, Vec<u16>), Changed(u32, Value, Vec<(u8, u32)>) }
const FRAMES: [&[u8]; 4] = [
    &[0, 20, 5, 0, 0, 0, 1, 1, 0, 0, 0, 0, 0, 0, 0, 3, 1, 0, 0, 0, 0, 1],
    &[0, 25, 5, 0, 0, 0, 1, 1, 0, 0, 0, 0, 0, 0, 0, 9, 2, 0, 0, 0, 0, 7, 3, 0, 0, 0, 2],
    &[0, 10, 3, 0, 0, 0, 1, 2, 0, 0, 0, 5],
    &[0, 5, 1, 0, 0, 0, 9],
];
fn clock(b: &[u8]) -> Option<u32> { let n = u32::from_be_bytes(b.get(..4)?.try_into().ok()?); (n > 0).then_some(n) }
fn value(b: &[u8]) -> Option<(Value, usize)> {
    match *b.first()? {
        1 => Some((Value::Int(i64::from_be_bytes(b.get(1..9)?.try_into().ok()?)), 9)),
        2 => {
            let n = usize::from(*b.get(1)?) * 256 + usize::from(*b.get(2)?);
            if n > 256 { return None; }
            Some((Value::Words(std::str::from_utf8(b.get(3..3 + n)?).ok()?.to_owned()), 3 + n))
        }
        3 => { let c = *b.get(1)?; (1..=5).contains(&c).then_some((Value::Bad(c), 2)) }
        _ => None,
    }
}
fn frame(b: &[u8]) -> Option<(Frame, usize)> {
    let epoch = clock(b.get(1..)?)?;
    match b[0] {
        1 => Some((Frame::Subscribe(epoch), 5)),
        2 => Some((Frame::Unsubscribe(epoch), 5)),
        3 => {
            let count = usize::from(*b.get(5)?);
            if count == 0 || count > 64 { return None; }
            let mut keys = Vec::with_capacity(count);
            let mut least = 0u32;
            for pair in b.get(6..6 + 2 * count)?.chunks(2) {
                let key = u16::from_be_bytes([pair[0], pair[1]]);
                if u32::from(key) < least { return None; }
                least = u32::from(key) + 1;
                keys.push(key);
            }
            Some((Frame::Sources(epoch, keys), 6 + 2 * count))
        }
        5 => {
            let (value, len) = value(b.get(5..)?)?;
            let at = 5 + len;
            let count = usize::from(*b.get(at)?);
            if count > 64 { return None; }
            let mut clocks = Vec::with_capacity(count);
            let mut least = 0u8;
            for named in b.get(at + 1..at + 1 + 5 * count)?.chunks(5) {
                if named[0] < least || named[0] > 63 { return None; }
                least = named[0] + 1;
                clocks.push((named[0], clock(&named[1..])?));
            }
            Some((Frame::Changed(epoch, value, clocks), at + 1 + 5 * count))
        }
        _ => None,
    }
}
struct Framer { bytes: Vec<u8>, start: usize }
impl Framer {
    fn feed(&mut self, piece: &[u8]) {
        if self.bytes.capacity() - self.bytes.len() < piece.len() && self.start >= self.bytes.len() - self.start {
            self.bytes.drain(..self.start);
            self.start = 0;
        }
        self.bytes.extend_from_slice(piece);
    }
    fn next(&mut self) -> Result<Option<Frame>, ()> {
        let [high, low, rest @ ..] = &self.bytes[self.start..] else { return Ok(None) };
        let size = usize::from(*high) * 256 + usize::from(*low);
        if size > 585 { return Err(()); }
        let Some(item) = rest.get(..size) else { return Ok(None) };
        match frame(item) { Some((frame, len)) if len == size => { self.start += size + 2; Ok(Some(frame)) } _ => Err(()) }
    }
}
fn main() {
    let mut bytes = Vec::new();
    for _ in 0..2500 { for frame in FRAMES { bytes.extend_from_slice(frame); } }
    let mut framer = Framer { bytes: Vec::new(), start: 0 };
    let mut sum = 0u64;
    for _ in 0..100 {
        for piece in bytes.chunks(64) {
            framer.feed(piece);
            while let Some(frame) = framer.next().unwrap() {
                sum += match frame {
                    Frame::Changed(_, Value::Int(_) | Value::Bad(_) | Value::Words(_), clocks) => clocks.len() as u64,
                    Frame::Sources(..) | Frame::Subscribe(_) | Frame::Unsubscribe(_) => 1,
                };
            }
        }
    }
    println!("{sum}");
}
RS
rustc --edition 2021 -O -A dead_code -o "$work/plain" "$work/plain.rs"
(cd crates/frame_speed && rt run > "$work/first" && cat "$work/first")
mb=$(python3 -c 'print(2500 * (22 + 27 + 12 + 7) * 100 / 1e6)')
for program in "$work/plain" "$work/repo/crates/frame_speed/out/frame_speed"; do
    best=$(for _ in 1 2 3 4 5; do python3 -c 'import subprocess,sys,time; t=time.time(); subprocess.run(sys.argv[1:], stdout=subprocess.DEVNULL, check=True); print(time.time()-t)' "$program"; done | sort -n | head -1)
    python3 -c 'import sys; b=float(sys.argv[2]); print(sys.argv[1].split("/")[-1], "%.3f s" % b, "%.0f MB/s" % (float(sys.argv[3])/b))' "$program" "$best" "$mb"
done
