#!/bin/bash
# Measures `eval` on a tree of 127 whole-number nodes, and the same tree walk in plain Rust, in nanoseconds. Works on a copy of the repository in a
# folder of its own. It is no test.
# Usage: bench/eval.sh [FOLDER]   (needs rt, rustc, git and python3)
set -e
top=$(cd "$(dirname "$0")/.." && pwd)
work=${1:-$(mktemp -d)}
rm -rf "$work/repo"; git clone -q "$top" "$work/repo"; cd "$work/repo"
echo "eval_speed: anyhow svc_expr svc_value" >> crates.txt
mkdir -p crates/eval_speed/src
text=$(python3 -c '
def tree(depth, at):
    if depth == 0: return ["a", "3", "b", "10"][at % 4]
    return "(%s %s %s)" % (tree(depth - 1, 2 * at), "+-*"[depth % 3] if depth < 4 else "+-"[depth % 2], tree(depth - 1, 2 * at + 1))
print(tree(6, 0))')
cat > crates/eval_speed/src/main.rt <<TEXT
//! How long one evaluation takes, in nanoseconds.
#![tactic(auto)]

use anyhow::{Result, bail};
use std::alloc::Global;
use std::time::Instant;
use svc_expr::{Expr, eval, read_expr};
use svc_value::Value;

const TEXT: &str = "$text";

fn rounds(alloc: Global, expr: &Expr, given: &[Value], count: u32) -> u32 {
    let mut whole = 0u32;
    for _ in 0..count {
        if let Ok(Value::Int(_)) = eval(alloc, expr, given, &[]) {
            whole = whole.wrapping_add(1);
        }
    }
    whole
}

fn main(rt: HostRuntime) -> Result<()> {
    let alloc = rt.alloc();
    let Ok(reading) = read_expr(alloc, TEXT) else {
        bail!("no expression");
    };
    let given = [Value::Int(5), Value::Int(-2)];
    let mut best = u128::MAX;
    let mut whole = 0u32;
    for _ in 0..40 {
        let start = Instant::now(&rt)?;
        whole = whole.wrapping_add(rounds(alloc, &reading.expr, &given, 10000));
        best = best.min(start.elapsed(&rt)?.as_nanos());
    }
    println!(rt; "eval: {} ns ({whole})", best / 10000)?;
    Ok(())
}
TEXT
cat > "$work/plain.rs" <<TEXT
use std::time::Instant;
enum Expr { Int(i64), Given(u8), Pair(u8, Box<Expr>, Box<Expr>) }
#[derive(Clone, Copy)]
enum Value { Int(i64), Overflow }
fn eval(expr: &Expr, given: &[Value]) -> Value {
    match expr {
        Expr::Int(n) => Value::Int(*n),
        Expr::Given(k) => given[usize::from(*k)],
        Expr::Pair(op, a, b) => match (eval(a, given), eval(b, given)) {
            (Value::Int(x), Value::Int(y)) => {
                match match op { b'+' => x.checked_add(y), b'-' => x.checked_sub(y), _ => x.checked_mul(y) } { Some(z) => Value::Int(z), None => Value::Overflow }
            }
            (Value::Overflow, _) | (_, Value::Overflow) => Value::Overflow,
        },
    }
}
fn read(text: &[u8], at: &mut usize) -> Expr {
    let c = text[*at];
    if c == b'(' {
        *at += 1;
        let a = read(text, at);
        let op = text[*at + 1];
        *at += 3;
        let b = read(text, at);
        *at += 1;
        return Expr::Pair(op, Box::new(a), Box::new(b));
    }
    *at += 1;
    if c == b'a' { return Expr::Given(0); }
    if c == b'b' { return Expr::Given(1); }
    let mut n = i64::from(c - b'0');
    while text[*at].is_ascii_digit() { n = n * 10 + i64::from(text[*at] - b'0'); *at += 1; }
    Expr::Int(n)
}
fn main() {
    let expr = read("$text".as_bytes(), &mut 0);
    let given = [Value::Int(5), Value::Int(-2)];
    let (mut best, mut whole) = (u128::MAX, 0u32);
    for _ in 0..40 {
        let start = Instant::now();
        for _ in 0..10000 { if let Value::Int(_) = eval(std::hint::black_box(&expr), std::hint::black_box(&given)) { whole += 1; } }
        best = best.min(start.elapsed().as_nanos());
    }
    println!("plain Rust: {} ns ({whole})", best / 10000);
}
TEXT
rustc --edition 2021 -O -o "$work/plain" "$work/plain.rs"
"$work/plain"
(cd crates/eval_speed && rt run)
