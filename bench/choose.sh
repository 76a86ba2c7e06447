#!/bin/bash
# Measures one `choose` over 2, 8 and 16 heads of 4, 16 and 64 keys, and the same in plain Rust, in nanoseconds. Works on a copy of the
# repository in a folder of its own. It is no test.
# Usage: bench/choose.sh [FOLDER]   (needs rt, rustc and git)
set -e
top=$(cd "$(dirname "$0")/.." && pwd)
work=${1:-$(mktemp -d)}
rm -rf "$work/repo"; git clone -q "$top" "$work/repo"; cd "$work/repo"
echo "choose_speed: anyhow pred_queue propagation service_machine stamp_clock stamp_match svc_value wire_frame" >> crates.txt
crate=crates/choose_speed
mkdir -p $crate/src $crate/proofs/advance $crate/proofs/rounds $crate/proofs/names_of $crate/proofs/clocks_of
cat > $crate/src/main.rt <<'TEXT'
//! How long one `choose` takes, in nanoseconds.
#![tactic(auto)]

ghost use Rattle.std.specs.Prelude.{◌≡◌, ◌<◌, ◌≤◌, All, IfOk};
ghost use Rattle.propagation.specs.Stamps.{Rise, RisePairs};
ghost use Rattle.wire_frame.specs.Frames.{pairs};

use pred_queue::Slot;
use stamp_clock::Floor;
use stamp_match::{Choice, choose};
use std::alloc::{AllocError, Global};
use std::marker::Brand;
use std::sync::ledger::{Blank, Ledger};
use std::time::Instant;
use svc_value::{Clock, ServiceId, Steps, Value};
use wire_frame::PlaceClock;

fn names_of(alloc: Global, keys: u16) -> Result<Vec<ServiceId>, AllocError>
    requires { keys ≤ 64 }
    ensures rise { IfOk result (λ v. Rise 0 v.items) }
    ensures below { IfOk result (λ v. All (λ key. key < 64) v.items) }
{
    let mut names = Vec::new(alloc);
    for key in 0..keys {
        names.push(ServiceId(key))?;
    }
    Ok(names)
}

fn clocks_of(alloc: Global, keys: u16) -> Result<Vec<PlaceClock>, AllocError>
    requires { keys ≤ 64 }
    ensures { IfOk result (λ v. RisePairs 0 (pairs v.items)) }
{
    let mut clocks = Vec::new(alloc);
    for key in 0..keys {
        clocks.push(PlaceClock {
            place: key as u8,
            clock: Clock(7),
        })?;
    }
    Ok(clocks)
}

fn slot_of(alloc: Global, sender: u16, keys: u16) -> Result<Slot, anyhow::Error>
    requires { keys ≤ 64 }
{
    let mut slot = Slot::new(alloc, ServiceId(sender), Some(Clock(1)));
    let names = names_of(alloc, keys)?;
    let clocks = clocks_of(alloc, keys)?;
    let _ = slot.announce(Clock(1), names.as_slice());
    let _ = slot.put(Clock(1), Clock(1), Value::Int(0), clocks.as_slice());
    advance(&mut slot);
    Ok(slot)
}

fn advance(slot: &mut Slot) {
    advance_with::<Brand>(slot, Blank::new(1));
}

fn advance_with<M: Ledger>(slot: &mut Slot, blank: Blank)
    requires name { blank.name ≡ M.name }
    requires parts { blank.parts ≡ M.parts }
    requires some { 0 < blank.parts }
{
    let mut moves = Steps::<M>::new(blank);
    if slot.has_next() {
        slot.advance(&mut moves);
    }
}

fn rounds_with<L: Ledger>(slots: &[Slot], floor: &Floor, count: u32, blank: Blank) -> u32
    requires name { blank.name ≡ L.name }
    requires parts { blank.parts ≡ L.parts }
    requires some { 0 < blank.parts }
{
    let mut looks = Steps::<L>::new(blank);
    let mut ready = 0u32;
    for round in 0..count {
        if choose(slots, floor, round % 3 != 0, &mut looks) == Choice::Ready {
            ready = ready.wrapping_add(1);
        }
    }
    ready
}

fn rounds(slots: &[Slot], floor: &Floor, count: u32) -> u32 {
    rounds_with::<Brand>(slots, floor, count, Blank::new(1))
}

fn measure<R: Print + std::rt::Clock>(rt: &R, alloc: Global, heads: u16, keys: u16) -> Result<(), anyhow::Error>
    requires { keys ≤ 64 }
{
    let mut slots = Vec::new(alloc);
    for sender in 0..heads {
        slots.push(slot_of(alloc, sender, keys)?)?;
    }
    let floor = Floor::new();
    let mut best = u128::MAX;
    let mut ready = 0u32;
    for _ in 0..40 {
        let start = Instant::now(rt)?;
        ready = ready.wrapping_add(rounds(slots.as_slice(), &floor, 10000));
        let took = start.elapsed(rt)?.as_nanos();
        best = best.min(took);
    }
    rt.println(format_args!("{heads} heads, {keys} keys: {} ns ({ready})", best / 10000))?;
    Ok(())
}

fn main(rt: HostRuntime) -> Result<(), anyhow::Error> {
    for heads in [2, 8, 16] {
        measure(&rt, rt.alloc(), heads, 4)?;
        measure(&rt, rt.alloc(), heads, 16)?;
        measure(&rt, rt.alloc(), heads, 64)?;
    }
    Ok(())
}
TEXT
cat > $crate/proofs/Lib.antt <<'TEXT'
pub mod More
TEXT
cat > $crate/proofs/More.antt <<'TEXT'
use Rattle.std.proofs.Common.{◌≡◌, ℕ, suc, ◌+◌, ◌<◌, ◌≤◌, List, [], ◌∷◌, ◌++◌, map, All, refl, inl, inr, subst, arith}
use Rattle.propagation.specs.Lists.{Has}
use Rattle.propagation.specs.Stamps.{Rise, RisePairs}
use Rattle.propagation.proofs.Lists.{Has-append_cases}
use Rattle.stamp_clock.proofs.RiseLemmas.{rise-append}
use Rattle.wire_frame.specs.Frames.{pairs}
use Rattle.wire_frame.specs.declared.place_clock.PlaceClock.{PlaceClock}

pub record Rising (keys : List ℕ) (k : ℕ) : Type 0 where
  pub rise : Rise 0 keys
  pub below : (q : ℕ) → Has keys q → q < k

pub rising-more : (keys : List ℕ) (k : ℕ) → Rising keys k → Rising (keys ++ k ∷ []) (k + 1)
rising-more keys k r = record {
  rise = rise-append 0 keys k r.rise (omega arith) r.below;
  below = λ q h. elim (Has-append_cases keys (k ∷ []) q h) [ inl a ↦ (let lt : q < k = r.below q a in omega arith) | inr (inl e) ↦ omega arith | inr (inr none) ↦ absurd none ];
}

pairs-more : (least : ℕ) (xs : List PlaceClock) (k : ℕ) (x : PlaceClock) → RisePairs least (pairs xs) → x.place ≡ k → 0 < x.clock → least ≤ k → ((y : PlaceClock) → Has xs y → y.place < k) → RisePairs least (pairs (xs ++ x ∷ []))
pairs-more least [] k x r is pos le below = (omega arith, pos, tt)
pairs-more least (y ∷ xs) k x r is pos le below = (r.0, r.1, pairs-more (suc y.place) xs k x r.2 is pos (below y (inl refl)) (λ z h. below z (inr h)))

pub record RisingPairs (clocks : List PlaceClock) (k : ℕ) : Type 0 where
  pub rise : RisePairs 0 (pairs clocks)
  pub below : (y : PlaceClock) → Has clocks y → y.place < k

pub rising_pairs-more : (clocks : List PlaceClock) (k : ℕ) (x : PlaceClock) → x.place ≡ k → 0 < x.clock → RisingPairs clocks k → RisingPairs (clocks ++ x ∷ []) (k + 1)
rising_pairs-more clocks k x is pos r = record {
  rise = pairs-more 0 clocks k x r.rise is pos (omega arith) r.below;
  below = λ y h. elim (Has-append_cases clocks (x ∷ []) y h) [ inl a ↦ (let lt : y.place < k = r.below y a in omega arith) | inr (inl e) ↦ subst (λ (z : PlaceClock). z.place < k + 1) e (omega arith) | inr (inr none) ↦ absurd none ];
}
TEXT
cat > $crate/proofs/advance/Invariants.antt <<'TEXT'
use Rattle.choose_speed.proofs.advance.Given as goal

abbrev pub ghosts-advance_with : goal.ghosts-advance_with
ghosts-advance_with a = record { name = a.blank.name; parts = a.blank.parts }
TEXT
cat > $crate/proofs/rounds/Invariants.antt <<'TEXT'
use Rattle.choose_speed.proofs.rounds.Given as goal

abbrev pub ghosts-rounds_with : goal.ghosts-rounds_with
ghosts-rounds_with a = record { name = a.blank.name; parts = a.blank.parts }
TEXT
cat > $crate/proofs/names_of/Invariants.antt <<'TEXT'
use Rattle.choose_speed.proofs.More.{Rising}
use Rattle.choose_speed.proofs.names_of.Given as goal

abbrev pub invariant-loop-key : goal.invariant-loop-key
invariant-loop-key l = Rising l.names.items l.key
TEXT
cat > $crate/proofs/names_of/Answers.antt <<'TEXT'
use Rattle.std.proofs.Common.{ℕ, ◌+◌, ◌<◌, List, subst, sym, arith}
use Rattle.stamp_clock.proofs.RiseLemmas.{all-has}
use Rattle.choose_speed.proofs.More.{Rising, rising-more}
use Rattle.choose_speed.proofs.names_of.Goals as goal

pub loop-key-preserved : goal.loop-key-preserved
loop-key-preserved c = subst (λ (ks : List ℕ). Rising ks (c.loop-key.key + 1)) (sym c.in_ok-push.ensures.items) (rising-more c.loop-key.names.items c.loop-key.key c.loop-key.invariant)

pub returns-clause-below : goal.returns-clause-below
returns-clause-below c = all-has {A = ℕ} (λ key. key < 64) c.loop-key.names.items (λ q h. let lt : q < c.loop-key.key = c.loop-key.invariant.below q h in omega arith)
TEXT
cat > $crate/proofs/clocks_of/Invariants.antt <<'TEXT'
use Rattle.choose_speed.proofs.More.{RisingPairs}
use Rattle.choose_speed.proofs.clocks_of.Given as goal

abbrev pub invariant-loop-key : goal.invariant-loop-key
invariant-loop-key l = RisingPairs l.clocks.items l.key
TEXT
cat > $crate/proofs/clocks_of/Answers.antt <<'TEXT'
use Rattle.std.proofs.Common.{ℕ, ◌+◌, ◌<◌, List, refl, subst, sym, arith}
use Rattle.wire_frame.specs.declared.place_clock.PlaceClock.{PlaceClock}
use Rattle.choose_speed.proofs.More.{RisingPairs, rising_pairs-more}
use Rattle.choose_speed.proofs.clocks_of.Goals as goal

pub loop-key-preserved : goal.loop-key-preserved
loop-key-preserved c = subst (λ (xs : List PlaceClock). RisingPairs xs (c.loop-key.key + 1)) (sym c.in_ok-push.ensures.items) (rising_pairs-more c.loop-key.clocks.items c.loop-key.key record { place = c.loop-key.key; clock = 7 } refl (omega arith) c.loop-key.invariant)
TEXT
cat > "$work/plain.rs" <<'TEXT'
// The same in plain Rust.
use std::collections::VecDeque;
use std::time::Instant;

struct Stamps { present: u64, clocks: Vec<u32> }
struct Emission { #[allow(dead_code)] value: i64, stamps: Stamps }
struct Slot { edge: Option<u32>, head: Option<Emission>, queue: VecDeque<(u32, Emission)> }
#[derive(PartialEq)]
enum Choice { Advance(usize), Ready, Empty(usize), Lags { #[allow(dead_code)] slot: usize, #[allow(dead_code)] key: u16 }, Still }

impl Slot {
    fn has_next(&self) -> bool { matches!((self.queue.front(), self.edge), (Some(front), Some(edge)) if front.0 == edge) }
}

#[inline(never)]
fn choose(slots: &[Slot], floor: &[u32; 64], due: bool) -> Choice {
    for (i, slot) in slots.iter().enumerate() {
        if slot.head.is_none() { return if slot.has_next() { Choice::Advance(i) } else { Choice::Empty(i) }; }
    }
    let mut greatest_clocks = *floor;
    for slot in slots {
        if let Some(head) = &slot.head {
            let mut left = head.stamps.present;
            for clock in &head.stamps.clocks {
                let key = left.trailing_zeros() as usize & 63;
                left &= left.wrapping_sub(1);
                greatest_clocks[key] = greatest_clocks[key].max(*clock);
            }
        }
    }
    for (i, slot) in slots.iter().enumerate() {
        if let Some(head) = &slot.head {
            let mut left = head.stamps.present;
            for clock in &head.stamps.clocks {
                let key = left.trailing_zeros() as usize & 63;
                left &= left.wrapping_sub(1);
                if *clock < greatest_clocks[key] {
                    return if slot.has_next() { Choice::Advance(i) } else { Choice::Lags { slot: i, key: key as u16 } };
                }
            }
        }
    }
    if due { return Choice::Ready; }
    match slots.iter().position(|slot| slot.has_next()) { Some(i) => Choice::Advance(i), None => Choice::Still }
}

fn main() {
    for heads in [2u64, 8, 16] {
        for keys in [4u32, 16, 64] {
            let present = if keys == 64 { u64::MAX } else { (1 << keys) - 1 };
            let slots: Vec<Slot> = (0..heads).map(|_| Slot { edge: Some(1), queue: VecDeque::new(), head: Some(Emission { value: 0, stamps: Stamps { present, clocks: vec![7; keys as usize] } }) }).collect();
            let floor = [0u32; 64];
            let mut best = u128::MAX;
            let mut ready = 0u32;
            for _ in 0..40 {
                let start = Instant::now();
                for round in 0..10000 {
                    if choose(std::hint::black_box(&slots), &floor, round % 3 != 0) == Choice::Ready { ready += 1; }
                }
                best = best.min(start.elapsed().as_nanos());
            }
            println!("{heads} heads, {keys} keys: {} ns ({ready})", best / 10000);
        }
    }
}
TEXT
rustc --edition 2021 -O -o "$work/plain" "$work/plain.rs"
echo "plain Rust:"; "$work/plain"
echo "choose:"; (cd $crate && rt run)
