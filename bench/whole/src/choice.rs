//! What a turn does, found anew at each turn from all heads.
use crate::keys::Keys;
use crate::node::{Slot, Turned};

pub struct Choice {
    union: [u32; 64],
}

impl Choice {
    pub fn new() -> Choice {
        Choice { union: [0; 64] }
    }

    /// The slots are others.
    pub fn rewired(&mut self) {}

    /// A value was queued in this slot.
    pub fn queued(&mut self, _slot: usize) {}

    /// The first queued value of this slot becomes its head.
    pub fn advance(&mut self, slots: &mut [Slot], slot: usize) {
        slots[slot].head = slots[slot].queue.pop_front();
    }

    /// The slot whose first queued value becomes the head, or what the turn does else.
    pub fn next(&mut self, slots: &[Slot], floor: &[u32; 64], due: bool) -> Result<usize, Turned> {
        let queued_in = |slot: usize, other: Turned| if slots[slot].queue.is_empty() { Err(other) } else { Ok(slot) };
        if let Some(slot) = slots.iter().position(|slot| slot.head.is_none()) {
            return queued_in(slot, Turned::Empty(slots[slot].sender));
        }
        let mut greatest = *floor;
        for slot in slots {
            let head = slot.head.as_ref().unwrap();
            for (key, clock) in Keys(head.keys).zip(&head.clocks) {
                if *clock > greatest[key] {
                    greatest[key] = *clock;
                }
            }
        }
        for (at, slot) in slots.iter().enumerate() {
            let head = slot.head.as_ref().unwrap();
            for (key, clock) in Keys(head.keys).zip(&head.clocks) {
                if *clock < greatest[key] {
                    return queued_in(at, Turned::Lags(slot.sender, key as u16));
                }
            }
        }
        if due {
            return Err(Turned::Computed);
        }
        slots.iter().position(|slot| !slot.queue.is_empty()).ok_or(Turned::Still)
    }

    /// The keys of heads that agree, and at each its clock.
    pub fn union(&mut self, slots: &[Slot]) -> (u64, &mut [u32; 64]) {
        let mut keys = 0;
        for slot in slots {
            let head = slot.head.as_ref().unwrap();
            keys |= head.keys;
            for (key, clock) in Keys(head.keys).zip(&head.clocks) {
                self.union[key] = *clock;
            }
        }
        (keys, &mut self.union)
    }
}
