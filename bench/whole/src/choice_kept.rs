//! What a turn does, kept up to date by each advance in the clocks that changed.
use crate::keys::Keys;
use crate::node::{Slot, Turned};

pub struct Choice {
    /// The slots are others than those that the rest speaks of.
    stale: bool,
    /// For each key the greatest clock of the floor and of the heads.
    greatest: [u32; 64],
    /// For each slot the keys on which its head lags.
    lags: [u64; 16],
    lagging: u32,
    headless: u32,
    queued: u32,
}

fn lowest(slots: u32) -> usize {
    slots.trailing_zeros() as usize
}

impl Choice {
    pub fn new() -> Choice {
        Choice { stale: true, greatest: [0; 64], lags: [0; 16], lagging: 0, headless: 0, queued: 0 }
    }

    /// The slots are others.
    pub fn rewired(&mut self) {
        self.stale = true;
    }

    /// A value was queued in this slot.
    pub fn queued(&mut self, slot: usize) {
        self.queued |= 1 << slot;
    }

    /// The first queued value of this slot becomes its head.
    pub fn advance(&mut self, slots: &mut [Slot], slot: usize) {
        let queue = &mut slots[slot].queue;
        let new = queue.pop_front().unwrap();
        if queue.is_empty() {
            self.queued &= !(1 << slot);
        }
        let same = slots[slot].head.as_ref().is_some_and(|head| head.keys == new.keys);
        let (keys, changed) = (new.keys, new.changed);
        slots[slot].head = Some(new);
        if !same {
            self.stale = true;
            return;
        }
        for key in Keys(changed) {
            let place = (keys & ((1 << key) - 1)).count_ones() as usize;
            let clock = slots[slot].head.as_ref().unwrap().clocks[place];
            if clock > self.greatest[key] {
                self.greatest[key] = clock;
                self.fall_behind(slots, slot, key);
            }
            if clock < self.greatest[key] {
                self.lags[slot] |= 1 << key
            } else {
                self.lags[slot] &= !(1 << key)
            }
        }
        if self.lags[slot] == 0 {
            self.lagging &= !(1 << slot)
        } else {
            self.lagging |= 1 << slot
        }
    }

    /// All heads but one lag on this key where they have it.
    fn fall_behind(&mut self, slots: &[Slot], first: usize, key: usize) {
        for (at, slot) in slots.iter().enumerate() {
            if at != first && slot.head.as_ref().is_some_and(|head| head.keys >> key & 1 == 1) {
                self.lags[at] |= 1 << key;
                self.lagging |= 1 << at;
            }
        }
    }

    /// The slot whose first queued value becomes the head, or what the turn does else.
    pub fn next(&mut self, slots: &[Slot], floor: &[u32; 64], due: bool) -> Result<usize, Turned> {
        if self.stale {
            self.refresh(slots, floor);
        }
        let queued_in = |slot: usize, other: Turned| if self.queued >> slot & 1 == 1 { Ok(slot) } else { Err(other) };
        if self.headless != 0 {
            let slot = lowest(self.headless);
            return queued_in(slot, Turned::Empty(slots[slot].sender));
        }
        if self.lagging != 0 {
            let slot = lowest(self.lagging);
            return queued_in(slot, Turned::Lags(slots[slot].sender, self.lags[slot].trailing_zeros() as u16));
        }
        if due {
            return Err(Turned::Computed);
        }
        if self.queued != 0 {
            Ok(lowest(self.queued))
        } else {
            Err(Turned::Still)
        }
    }

    fn refresh(&mut self, slots: &[Slot], floor: &[u32; 64]) {
        *self = Choice { stale: false, greatest: *floor, ..Choice::new() };
        for (at, slot) in slots.iter().enumerate() {
            if !slot.queue.is_empty() {
                self.queued |= 1 << at;
            }
            let Some(head) = &slot.head else {
                self.headless |= 1 << at;
                continue;
            };
            for (key, clock) in Keys(head.keys).zip(&head.clocks) {
                self.greatest[key] = self.greatest[key].max(*clock);
            }
        }
        for (at, slot) in slots.iter().enumerate() {
            let Some(head) = &slot.head else { continue };
            for (key, clock) in Keys(head.keys).zip(&head.clocks) {
                if *clock < self.greatest[key] {
                    self.lags[at] |= 1 << key;
                }
            }
            if self.lags[at] != 0 {
                self.lagging |= 1 << at;
            }
        }
    }

    /// The keys of heads that agree, and at each its clock: none lags, so the greatest are theirs.
    pub fn union(&mut self, slots: &[Slot]) -> (u64, &mut [u32; 64]) {
        let keys = slots.iter().fold(0, |keys, slot| keys | slot.head.as_ref().unwrap().keys);
        (keys, &mut self.greatest)
    }
}
