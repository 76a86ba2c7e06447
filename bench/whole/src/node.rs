//! One service: its changes, the frames that it takes and its turns. Its peers keep the protocol.
use crate::choice::Choice;
use crate::document::{Change, Definition};
use crate::frames::{
    clocks_of, edge_frame, epoch_of, keys_of, sources_frame, value_frame, value_of, SOURCES, SUBSCRIBE, UNSUBSCRIBE, VALUE,
};
use crate::keys::Keys;
use crate::value::Value;
use std::collections::VecDeque;

#[derive(Clone, Debug)]
pub struct Emission {
    pub value: Value,
    pub keys: u64,
    pub clocks: Vec<u32>,
    /// The keys whose clock differs from that of the value before, where the choice is kept; else none.
    #[cfg_attr(not(feature = "kept"), allow(dead_code))]
    pub changed: u64,
}

/// What a service keeps of one sender.
pub struct Slot {
    pub sender: u16,
    epoch: u32,
    /// The keys last announced under the epoch.
    keys: u64,
    /// The clocks last carried since then; none before the first value.
    carried: Vec<u32>,
    pub head: Option<Emission>,
    /// The number of the head.
    pick: u64,
    pub queue: VecDeque<Emission>,
}

impl Slot {
    fn new(sender: u16, epoch: u32) -> Slot {
        Slot { sender, epoch, keys: 0, carried: Vec::new(), head: None, pick: 0, queue: VecDeque::new() }
    }

    fn announce(&mut self, keys: u64) {
        self.keys = keys;
        self.carried.clear();
    }

    fn put(&mut self, value: Value, pairs: &[u8]) {
        let changed = if cfg!(feature = "kept") { self.changed_by(pairs) } else { 0 };
        self.carried.resize(self.keys.count_ones() as usize, 0);
        for (place, clock) in clocks_of(pairs) {
            self.carried[place] = clock;
        }
        self.queue.push_back(Emission { value, keys: self.keys, clocks: self.carried.clone(), changed });
    }

    fn changed_by(&self, pairs: &[u8]) -> u64 {
        if self.carried.is_empty() {
            return self.keys;
        }
        let (mut at, mut rest, mut changed) = (0, self.keys, 0);
        for (place, _) in clocks_of(pairs) {
            while at < place {
                rest &= rest - 1;
                at += 1;
            }
            changed |= rest & rest.wrapping_neg();
        }
        changed
    }
}

#[derive(Debug)]
pub enum Entry {
    Did(u32),
    Took(u16, Vec<u8>),
    Computed(Emission, Vec<u64>),
    Sent(u16, Vec<u8>),
}

#[derive(Debug, PartialEq, Eq)]
pub enum Turned {
    Computed,
    Advanced,
    Empty(u16),
    Lags(u16, u16),
    Still,
}

/// Where frames go.
pub trait Outbox {
    fn send(&mut self, to: u16, frame: Vec<u8>);
}

pub struct Node {
    id: u16,
    clock: u32,
    due: bool,
    definition: Option<Definition>,
    slots: Vec<Slot>,
    /// Readers with their epochs, in the order of their Subscribes.
    readers: Vec<(u16, u32)>,
    floor: [u32; 64],
    last: Option<Emission>,
    changes: VecDeque<Change>,
    log: Option<Vec<Entry>>,
    choice: Choice,
}

impl Node {
    /// A service before its birth, with or without a log.
    pub fn new(id: u16, log: bool) -> Node {
        Node {
            id,
            clock: 0,
            due: false,
            definition: None,
            slots: Vec::new(),
            readers: Vec::new(),
            floor: [0; 64],
            last: None,
            changes: VecDeque::new(),
            log: log.then(Vec::new),
            choice: Choice::new(),
        }
    }

    /// The value last computed.
    pub fn value(&self) -> &Value {
        &self.last.as_ref().unwrap().value
    }

    pub fn log(&self) -> &[Entry] {
        self.log.as_deref().unwrap_or(&[])
    }

    /// Begins a leg with an empty log.
    pub fn open_leg(&mut self) {
        if let Some(log) = &mut self.log {
            log.clear();
            for slot in &mut self.slots {
                slot.pick = 0;
            }
        }
    }

    pub fn push_change(&mut self, change: Change) {
        self.changes.push_back(change);
    }

    pub fn has_changes(&self) -> bool {
        !self.changes.is_empty()
    }

    /// The services that it reads.
    pub fn dependencies(&self) -> impl Iterator<Item = u16> + '_ {
        self.slots.iter().map(|slot| slot.sender)
    }

    /// True where a turn may do something though nothing comes in.
    pub fn turn_wanted(&self) -> bool {
        self.due || self.slots.iter().any(|slot| !slot.queue.is_empty())
    }

    fn post<O: Outbox>(log: &mut Option<Vec<Entry>>, to: u16, frame: Vec<u8>, outbox: &mut O) {
        if let Some(log) = log {
            log.push(Entry::Sent(to, frame.clone()));
        }
        outbox.send(to, frame);
    }

    /// Does the next change; false where none is left.
    pub fn do_next<O: Outbox>(&mut self, outbox: &mut O) -> bool {
        let Some(change) = self.changes.pop_front() else { return false };
        self.clock += 1;
        self.due = true;
        if let Some(log) = &mut self.log {
            log.push(Entry::Did(self.clock));
        }
        let rewires = !matches!(change, Change::Set(_) | Change::Birth(Definition::Input(_)));
        Definition::apply(&mut self.definition, change);
        if rewires {
            self.rewire(outbox);
        }
        true
    }

    fn rewire<O: Outbox>(&mut self, outbox: &mut O) {
        let Some(Definition::Derived(formula)) = &self.definition else { unreachable!() };
        self.choice.rewired();
        let mut old = std::mem::take(&mut self.slots);
        old.retain(|slot| {
            let stays = formula.has(slot.sender);
            if !stays {
                Node::post(&mut self.log, slot.sender, edge_frame(UNSUBSCRIBE, slot.epoch), outbox);
            }
            stays
        });
        for sender in formula.dependencies() {
            match old.iter().position(|slot| slot.sender == sender) {
                Some(at) => self.slots.push(old.swap_remove(at)),
                None => {
                    self.slots.push(Slot::new(sender, self.clock));
                    Node::post(&mut self.log, sender, edge_frame(SUBSCRIBE, self.clock), outbox);
                }
            }
        }
    }

    /// Takes a frame of this sender.
    pub fn take<O: Outbox>(&mut self, sender: u16, frame: &[u8], outbox: &mut O) {
        if let Some(log) = &mut self.log {
            log.push(Entry::Took(sender, frame.to_vec()));
        }
        let epoch = epoch_of(frame);
        match frame[0] {
            SUBSCRIBE => {
                self.readers.push((sender, epoch));
                if let Some(last) = &self.last {
                    Node::post(&mut self.log, sender, sources_frame(epoch, last.keys), outbox);
                    Node::post(&mut self.log, sender, value_frame(epoch, last, None), outbox);
                }
            }
            UNSUBSCRIBE => self.readers.retain(|reader| *reader != (sender, epoch)),
            SOURCES => {
                if let Some(at) = self.slot_of(sender, epoch) {
                    self.slots[at].announce(keys_of(frame));
                }
            }
            VALUE => {
                if let Some(at) = self.slot_of(sender, epoch) {
                    let (value, pairs) = value_of(frame);
                    self.slots[at].put(value, pairs);
                    self.choice.queued(at);
                }
            }
            _ => panic!("a frame of another kind"),
        }
    }

    fn slot_of(&self, sender: u16, epoch: u32) -> Option<usize> {
        self.slots.iter().position(|slot| slot.sender == sender && slot.epoch == epoch)
    }

    /// One turn.
    pub fn turn<O: Outbox>(&mut self, outbox: &mut O) -> Turned {
        if self.clock == 0 {
            return Turned::Still;
        }
        match self.choice.next(&self.slots, &self.floor, self.due) {
            Ok(slot) => {
                self.choice.advance(&mut self.slots, slot);
                self.slots[slot].pick += 1;
                self.due = true;
                Turned::Advanced
            }
            Err(Turned::Computed) => {
                self.compute(outbox);
                Turned::Computed
            }
            Err(other) => other,
        }
    }

    fn compute<O: Outbox>(&mut self, outbox: &mut O) {
        let emission = self.emission();
        if let Some(log) = &mut self.log {
            log.push(Entry::Computed(emission.clone(), self.slots.iter().map(|slot| slot.pick).collect()));
        }
        self.due = false;
        self.tell(&emission, outbox);
        self.last = Some(emission);
    }

    /// The value of the present definition over the heads, with the union of their stamps and the own clock. Raises the floor.
    fn emission(&mut self) -> Emission {
        let value = self.meaning();
        let (keys, union) = self.choice.union(&self.slots);
        let keys = keys | 1 << self.id;
        union[self.id as usize] = self.clock;
        let mut clocks = Vec::with_capacity(keys.count_ones() as usize);
        for key in Keys(keys) {
            clocks.push(union[key]);
            if union[key] > self.floor[key] {
                self.floor[key] = union[key];
            }
        }
        Emission { value, keys, clocks, changed: 0 }
    }

    fn meaning(&self) -> Value {
        match self.definition.as_ref().unwrap() {
            Definition::Input(value) => value.clone(),
            Definition::Derived(formula) => {
                const ZERO: &Value = &Value::Int(0);
                let mut given = [ZERO; 16];
                for (given, slot) in given.iter_mut().zip(&self.slots) {
                    *given = &slot.head.as_ref().unwrap().value;
                }
                let (names, members) = given[..self.slots.len()].split_at(formula.names.len());
                formula.tree.eval(names, members)
            }
        }
    }

    /// Sends an emission to all readers. Each has the one before it, so that the frames differ in their epochs alone.
    fn tell<O: Outbox>(&mut self, emission: &Emission, outbox: &mut O) {
        let old = self.last.take().filter(|last| last.keys == emission.keys);
        if self.readers.is_empty() {
            return;
        }
        let frame = value_frame(0, emission, old.as_ref().map(|old| &old.clocks[..]));
        for (to, epoch) in &self.readers {
            if old.is_none() {
                Node::post(&mut self.log, *to, sources_frame(*epoch, emission.keys), outbox);
            }
            let mut frame = frame.clone();
            frame[1..5].copy_from_slice(&epoch.to_be_bytes());
            Node::post(&mut self.log, *to, frame, outbox);
        }
    }
}
