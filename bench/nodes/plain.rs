// The same protocol in plain Rust: services of whole numbers that sum, and no changes but births and new values.
use std::collections::VecDeque;

#[derive(Clone, Default)]
struct Stamps { present: u64, clocks: Vec<u32> }
impl Stamps {
    fn get(&self, key: u32) -> u32 {
        if self.present >> key & 1 == 0 { 0 } else { self.clocks[(self.present & ((1 << key) - 1)).count_ones() as usize] }
    }
    fn join(&self, other: &Stamps) -> Stamps {
        let present = self.present | other.present;
        let mut clocks = Vec::with_capacity(present.count_ones() as usize);
        for key in keys(present) { clocks.push(self.get(key).max(other.get(key))); }
        Stamps { present, clocks }
    }
}
fn keys(mut present: u64) -> impl Iterator<Item = u32> {
    std::iter::from_fn(move || (present != 0).then(|| { let key = present.trailing_zeros(); present &= present - 1; key }))
}
#[derive(Clone)]
struct Emission { value: i64, stamps: Stamps }
struct Slot { sender: u16, epoch: u32, present: u64, carried: Option<Vec<u32>>, head: Option<Emission>, number: u64, queue: VecDeque<Emission> }
#[allow(dead_code)]
enum Entry { Did(u32), Took(u16, Vec<u8>), Computed(Emission, Vec<u64>), Sent(u16, Vec<u8>) }
struct Node {
    id: u16, own: u32, input: i64, due: bool, slots: Vec<Slot>, readers: Vec<(u16, u32)>, floor: [u32; 64], last: Option<Emission>,
    log: Vec<Entry>, outbox: VecDeque<(u16, Vec<u8>)>,
}
#[derive(PartialEq)]
enum Turned { Computed, Advanced, Nothing }

impl Node {
    fn new(id: u16, sources: &[u16]) -> Node {
        let slots = sources.iter().map(|&sender| Slot { sender, epoch: 1, present: 0, carried: None, head: None, number: 0, queue: VecDeque::new() }).collect();
        Node { id, own: 0, input: 0, due: false, slots, readers: vec![], floor: [0; 64], last: None, log: vec![], outbox: VecDeque::new() }
    }
    fn send(&mut self, to: u16, bytes: Vec<u8>) {
        self.log.push(Entry::Sent(to, bytes.clone()));
        self.outbox.push_back((to, bytes));
    }
    fn change(&mut self, input: i64) {
        self.own += 1;
        self.log.push(Entry::Did(self.own));
        self.input = input;
        self.due = true;
        if self.own == 1 {
            for place in 0..self.slots.len() { self.send(self.slots[place].sender, frame(1, 1, 0)); }
        }
    }
    fn take(&mut self, from: u16, bytes: Vec<u8>) -> Option<()> {
        let epoch = u32::from_be_bytes(bytes.get(1..5)?.try_into().ok()?);
        match bytes[0] {
            1 => {
                if self.readers.iter().any(|reader| reader.0 == from) { return None; }
                self.log.push(Entry::Took(from, bytes));
                self.readers.push((from, epoch));
                if let Some(last) = self.last.clone() { self.tell((from, epoch), None, &last); }
            }
            3 => {
                let slot = self.slots.iter_mut().find(|slot| slot.sender == from)?;
                let mut present = 0u64;
                for pair in bytes.get(6..6 + 2 * usize::from(bytes[5]))?.chunks(2) { present |= 1 << u16::from_be_bytes([pair[0], pair[1]]); }
                slot.present = present;
                slot.carried = None;
                self.log.push(Entry::Took(from, bytes));
            }
            5 => {
                let slot = self.slots.iter_mut().find(|slot| slot.sender == from)?;
                let value = i64::from_be_bytes(bytes.get(6..14)?.try_into().ok()?);
                let mut clocks = slot.carried.take().unwrap_or_else(|| vec![0; slot.present.count_ones() as usize]);
                for named in bytes.get(15..15 + 5 * usize::from(bytes[14]))?.chunks(5) {
                    *clocks.get_mut(usize::from(named[0]))? = u32::from_be_bytes(named[1..].try_into().ok()?);
                }
                slot.carried = Some(clocks.clone());
                if slot.epoch != epoch { return None; }
                slot.queue.push_back(Emission { value, stamps: Stamps { present: slot.present, clocks } });
                self.log.push(Entry::Took(from, bytes));
            }
            _ => return None,
        }
        Some(())
    }
    fn tell(&mut self, reader: (u16, u32), told: Option<&Stamps>, emission: &Emission) {
        let stamps = &emission.stamps;
        let same = told.is_some_and(|told| told.present == stamps.present);
        if !same {
            let mut sources = frame(3, reader.1, 1 + 2 * stamps.clocks.len());
            sources.push(stamps.clocks.len() as u8);
            for key in keys(stamps.present) { sources.extend_from_slice(&(key as u16).to_be_bytes()); }
            self.send(reader.0, sources);
        }
        let changed = |place: &usize| !same || told.is_some_and(|told| told.clocks[*place] != stamps.clocks[*place]);
        let count = (0..stamps.clocks.len()).filter(changed).count();
        let mut value = frame(5, reader.1, 10 + 5 * count);
        value.push(1);
        value.extend_from_slice(&emission.value.to_be_bytes());
        value.push(count as u8);
        for place in (0..stamps.clocks.len()).filter(changed) {
            value.push(place as u8);
            value.extend_from_slice(&stamps.clocks[place].to_be_bytes());
        }
        self.send(reader.0, value);
    }
    fn compute(&mut self) {
        let mut stamps = Stamps { present: 1 << self.id, clocks: vec![self.own] };
        let mut sum = Some(self.input);
        for slot in &self.slots {
            let Some(head) = &slot.head else { return };
            stamps = stamps.join(&head.stamps);
            sum = sum.and_then(|sum| sum.checked_add(head.value));
        }
        let emission = Emission { value: sum.unwrap_or(0), stamps };
        let picks = self.slots.iter().map(|slot| slot.number).collect();
        self.log.push(Entry::Computed(emission.clone(), picks));
        let last = self.last.take();
        for place in 0..self.readers.len() { self.tell(self.readers[place], last.as_ref().map(|last| &last.stamps), &emission); }
        for (key, clock) in keys(emission.stamps.present).zip(&emission.stamps.clocks) { self.floor[key as usize] = self.floor[key as usize].max(*clock); }
        self.last = Some(emission);
        self.due = false;
    }
    fn advance(&mut self, place: usize) -> Turned {
        let slot = &mut self.slots[place];
        let Some(next) = slot.queue.pop_front() else { return Turned::Nothing };
        slot.head = Some(next);
        slot.number += 1;
        self.due = true;
        Turned::Advanced
    }
    fn turn(&mut self) -> Turned {
        if let Some(place) = self.slots.iter().position(|slot| slot.head.is_none()) { return self.advance(place); }
        let mut greatest_clocks = self.floor;
        for head in self.slots.iter().filter_map(|slot| slot.head.as_ref()) {
            for (key, clock) in keys(head.stamps.present).zip(&head.stamps.clocks) { greatest_clocks[key as usize] = greatest_clocks[key as usize].max(*clock); }
        }
        let lags = |slot: &Slot| slot.head.as_ref().is_some_and(|head| keys(head.stamps.present).zip(&head.stamps.clocks).any(|(key, clock)| *clock < greatest_clocks[key as usize]));
        if let Some(place) = self.slots.iter().position(lags) { return self.advance(place); }
        if self.due { self.compute(); return Turned::Computed; }
        match self.slots.iter().position(|slot| !slot.queue.is_empty()) { Some(place) => self.advance(place), None => Turned::Nothing }
    }
    fn next_out(&mut self, to: u16) -> Option<Vec<u8>> {
        let place = self.outbox.iter().position(|post| post.0 == to)?;
        self.outbox.remove(place).map(|post| post.1)
    }
}
fn frame(kind: u8, epoch: u32, rest: usize) -> Vec<u8> {
    let mut bytes = Vec::with_capacity(5 + rest);
    bytes.push(kind);
    bytes.extend_from_slice(&epoch.to_be_bytes());
    bytes
}
fn sources(shape: &str, id: u16) -> Vec<u16> {
    match shape {
        "chain" => vec![id - 1],
        "diamonds" if id % 3 == 0 => vec![id - 2, id - 1],
        "diamonds" => vec![id - id % 3],
        _ => vec![0],
    }
}
fn carry(nodes: &mut [Node], from: u16, to: u16) -> u32 {
    let mut count = 0;
    while let Some(bytes) = nodes[usize::from(from)].next_out(to) {
        nodes[usize::from(to)].take(from, bytes).expect("a frame is refused");
        count += 1;
    }
    count
}
fn spread(nodes: &mut [Node]) -> u32 {
    let mut count = 0;
    for id in 0..64 {
        for place in 0..nodes[usize::from(id)].slots.len() { count += carry(nodes, nodes[usize::from(id)].slots[place].sender, id); }
        while nodes[usize::from(id)].turn() != Turned::Nothing {}
    }
    count
}
fn main() {
    let words: Vec<String> = std::env::args().collect();
    let changes: u16 = words.get(2).and_then(|word| word.parse().ok()).unwrap_or(100);
    let mut nodes = vec![Node::new(0, &[])];
    for id in 1..64 { nodes.push(Node::new(id, &sources(&words[1], id))); }
    nodes[0].change(0);
    let mut messages = 0;
    for id in 1..64 {
        nodes[usize::from(id)].change(0);
        for source in sources(&words[1], id) { messages += carry(&mut nodes, id, source); }
    }
    messages += spread(&mut nodes);
    for number in 0..changes {
        nodes[0].change(i64::from(number) + 1);
        messages += spread(&mut nodes);
    }
    println!("{messages}");
}
