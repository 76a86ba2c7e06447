//! Printed texts: settled values, notes of step lines, and logs.
use crate::document::Service;
use crate::keys::Keys;
use crate::network::Note;
use crate::node::{Emission, Entry, Node, Turned};
use crate::value::{put_hex, put_u64};

pub fn put_settled(number: u64, services: &[Service], nodes: &[Node], text: &mut Vec<u8>) {
    text.extend_from_slice(b"settle ");
    put_u64(number, text);
    text.push(b'\n');
    for (service, node) in services.iter().zip(nodes) {
        text.extend_from_slice(service.name.as_bytes());
        text.push(b' ');
        node.value().print(text);
        text.push(b'\n');
    }
}

pub fn put_note(line: u32, note: &Note, services: &[Service], text: &mut Vec<u8>) {
    let name = |id: &u16| &services[*id as usize].name;
    let note = match note {
        Note::Did => "did".into(),
        Note::Took => "took".into(),
        Note::Idle => "idle".into(),
        Note::Turned(Turned::Computed) => "computed".into(),
        Note::Turned(Turned::Advanced) => "advanced".into(),
        Note::Turned(Turned::Still) => "still".into(),
        Note::Turned(Turned::Empty(sender)) => format!("empty {}", name(sender)),
        Note::Turned(Turned::Lags(sender, key)) => format!("lags {} {}", name(sender), name(key)),
    };
    text.extend_from_slice(format!("# step {line} {note}\n").as_bytes());
}

pub fn put_log(services: &[Service], nodes: &[Node], text: &mut Vec<u8>) {
    for (service, node) in services.iter().zip(nodes) {
        for entry in node.log() {
            text.extend_from_slice(b"# log ");
            text.extend_from_slice(service.name.as_bytes());
            put_entry(entry, services, text);
            text.push(b'\n');
        }
    }
}

fn put_entry(entry: &Entry, services: &[Service], text: &mut Vec<u8>) {
    match entry {
        Entry::Did(clock) => {
            text.extend_from_slice(b" did ");
            put_u64(*clock as u64, text);
        }
        Entry::Took(sender, frame) => put_frame(b" took ", &services[*sender as usize], frame, text),
        Entry::Sent(reader, frame) => put_frame(b" sent ", &services[*reader as usize], frame, text),
        Entry::Computed(emission, picks) => {
            text.extend_from_slice(b" computed ");
            emission.value.print(text);
            text.extend_from_slice(b" with ");
            put_stamps(emission, services, text);
            text.extend_from_slice(b" picks ");
            put_picks(picks, text);
        }
    }
}

fn put_frame(did: &[u8], peer: &Service, frame: &[u8], text: &mut Vec<u8>) {
    text.extend_from_slice(did);
    text.extend_from_slice(peer.name.as_bytes());
    text.push(b' ');
    put_hex(frame, text);
}

fn put_stamps(emission: &Emission, services: &[Service], text: &mut Vec<u8>) {
    for (at, (key, clock)) in Keys(emission.keys).zip(&emission.clocks).enumerate() {
        if at > 0 {
            text.push(b',');
        }
        text.extend_from_slice(services[key].name.as_bytes());
        text.push(b'@');
        put_u64(*clock as u64, text);
    }
}

fn put_picks(picks: &[u64], text: &mut Vec<u8>) {
    if picks.is_empty() {
        text.push(b'-');
    }
    for (at, pick) in picks.iter().enumerate() {
        if at > 0 {
            text.push(b',');
        }
        put_u64(*pick, text);
    }
}
