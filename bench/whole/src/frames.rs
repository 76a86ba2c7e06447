//! The bytes of frames.
use crate::keys::Keys;
use crate::node::Emission;
use crate::value::Value;

pub const SUBSCRIBE: u8 = 1;
pub const UNSUBSCRIBE: u8 = 2;
pub const SOURCES: u8 = 3;
pub const VALUE: u8 = 5;

/// A Subscribe or an Unsubscribe.
pub fn edge_frame(kind: u8, epoch: u32) -> Vec<u8> {
    let mut frame = Vec::with_capacity(5);
    frame.push(kind);
    frame.extend_from_slice(&epoch.to_be_bytes());
    frame
}

pub fn sources_frame(epoch: u32, keys: u64) -> Vec<u8> {
    let mut frame = Vec::with_capacity(6 + 2 * keys.count_ones() as usize);
    frame.push(SOURCES);
    frame.extend_from_slice(&epoch.to_be_bytes());
    frame.push(keys.count_ones() as u8);
    for key in Keys(keys) {
        frame.extend_from_slice(&(key as u16).to_be_bytes());
    }
    frame
}

/// A Value with the clocks that differ from `old`, or with all of them.
pub fn value_frame(epoch: u32, emission: &Emission, old: Option<&[u32]>) -> Vec<u8> {
    let room = match &emission.value {
        Value::Text(text) => 3 + text.len(),
        _ => 9,
    };
    let places = if old.is_none() { emission.clocks.len() } else { 4 };
    let mut frame = Vec::with_capacity(6 + room + 5 * places);
    frame.push(VALUE);
    frame.extend_from_slice(&epoch.to_be_bytes());
    emission.value.put(&mut frame);
    let at = frame.len();
    frame.push(0);
    let mut count = 0;
    for (place, clock) in emission.clocks.iter().enumerate() {
        if old.is_none_or(|old| old[place] != *clock) {
            count += 1;
            frame.push(place as u8);
            frame.extend_from_slice(&clock.to_be_bytes());
        }
    }
    frame[at] = count;
    frame
}

pub fn epoch_of(frame: &[u8]) -> u32 {
    u32::from_be_bytes(frame[1..5].try_into().unwrap())
}

/// The keys of a Sources.
pub fn keys_of(frame: &[u8]) -> u64 {
    frame[6..].chunks_exact(2).fold(0, |keys, key| keys | 1 << u16::from_be_bytes([key[0], key[1]]))
}

/// The value of a Value, and the bytes of its places and clocks.
pub fn value_of(frame: &[u8]) -> (Value, &[u8]) {
    let (value, length) = Value::take(&frame[5..]);
    (value, &frame[6 + length..])
}

/// The places and clocks of a Value.
pub fn clocks_of(pairs: &[u8]) -> impl Iterator<Item = (usize, u32)> + '_ {
    pairs.chunks_exact(5).map(|pair| (pair[0] as usize, u32::from_be_bytes(pair[1..].try_into().unwrap())))
}
