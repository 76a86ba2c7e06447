//! Rings of 32 pieces between two threads. A frame goes behind its length, in pieces of at most 64 bytes.
use std::cell::UnsafeCell;
use std::collections::VecDeque;
use std::sync::atomic::{
    AtomicUsize,
    Ordering::{Acquire, Release},
};
use std::sync::Arc;

const PIECES: usize = 32;
const PIECE_BYTES: usize = 64;

#[derive(Clone, Copy)]
struct Piece {
    length: usize,
    bytes: [u8; PIECE_BYTES],
}

impl Piece {
    /// The piece that begins at this place of a frame behind its length.
    fn of(frame: &[u8], at: usize) -> Piece {
        let mut piece = Piece { length: 0, bytes: [0; PIECE_BYTES] };
        if at == 0 {
            piece.append(&(frame.len() as u16).to_be_bytes());
        }
        piece.append(&frame[at.saturating_sub(2)..frame.len().min(at + PIECE_BYTES - 2)]);
        piece
    }

    fn append(&mut self, bytes: &[u8]) {
        self.bytes[self.length..self.length + bytes.len()].copy_from_slice(bytes);
        self.length += bytes.len();
    }
}

/// A number with cache lines of its own.
#[repr(align(128))]
struct Apart(AtomicUsize);

/// The slots of a ring, and how many pieces were pushed and popped. A slot is the writer's until `pushed` passes it, and the reader's until
/// `popped` does.
struct Ring {
    pushed: Apart,
    popped: Apart,
    slots: [UnsafeCell<Piece>; PIECES],
}

// One RingOut and one RingIn are made of a ring, and each of them reaches only the slots that are its own.
unsafe impl Sync for Ring {}

/// The end of a ring that a writer has.
pub struct RingOut {
    ring: Arc<Ring>,
    pushed: usize,
    /// What the reader had popped at the last look.
    popped: usize,
    /// Frames that are not pushed, and where the next piece begins in the first of them.
    frames: VecDeque<Vec<u8>>,
    at: usize,
}

/// The end of a ring that a reader has.
pub struct RingIn {
    ring: Arc<Ring>,
    /// What the writer had pushed at the last look.
    pushed: usize,
    popped: usize,
    /// The bytes of a frame that has not wholly come.
    held: Vec<u8>,
}

/// The two ends of a new ring.
pub fn ring() -> (RingOut, RingIn) {
    let slots = std::array::from_fn(|_| UnsafeCell::new(Piece { length: 0, bytes: [0; PIECE_BYTES] }));
    let ring = Arc::new(Ring { pushed: Apart(AtomicUsize::new(0)), popped: Apart(AtomicUsize::new(0)), slots });
    (
        RingOut { ring: ring.clone(), pushed: 0, popped: 0, frames: VecDeque::new(), at: 0 },
        RingIn { ring, pushed: 0, popped: 0, held: Vec::new() },
    )
}

impl RingOut {
    /// Puts a frame behind those that are not pushed.
    pub fn send(&mut self, frame: Vec<u8>) {
        self.frames.push_back(frame);
    }

    /// Pushes the pieces that fit; true where one did.
    pub fn push_frames(&mut self) -> bool {
        let before = self.pushed;
        while self.push_frame() {
            self.frames.pop_front();
            self.at = 0;
        }
        self.pushed != before
    }

    /// Pushes the pieces of the first frame that fit; true where all of it is pushed.
    fn push_frame(&mut self) -> bool {
        let Some(length) = self.frames.front().map(|frame| frame.len() + 2) else { return false };
        while self.at < length {
            if self.is_full() {
                return false;
            }
            self.push(Piece::of(&self.frames[0], self.at));
            self.at += PIECE_BYTES;
        }
        true
    }

    fn is_full(&mut self) -> bool {
        if self.pushed - self.popped == PIECES {
            self.popped = self.ring.popped.0.load(Acquire);
        }
        self.pushed - self.popped == PIECES
    }

    /// Pushes a piece into a ring that is not full.
    fn push(&mut self, piece: Piece) {
        unsafe { *self.ring.slots[self.pushed % PIECES].get() = piece };
        self.pushed += 1;
        self.ring.pushed.0.store(self.pushed, Release);
    }
}

impl RingIn {
    /// The next frame, where all of it has come.
    pub fn next_frame(&mut self) -> Option<Vec<u8>> {
        loop {
            let piece = self.pop()?;
            self.held.extend_from_slice(&piece.bytes[..piece.length]);
            let length = u16::from_be_bytes([self.held[0], self.held[1]]) as usize;
            if self.held.len() == length + 2 {
                let frame = self.held[2..].to_vec();
                self.held.clear();
                return Some(frame);
            }
        }
    }

    fn pop(&mut self) -> Option<Piece> {
        if self.popped == self.pushed {
            self.pushed = self.ring.pushed.0.load(Acquire);
        }
        if self.popped == self.pushed {
            return None;
        }
        let piece = unsafe { *self.ring.slots[self.popped % PIECES].get() };
        self.popped += 1;
        self.ring.popped.0.store(self.popped, Release);
        Some(piece)
    }
}
