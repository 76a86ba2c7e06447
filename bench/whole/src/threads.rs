//! The network with a thread for each service in each leg, and rings between the services that may speak in it.
use crate::document::{Change, Definition, Leg, Plan};
use crate::keys::Keys;
use crate::node::{Node, Outbox, Turned};
use crate::ring::{ring, RingIn, RingOut};
use crate::trace::{put_log, put_settled};
use crate::Output;
use std::sync::atomic::{AtomicU64, Ordering::SeqCst};
use std::thread;

/// The ends of the rings on which one service sends, one for each peer, rising.
struct Rings {
    peers: u64,
    ends: Vec<RingOut>,
    /// Frames that the shared count does not have.
    sent: u64,
}

impl Outbox for Rings {
    fn send(&mut self, to: u16, frame: Vec<u8>) {
        let place = (self.peers & ((1 << to) - 1)).count_ones() as usize;
        self.ends[place].send(frame);
        self.sent += 1;
    }
}

impl Rings {
    /// Pushes what fits; true where something did. The frames enter the count before one of them can be taken.
    fn hand_over(&mut self, open: &AtomicU64) -> bool {
        if self.sent > 0 {
            open.fetch_add(self.sent, SeqCst);
            self.sent = 0;
        }
        self.ends.iter_mut().fold(false, |pushed, end| end.push_frames() | pushed)
    }
}

/// A service at work, with the rings to and from its peers.
struct Worker<'a> {
    node: &'a mut Node,
    from: Vec<RingIn>,
    to: Rings,
}

impl Worker<'_> {
    /// Polls until the shared count is 0: of frames that were sent and not taken, and of services that have changes left.
    fn work(mut self, open: &AtomicU64) {
        let mut at_start = true;
        while open.load(SeqCst) > 0 {
            let (mut closed, busy) = self.poll(open);
            if at_start && !self.node.has_changes() {
                at_start = false;
                closed += 1;
            }
            if closed > 0 {
                open.fetch_sub(closed, SeqCst);
            } else if !busy {
                thread::yield_now();
            }
        }
    }

    /// Takes at most one frame from each ring, does one change, takes turns until one does nothing, and hands over what fits. How many frames
    /// were taken, and whether anything else was done.
    fn poll(&mut self, open: &AtomicU64) -> (u64, bool) {
        let taken = self.take_each();
        let mut busy = self.node.do_next(&mut self.to);
        while matches!(self.node.turn(&mut self.to), Turned::Computed | Turned::Advanced) {
            busy = true;
        }
        (taken, self.to.hand_over(open) | busy)
    }

    fn take_each(&mut self) -> u64 {
        let mut taken = 0;
        for (sender, ring) in Keys(self.to.peers).zip(&mut self.from) {
            if let Some(frame) = ring.next_frame() {
                self.node.take(sender as u16, &frame, &mut self.to);
                taken += 1;
            }
        }
        taken
    }
}

/// Runs a document leg by leg, each service in a thread of its own, and writes its settled text, with `trace` the logs too.
pub fn run(plan: Plan, log: bool, trace: bool, output: &mut Output) {
    let Plan { services, legs, .. } = plan;
    let mut nodes: Vec<Node> = Vec::new();
    for (number, Leg { born, changes, .. }) in (1..).zip(legs) {
        let all = nodes.len() + born;
        nodes.extend((nodes.len()..all).map(|id| Node::new(id as u16, log)));
        if log {
            nodes.iter_mut().for_each(Node::open_leg);
        }
        let peers = peers_in_leg(&nodes, &changes);
        for (id, change) in changes {
            nodes[id as usize].push_change(change);
        }
        run_leg(workers(&mut nodes, &peers));
        if trace {
            put_log(&services, &nodes, &mut output.text);
        }
        put_settled(number, &services, &nodes, &mut output.text);
        output.end_leg();
    }
}

/// For each service those that it may speak with in a leg: what it reads, by its definition before the leg and by those to come, and what so reads it.
fn peers_in_leg(nodes: &[Node], changes: &[(u16, Change)]) -> Vec<u64> {
    let mut peers = vec![0; nodes.len()];
    for (id, node) in (0..).zip(nodes) {
        node.dependencies().for_each(|other| join(&mut peers, id, other));
    }
    for (id, change) in changes {
        match change {
            Change::Birth(Definition::Derived(formula)) | Change::Define(formula) => {
                formula.dependencies().for_each(|other| join(&mut peers, *id, other));
            }
            Change::Add(member) => join(&mut peers, *id, *member),
            Change::Birth(Definition::Input(_)) | Change::Set(_) | Change::Drop(_) => {}
        }
    }
    peers
}

fn join(peers: &mut [u64], id: u16, other: u16) {
    peers[id as usize] |= 1 << other;
    peers[other as usize] |= 1 << id;
}

/// The services as workers, with new rings.
fn workers<'a>(nodes: &'a mut [Node], peers: &[u64]) -> Vec<Worker<'a>> {
    let new =
        |(node, peers): (&'a mut Node, &u64)| Worker { node, from: Vec::new(), to: Rings { peers: *peers, ends: Vec::new(), sent: 0 } };
    let mut workers: Vec<Worker> = nodes.iter_mut().zip(peers).map(new).collect();
    for (sender, peers) in peers.iter().enumerate() {
        for reader in Keys(*peers) {
            let (to, from) = ring();
            workers[sender].to.ends.push(to);
            workers[reader].from.push(from);
        }
    }
    workers
}

/// Runs the workers of a leg side by side until it has settled.
fn run_leg(workers: Vec<Worker>) {
    let open = &AtomicU64::new(workers.len() as u64);
    thread::scope(|scope| {
        for worker in workers {
            scope.spawn(move || worker.work(open));
        }
    });
}
