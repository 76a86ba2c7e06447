//! The network on one thread: links, step lines and the drain.
use crate::document::{Leg, Plan, Service, Step};
use crate::keys::Keys;
use crate::node::{Node, Outbox, Turned};
use crate::trace::{put_log, put_note, put_settled};
use crate::Output;
use std::collections::VecDeque;

/// One queue of frames for each ordered pair, and for each reader the senders whose queue is not empty.
struct Links {
    queues: Vec<VecDeque<Vec<u8>>>,
    waiting: [u64; 64],
}

impl Links {
    fn new() -> Links {
        Links { queues: (0..64 * 64).map(|_| VecDeque::new()).collect(), waiting: [0; 64] }
    }

    fn of(&mut self, sender: u16) -> LinksOf<'_> {
        LinksOf { links: self, sender }
    }

    fn pop(&mut self, reader: u16, sender: u16) -> Option<Vec<u8>> {
        let queue = &mut self.queues[reader as usize * 64 + sender as usize];
        let frame = queue.pop_front();
        if queue.is_empty() {
            self.waiting[reader as usize] &= !(1 << sender);
        }
        frame
    }
}

/// The links on which one service sends.
struct LinksOf<'a> {
    links: &'a mut Links,
    sender: u16,
}

impl Outbox for LinksOf<'_> {
    fn send(&mut self, to: u16, frame: Vec<u8>) {
        self.links.waiting[to as usize] |= 1 << self.sender;
        self.links.queues[to as usize * 64 + self.sender as usize].push_back(frame);
    }
}

/// What a step line came to.
pub enum Note {
    Did,
    Took,
    Turned(Turned),
    Idle,
}

/// Runs a document leg by leg and writes its settled text, with `trace` the trace lines too.
pub fn step(plan: Plan, log: bool, trace: bool, output: &mut Output) {
    let Plan { services, legs, .. } = plan;
    let mut links = Links::new();
    let mut nodes: Vec<Node> = Vec::new();
    let mut order = Vec::new();
    for (number, Leg { born, changes, steps }) in (1..).zip(legs) {
        if born > 0 {
            let all = nodes.len() + born;
            nodes.extend((nodes.len()..all).map(|id| Node::new(id as u16, log)));
            order = by_rank(&services[..all]);
        }
        if log {
            nodes.iter_mut().for_each(Node::open_leg);
        }
        for (id, change) in changes {
            nodes[id as usize].push_change(change);
        }
        for (line, step) in steps {
            let note = make_step(step, &mut nodes, &mut links);
            if trace {
                put_note(line, &note, &services, &mut output.text);
            }
        }
        drain(&order, &mut nodes, &mut links);
        if trace {
            put_log(&services, &nodes, &mut output.text);
        }
        put_settled(number, &services, &nodes, &mut output.text);
        output.end_leg();
    }
}

fn by_rank(services: &[Service]) -> Vec<u16> {
    let mut order: Vec<u16> = (0..services.len() as u16).collect();
    order.sort_by_key(|id| (services[*id as usize].rank, *id));
    order
}

fn make_step(step: Step, nodes: &mut [Node], links: &mut Links) -> Note {
    match step {
        Step::Do(id) if nodes[id as usize].do_next(&mut links.of(id)) => Note::Did,
        Step::Do(_) => Note::Idle,
        Step::Take(id, sender) => match links.pop(id, sender) {
            None => Note::Idle,
            Some(frame) => {
                nodes[id as usize].take(sender, &frame, &mut links.of(id));
                Note::Took
            }
        },
        Step::Turn(id) => Note::Turned(nodes[id as usize].turn(&mut links.of(id))),
    }
}

/// Two passes over all services by rank: each does its changes, takes what came, and turns until it has nothing to do.
fn drain(order: &[u16], nodes: &mut [Node], links: &mut Links) {
    for &id in order.iter().chain(order) {
        let node = &mut nodes[id as usize];
        let mut woken = node.turn_wanted();
        while node.do_next(&mut links.of(id)) {
            woken = true;
        }
        for sender in Keys(links.waiting[id as usize]) {
            while let Some(frame) = links.pop(id, sender as u16) {
                node.take(sender as u16, &frame, &mut links.of(id));
                woken = true;
            }
        }
        // A turn of a service to which nothing came would answer as the last one did.
        if woken {
            while matches!(node.turn(&mut links.of(id)), Turned::Computed | Turned::Advanced) {}
        }
    }
}
