//! The protocol of qprop in plain Rust, to measure the proved program against: `step`, `run` and `check` on the same documents, with the same output.
#[cfg_attr(feature = "kept", path = "choice_kept.rs")]
mod choice;
mod document;
mod expression;
mod frames;
mod keys;
mod lines;
mod network;
mod node;
mod ring;
mod threads;
mod tokens;
mod trace;
mod value;

use std::io::{Read, Write};
use std::process::exit;

/// The longest document, in bytes.
const LONGEST: u64 = 1_048_576;

/// What is written, in pieces of 64 KiB.
pub struct Output {
    pub text: Vec<u8>,
}

impl Output {
    /// Writes what is there where it is enough for a piece.
    pub fn end_leg(&mut self) {
        if self.text.len() > 1 << 16 {
            self.flush();
        }
    }

    fn flush(&mut self) {
        if std::io::stdout().lock().write_all(&self.text).is_err() {
            exit(4);
        }
        self.text.clear();
    }
}

/// The command that the words name, and whether it keeps logs and writes trace lines.
fn command_of<'a>(words: &[&'a str]) -> Option<(&'a str, bool, bool)> {
    match *words {
        ["check"] => Some(("check", false, false)),
        [command @ ("step" | "run")] => Some((command, false, false)),
        [command @ ("step" | "run"), "--log"] => Some((command, true, false)),
        [command @ ("step" | "run"), "--trace"] => Some((command, true, true)),
        _ => None,
    }
}

fn main() {
    let words: Vec<String> = std::env::args().skip(1).collect();
    let words: Vec<&str> = words.iter().map(String::as_str).collect();
    let Some((command, log, trace)) = command_of(&words) else {
        println!("usage: plain step [--log|--trace] | run [--log|--trace] | check");
        exit(1);
    };
    let mut bytes = Vec::with_capacity(1 << 20);
    if std::io::stdin().lock().take(LONGEST + 1).read_to_end(&mut bytes).is_err() {
        exit(3);
    }
    let plan = match document::read_document(&bytes, command == "step") {
        Ok(plan) => plan,
        Err(refusal) => {
            println!("refused {} E{:02}", refusal.line, refusal.code);
            exit(2);
        }
    };
    let mut output = Output { text: Vec::with_capacity(1 << 17) };
    match command {
        "step" => network::step(plan, log, trace, &mut output),
        "run" => threads::run(plan, log, trace, &mut output),
        _ => println!("accepted services={} changes={} settles={}", plan.services.len(), plan.changes, plan.legs.len()),
    }
    output.flush();
}
