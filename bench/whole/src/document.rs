//! The document: services, legs, and what is refused.
use crate::expression::{Expr, Tree};
use crate::lines::{read_line, FormulaText, Line};
use crate::value::{Type, Value};
use std::collections::HashMap;
use std::str::from_utf8;
use std::sync::Arc;

const MOST_BYTES: usize = 1_048_576;
const MOST_LINE_BYTES: usize = 4096;
const MAX_SERVICES: usize = 64;
const MAX_DEPENDENCIES: usize = 16;
const MAX_CHANGES: usize = 1024;
const MAX_LEGS: usize = 1000;

#[derive(Clone, Debug)]
pub struct Formula {
    pub tree: Tree,
    pub names: Vec<u16>,
    pub members: Vec<u16>,
}

impl Formula {
    pub fn dependencies(&self) -> impl Iterator<Item = u16> + '_ {
        self.names.iter().chain(&self.members).copied()
    }

    pub fn has(&self, id: u16) -> bool {
        self.dependencies().any(|dependency| dependency == id)
    }
}

#[derive(Clone, Debug)]
pub enum Definition {
    Input(Value),
    Derived(Formula),
}

#[derive(Clone, Debug)]
pub enum Change {
    Birth(Definition),
    Set(Value),
    Add(u16),
    Drop(u16),
    Define(Formula),
}

impl Definition {
    pub fn apply(definition: &mut Option<Definition>, change: Change) {
        match (change, definition) {
            (Change::Birth(birth), slot) => *slot = Some(birth),
            (Change::Set(value), slot) => *slot = Some(Definition::Input(value)),
            (Change::Define(formula), slot) => *slot = Some(Definition::Derived(formula)),
            (Change::Add(member), Some(Definition::Derived(formula))) => formula.members.push(member),
            (Change::Drop(member), Some(Definition::Derived(formula))) => formula.members.retain(|other| *other != member),
            _ => unreachable!(),
        }
    }
}

#[derive(Clone, Debug)]
pub struct Service {
    pub name: String,
    pub rank: u16,
    pub ty: Type,
}

#[derive(Clone, Copy, Debug)]
pub enum Step {
    Do(u16),
    Take(u16, u16),
    Turn(u16),
}

#[derive(Default, Debug)]
pub struct Leg {
    /// How many services are declared in it.
    pub born: usize,
    pub changes: Vec<(u16, Change)>,
    /// Step lines with their numbers.
    pub steps: Vec<(u32, Step)>,
}

pub struct Plan {
    pub services: Vec<Service>,
    pub legs: Vec<Leg>,
    pub changes: usize,
}

type Code = u8;

pub struct Refusal {
    pub line: u32,
    pub code: Code,
}

fn ensure(holds: bool, code: Code) -> Result<(), Code> {
    if holds {
        Ok(())
    } else {
        Err(code)
    }
}

/// The services declared so far, with their present definitions.
#[derive(Default)]
struct Book {
    ids: HashMap<String, u16>,
    services: Vec<Service>,
    definitions: Vec<Option<Definition>>,
}

impl Book {
    fn find(&self, name: &str) -> Result<u16, Code> {
        self.ids.get(name).copied().ok_or(8)
    }

    fn find_all(&self, names: &[&str]) -> Result<Vec<u16>, Code> {
        names.iter().map(|name| self.find(name)).collect()
    }

    fn service(&self, id: u16) -> &Service {
        &self.services[id as usize]
    }

    fn derived(&self, id: u16) -> Result<&Formula, Code> {
        match &self.definitions[id as usize] {
            Some(Definition::Derived(formula)) => Ok(formula),
            _ => Err(14),
        }
    }

    /// The formula of a service of this type and rank.
    fn formula(&self, ty: Type, rank: u16, text: FormulaText) -> Result<Formula, Code> {
        let (names, members) = (self.find_all(&text.names)?, self.find_all(&text.members)?);
        let mut all: Vec<u16> = names.iter().chain(&members).copied().collect();
        ensure(all.iter().all(|id| self.service(*id).rank < rank), 9)?;
        let types: Vec<Type> = names.iter().map(|id| self.service(*id).ty).collect();
        ensure(text.tree.type_of(&types) == Some(ty), 10)?;
        ensure(!text.tree.wants_ints() || members.iter().all(|id| self.service(*id).ty == Type::Int), 10)?;
        ensure(all.len() <= MAX_DEPENDENCIES, 11)?;
        let count = all.len();
        all.sort_unstable();
        all.dedup();
        ensure(all.len() == count, 15)?;
        Ok(Formula { tree: Arc::new(text.tree), names, members })
    }

    /// The change that a line makes, with the service that it declares.
    fn change(&self, line: Line) -> Result<(u16, Change, Option<Service>), Code> {
        match line {
            Line::Input(name, ty, value) => {
                self.may_declare(name)?;
                ensure(value.has_type(ty), 10)?;
                Ok(self.birth(Service { name: name.into(), rank: 0, ty }, Definition::Input(value)))
            }
            Line::Derived(name, ty, rank, text) => {
                self.may_declare(name)?;
                let rank = rank_of(rank).ok_or(7)?;
                ensure(is_small(&text.tree), 12)?;
                let formula = self.formula(ty, rank, text)?;
                Ok(self.birth(Service { name: name.into(), rank, ty }, Definition::Derived(formula)))
            }
            Line::Define(name, text) => {
                ensure(is_small(&text.tree), 12)?;
                let id = self.find(name)?;
                self.find_all(&text.names)?;
                self.find_all(&text.members)?;
                let Service { rank, ty, .. } = *self.service(id);
                ensure(rank > 0, 14)?;
                Ok((id, Change::Define(self.formula(ty, rank, text)?), None))
            }
            Line::Set(name, value) => {
                let id = self.find(name)?;
                ensure(self.service(id).rank == 0, 13)?;
                ensure(value.has_type(self.service(id).ty), 10)?;
                Ok((id, Change::Set(value), None))
            }
            Line::Add(name, member) => {
                let (id, member) = (self.find(name)?, self.find(member)?);
                let formula = self.derived(id)?;
                ensure(self.service(member).rank < self.service(id).rank, 9)?;
                ensure(self.service(member).ty == Type::Int || !formula.tree.wants_ints(), 10)?;
                ensure(formula.has(member) || formula.dependencies().count() < MAX_DEPENDENCIES, 11)?;
                ensure(!formula.has(member), 15)?;
                Ok((id, Change::Add(member), None))
            }
            Line::Drop(name, member) => {
                let (id, member) = (self.find(name)?, self.find(member)?);
                ensure(self.derived(id)?.members.contains(&member), 16)?;
                Ok((id, Change::Drop(member), None))
            }
            _ => unreachable!(),
        }
    }

    fn may_declare(&self, name: &str) -> Result<(), Code> {
        ensure(self.find(name).is_err(), 5)?;
        ensure(self.services.len() < MAX_SERVICES, 6)
    }

    fn birth(&self, service: Service, definition: Definition) -> (u16, Change, Option<Service>) {
        (self.services.len() as u16, Change::Birth(definition), Some(service))
    }

    fn step(&self, line: Line) -> Result<Step, Code> {
        match line {
            Line::Do(name) => Ok(Step::Do(self.find(name)?)),
            Line::Take(name, sender) => Ok(Step::Take(self.find(name)?, self.find(sender)?)),
            Line::Turn(name) => Ok(Step::Turn(self.find(name)?)),
            _ => unreachable!(),
        }
    }
}

/// A rank from 1 to 1000; its digits may begin with zeros.
fn rank_of(digits: &str) -> Option<u16> {
    digits.parse().ok().filter(|rank| (1..=1000).contains(rank))
}

fn is_small(tree: &Expr) -> bool {
    let (nodes, depth) = tree.size();
    nodes <= 128 && depth <= 32
}

/// A document that is read line by line.
struct Reading {
    steps: bool,
    book: Book,
    legs: Vec<Leg>,
    /// Something stands after the last `settle`.
    open: bool,
    changes: usize,
}

impl Reading {
    fn leg(&mut self) -> &mut Leg {
        self.legs.last_mut().unwrap()
    }

    fn take(&mut self, number: u32, bytes: &[u8]) -> Result<(), Code> {
        ensure(bytes.len() <= MOST_LINE_BYTES, 2)?;
        match read_line(from_utf8(bytes).map_err(|_| 3)?).ok_or(4)? {
            Line::Blank => return Ok(()),
            Line::Settle => {
                ensure(self.legs.len() <= MAX_LEGS, 19)?;
                self.legs.push(Leg::default());
                self.open = false;
                return Ok(());
            }
            line @ (Line::Do(..) | Line::Take(..) | Line::Turn(..)) => {
                let step = self.book.step(line)?;
                ensure(self.steps, 18)?;
                ensure(self.legs.len() <= MAX_LEGS, 19)?;
                self.leg().steps.push((number, step));
            }
            line => {
                let (id, change, declared) = self.book.change(line)?;
                ensure(self.leg().changes.len() < MAX_CHANGES, 17)?;
                ensure(self.legs.len() <= MAX_LEGS, 19)?;
                self.push_change(id, change, declared);
            }
        }
        self.open = true;
        Ok(())
    }

    fn push_change(&mut self, id: u16, change: Change, declared: Option<Service>) {
        if let Some(service) = declared {
            self.book.ids.insert(service.name.clone(), id);
            self.book.services.push(service);
            self.book.definitions.push(None);
            self.leg().born += 1;
        }
        Definition::apply(&mut self.book.definitions[id as usize], change.clone());
        self.leg().changes.push((id, change));
        self.changes += 1;
    }

    fn end(mut self) -> Plan {
        if !self.open {
            self.legs.pop();
        }
        Plan { services: self.book.services, legs: self.legs, changes: self.changes }
    }
}

/// Reads a document, with step lines where `steps`; else the first refused line with its least code.
pub fn read_document(bytes: &[u8], steps: bool) -> Result<Plan, Refusal> {
    if bytes.len() > MOST_BYTES {
        return Err(Refusal { line: 0, code: 1 });
    }
    let mut reading = Reading { steps, book: Book::default(), legs: vec![Leg::default()], open: false, changes: 0 };
    if !bytes.is_empty() {
        let lines = bytes.strip_suffix(b"\n").unwrap_or(bytes).split(|byte| *byte == b'\n');
        for (number, line) in (1..).zip(lines) {
            reading.take(number, line).map_err(|code| Refusal { line: number, code })?;
        }
    }
    Ok(reading.end())
}
