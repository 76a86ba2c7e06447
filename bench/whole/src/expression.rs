//! The expression trees: reading, typing, evaluation.
use crate::tokens::{Lexer, Tok};
use crate::value::{parse_int, Fault, Type, Value};
use std::sync::Arc;

#[derive(Clone, Copy, PartialEq, Eq, Debug)]
pub enum Op {
    Add,
    Sub,
    Mul,
    Div,
    Rem,
    Join,
    Eq,
    Ne,
    Lt,
    Le,
    Gt,
    Ge,
    And,
    Or,
}

#[derive(Debug)]
pub enum Expr {
    Lit(Value),
    Given(u8),
    Neg(Box<Expr>),
    Not(Box<Expr>),
    Pair(Op, Box<Expr>, Box<Expr>),
    If(Box<Expr>, Box<Expr>, Box<Expr>),
    Len(Box<Expr>),
    Number(Box<Expr>),
    TextOf(Box<Expr>),
    Sum,
    Count,
    Min,
    Max,
}
use Expr::*;

fn truth(b: bool) -> Value {
    Value::Int(b as i64)
}

impl Expr {
    /// Nodes and depth.
    pub fn size(&self) -> (usize, usize) {
        let sub = |parts: &[&Expr]| {
            let (mut n, mut d) = (1, 0);
            for p in parts {
                let (pn, pd) = p.size();
                n += pn;
                d = d.max(pd);
            }
            (n, d + 1)
        };
        match self {
            Neg(a) | Not(a) | Len(a) | Number(a) | TextOf(a) => sub(&[a]),
            Pair(_, a, b) => sub(&[a, b]),
            If(a, b, c) => sub(&[a, b, c]),
            _ => (1, 1),
        }
    }

    pub fn type_of(&self, given: &[Type]) -> Option<Type> {
        let is = |e: &Expr, ty: Type| if e.type_of(given) == Some(ty) { Some(()) } else { None };
        match self {
            Lit(v) => Some(if matches!(v, Value::Text(_)) { Type::Text } else { Type::Int }),
            Given(k) => Some(given[*k as usize]),
            Neg(a) | Not(a) => {
                is(a, Type::Int)?;
                Some(Type::Int)
            }
            Pair(op, a, b) => match op {
                Op::Join => {
                    is(a, Type::Text)?;
                    is(b, Type::Text)?;
                    Some(Type::Text)
                }
                Op::Eq | Op::Ne | Op::Lt | Op::Le | Op::Gt | Op::Ge => {
                    let t = a.type_of(given)?;
                    is(b, t)?;
                    Some(Type::Int)
                }
                _ => {
                    is(a, Type::Int)?;
                    is(b, Type::Int)?;
                    Some(Type::Int)
                }
            },
            If(c, a, b) => {
                is(c, Type::Int)?;
                let t = a.type_of(given)?;
                is(b, t)?;
                Some(t)
            }
            Len(a) | Number(a) => {
                is(a, Type::Text)?;
                Some(Type::Int)
            }
            TextOf(a) => {
                is(a, Type::Int)?;
                Some(Type::Text)
            }
            Sum | Count | Min | Max => Some(Type::Int),
        }
    }

    /// True where `sum`, `min` or `max` occurs, so members must be whole numbers.
    pub fn wants_ints(&self) -> bool {
        match self {
            Sum | Min | Max => true,
            Neg(a) | Not(a) | Len(a) | Number(a) | TextOf(a) => a.wants_ints(),
            Pair(_, a, b) => a.wants_ints() || b.wants_ints(),
            If(a, b, c) => a.wants_ints() || b.wants_ints() || c.wants_ints(),
            _ => false,
        }
    }

    pub fn eval(&self, given: &[&Value], members: &[&Value]) -> Value {
        macro_rules! ev {
            ($e:expr) => {
                match $e.eval(given, members) {
                    Value::Bad(f) => return Value::Bad(f),
                    v => v,
                }
            };
        }
        macro_rules! int {
            ($e:expr) => {
                match $e.eval(given, members) {
                    Value::Int(i) => i,
                    Value::Bad(f) => return Value::Bad(f),
                    _ => unreachable!(),
                }
            };
        }
        macro_rules! txt {
            ($e:expr) => {
                match $e.eval(given, members) {
                    Value::Text(t) => t,
                    Value::Bad(f) => return Value::Bad(f),
                    _ => unreachable!(),
                }
            };
        }
        let exact = |r: Option<i64>| r.map_or(Value::Bad(Fault::Overflow), Value::Int);
        match self {
            Lit(v) => v.clone(),
            Given(k) => given[*k as usize].clone(),
            Neg(a) => exact(int!(a).checked_neg()),
            Not(a) => truth(int!(a) == 0),
            Pair(Op::Join, a, b) => {
                let (a, b) = (txt!(a), txt!(b));
                if a.len() + b.len() > 256 {
                    return Value::Bad(Fault::Long);
                }
                let mut s = String::with_capacity(a.len() + b.len());
                s.push_str(&a);
                s.push_str(&b);
                Value::Text(s.into())
            }
            Pair(op @ (Op::Eq | Op::Ne | Op::Lt | Op::Le | Op::Gt | Op::Ge), a, b) => {
                let (a, b) = (ev!(a), ev!(b));
                let ord = match (&a, &b) {
                    (Value::Int(a), Value::Int(b)) => a.cmp(b),
                    (Value::Text(a), Value::Text(b)) => a.as_bytes().cmp(b.as_bytes()),
                    _ => unreachable!(),
                };
                truth(match op {
                    Op::Eq => ord.is_eq(),
                    Op::Ne => ord.is_ne(),
                    Op::Lt => ord.is_lt(),
                    Op::Le => ord.is_le(),
                    Op::Gt => ord.is_gt(),
                    _ => ord.is_ge(),
                })
            }
            Pair(op, a, b) => {
                let (a, b) = (int!(a), int!(b));
                match op {
                    Op::Add => exact(a.checked_add(b)),
                    Op::Sub => exact(a.checked_sub(b)),
                    Op::Mul => exact(a.checked_mul(b)),
                    Op::Div => {
                        if b == 0 {
                            Value::Bad(Fault::Zero)
                        } else {
                            exact(a.checked_div(b))
                        }
                    }
                    Op::Rem => {
                        if b == 0 {
                            Value::Bad(Fault::Zero)
                        } else {
                            Value::Int(a.wrapping_rem(b))
                        }
                    }
                    Op::And => truth(a != 0 && b != 0),
                    _ => truth(a != 0 || b != 0),
                }
            }
            If(c, a, b) => {
                if int!(c) != 0 {
                    a.eval(given, members)
                } else {
                    b.eval(given, members)
                }
            }
            Len(a) => Value::Int(txt!(a).chars().count() as i64),
            Number(a) => parse_int(txt!(a).as_bytes()).map_or(Value::Bad(Fault::Number), Value::Int),
            TextOf(a) => Value::Text(int!(a).to_string().into()),
            Count => Value::Int(members.len() as i64),
            Sum => {
                let mut sum: i128 = 0;
                for m in members {
                    match m {
                        Value::Int(i) => sum += *i as i128,
                        Value::Bad(f) => return Value::Bad(*f),
                        _ => unreachable!(),
                    }
                }
                exact(i64::try_from(sum).ok())
            }
            Min | Max => {
                let mut best: Option<i64> = None;
                for m in members {
                    match m {
                        Value::Int(i) => {
                            best = Some(match best {
                                None => *i,
                                Some(b) => {
                                    if matches!(self, Min) {
                                        b.min(*i)
                                    } else {
                                        b.max(*i)
                                    }
                                }
                            })
                        }
                        Value::Bad(f) => return Value::Bad(*f),
                        _ => unreachable!(),
                    }
                }
                best.map_or(Value::Bad(Fault::Empty), Value::Int)
            }
        }
    }
}

/// Reads an expression from the lexer; None where the text is not in the grammar.
pub struct Reader<'a, 'l> {
    pub lex: &'l mut Lexer<'a>,
    pub names: Vec<&'a str>,
    level: usize,
}

impl<'a, 'l> Reader<'a, 'l> {
    pub fn new(lex: &'l mut Lexer<'a>) -> Self {
        Reader { lex, names: Vec::new(), level: 0 }
    }

    fn enter(&mut self) -> Option<()> {
        self.level += 1;
        if self.level > 64 {
            None
        } else {
            Some(())
        }
    }

    pub fn expr(&mut self) -> Option<Expr> {
        if self.lex.peek()? == Tok::Word("if") {
            self.lex.next()?;
            self.enter()?;
            let c = self.expr()?;
            self.lex.word("then")?;
            let a = self.expr()?;
            self.lex.word("else")?;
            let b = self.expr()?;
            self.level -= 1;
            return Some(If(c.into(), a.into(), b.into()));
        }
        self.or()
    }
    fn or(&mut self) -> Option<Expr> {
        let mut a = self.and()?;
        while self.lex.peek()? == Tok::Word("or") {
            self.lex.next()?;
            let b = self.and()?;
            a = Pair(Op::Or, a.into(), b.into());
        }
        Some(a)
    }
    fn and(&mut self) -> Option<Expr> {
        let mut a = self.not()?;
        while self.lex.peek()? == Tok::Word("and") {
            self.lex.next()?;
            let b = self.not()?;
            a = Pair(Op::And, a.into(), b.into());
        }
        Some(a)
    }
    fn not(&mut self) -> Option<Expr> {
        if self.lex.peek()? == Tok::Word("not") {
            self.lex.next()?;
            self.enter()?;
            let a = self.not()?;
            self.level -= 1;
            return Some(Not(a.into()));
        }
        self.cmp()
    }
    fn cmp(&mut self) -> Option<Expr> {
        let a = self.sum()?;
        let op = match self.lex.peek()? {
            Tok::Sym("=") => Op::Eq,
            Tok::Sym("<>") => Op::Ne,
            Tok::Sym("<") => Op::Lt,
            Tok::Sym("<=") => Op::Le,
            Tok::Sym(">") => Op::Gt,
            Tok::Sym(">=") => Op::Ge,
            _ => return Some(a),
        };
        self.lex.next()?;
        let b = self.sum()?;
        Some(Pair(op, a.into(), b.into()))
    }
    fn sum(&mut self) -> Option<Expr> {
        let mut a = self.product()?;
        loop {
            let op = match self.lex.peek()? {
                Tok::Sym("+") => Op::Add,
                Tok::Sym("-") => Op::Sub,
                Tok::Sym("++") => Op::Join,
                _ => return Some(a),
            };
            self.lex.next()?;
            let b = self.product()?;
            a = Pair(op, a.into(), b.into());
        }
    }
    fn product(&mut self) -> Option<Expr> {
        let mut a = self.unary()?;
        loop {
            let op = match self.lex.peek()? {
                Tok::Sym("*") => Op::Mul,
                Tok::Sym("/") => Op::Div,
                Tok::Sym("%") => Op::Rem,
                _ => return Some(a),
            };
            self.lex.next()?;
            let b = self.unary()?;
            a = Pair(op, a.into(), b.into());
        }
    }
    fn unary(&mut self) -> Option<Expr> {
        if self.lex.peek()? == Tok::Sym("-") && !self.lex.minus_digit() {
            self.lex.next()?;
            self.enter()?;
            let a = self.unary()?;
            self.level -= 1;
            return Some(Neg(a.into()));
        }
        self.atom()
    }
    fn call(&mut self) -> Option<Box<Expr>> {
        self.lex.sym("(")?;
        self.enter()?;
        let a = self.expr()?;
        self.lex.sym(")")?;
        self.level -= 1;
        Some(a.into())
    }
    fn atom(&mut self) -> Option<Expr> {
        match self.lex.peek()? {
            Tok::Number(_) | Tok::Quoted(_) | Tok::Sym("-") => Some(Lit(self.lex.literal()?)),
            Tok::Sym("(") => Some(*self.call()?),
            Tok::Word(w) => {
                self.lex.next()?;
                match w {
                    "len" => Some(Len(self.call()?)),
                    "number" => Some(Number(self.call()?)),
                    "text" => Some(TextOf(self.call()?)),
                    "sum" | "count" | "min" | "max" => {
                        self.lex.sym("(")?;
                        if self.level >= 64 {
                            return None;
                        }
                        self.lex.sym(")")?;
                        Some(match w {
                            "sum" => Sum,
                            "count" => Count,
                            "min" => Min,
                            _ => Max,
                        })
                    }
                    _ => {
                        if !crate::tokens::is_name(w) {
                            return None;
                        }
                        let k = match self.names.iter().position(|n| *n == w) {
                            Some(k) => k,
                            None => {
                                self.names.push(w);
                                self.names.len() - 1
                            }
                        };
                        // A line holds far more than 256 names; such trees are past 128 nodes and refused anyway.
                        Some(Given(k.min(255) as u8))
                    }
                }
            }
            _ => None,
        }
    }
}

pub type Tree = Arc<Expr>;
