//! Tokens of one line.
use crate::value::{parse_int, Value};

#[derive(Clone, Copy, PartialEq, Eq, Debug)]
pub enum Tok<'a> {
    Word(&'a str),
    Number(&'a str),
    Quoted(&'a str),
    Sym(&'a str),
    End,
}

pub struct Lexer<'a> {
    s: &'a str,
    at: usize,
    peeked: Option<(Tok<'a>, usize)>,
}

const RESERVED: [&str; 27] = [
    "input", "derived", "set", "add", "drop", "settle", "do", "take", "turn", "define", "from", "over", "rank", "int", "text", "if",
    "then", "else", "and", "or", "not", "len", "number", "sum", "count", "min", "max",
];

pub fn is_name(w: &str) -> bool {
    w.len() <= 32 && !RESERVED.contains(&w)
}

impl<'a> Lexer<'a> {
    pub fn new(s: &'a str) -> Self {
        Lexer { s, at: 0, peeked: None }
    }

    /// The next token and the place after it; None where no token begins there.
    fn scan(&self) -> Option<(Tok<'a>, usize)> {
        let b = self.s.as_bytes();
        let mut i = self.at;
        while i < b.len() && matches!(b[i], b' ' | b'\t' | b'\r') {
            i += 1;
        }
        if i == b.len() {
            return Some((Tok::End, i));
        }
        let start = i;
        match b[i] {
            b'A'..=b'Z' | b'a'..=b'z' => {
                while i < b.len() && (b[i].is_ascii_alphanumeric() || b[i] == b'_') {
                    i += 1;
                }
                Some((Tok::Word(&self.s[start..i]), i))
            }
            b'0'..=b'9' => {
                while i < b.len() && b[i].is_ascii_digit() {
                    i += 1;
                }
                if i < b.len() && b[i].is_ascii_alphabetic() {
                    return None;
                }
                Some((Tok::Number(&self.s[start..i]), i))
            }
            b'"' => {
                i += 1;
                while i < b.len() && b[i] != b'"' {
                    i += if b[i] == b'\\' { 2 } else { 1 };
                }
                if i >= b.len() {
                    return None;
                }
                Some((Tok::Quoted(self.s.get(start + 1..i)?), i + 1))
            }
            b'+' if b.get(i + 1) == Some(&b'+') => Some((Tok::Sym("++"), i + 2)),
            b'<' if b.get(i + 1) == Some(&b'=') => Some((Tok::Sym("<="), i + 2)),
            b'<' if b.get(i + 1) == Some(&b'>') => Some((Tok::Sym("<>"), i + 2)),
            b'>' if b.get(i + 1) == Some(&b'=') => Some((Tok::Sym(">="), i + 2)),
            b':' | b'=' | b',' | b'(' | b')' | b'+' | b'-' | b'*' | b'/' | b'%' | b'<' | b'>' => Some((Tok::Sym(&self.s[i..i + 1]), i + 1)),
            _ => None,
        }
    }
    pub fn peek(&mut self) -> Option<Tok<'a>> {
        if self.peeked.is_none() {
            self.peeked = Some(self.scan()?);
        }
        self.peeked.map(|p| p.0)
    }
    pub fn next(&mut self) -> Option<Tok<'a>> {
        self.peek()?;
        let (tok, end) = self.peeked.take()?;
        self.at = end;
        Some(tok)
    }
    pub fn word(&mut self, w: &str) -> Option<()> {
        if self.next()? == Tok::Word(w) {
            Some(())
        } else {
            None
        }
    }
    pub fn sym(&mut self, s: &str) -> Option<()> {
        if self.next()? == Tok::Sym(s) {
            Some(())
        } else {
            None
        }
    }
    pub fn name(&mut self) -> Option<&'a str> {
        match self.next()? {
            Tok::Word(w) if is_name(w) => Some(w),
            _ => None,
        }
    }
    pub fn end(&mut self) -> Option<()> {
        if self.next()? == Tok::End {
            Some(())
        } else {
            None
        }
    }
    /// Peeked `-` with a digit directly after it.
    pub fn minus_digit(&self) -> bool {
        matches!(self.peeked, Some((Tok::Sym("-"), end)) if self.s.as_bytes().get(end).is_some_and(u8::is_ascii_digit))
    }
    pub fn literal(&mut self) -> Option<Value> {
        self.peek()?;
        let minus = self.minus_digit();
        match self.next()? {
            Tok::Sym("-") if minus => match self.next()? {
                Tok::Number(n) => {
                    let from = n.as_ptr() as usize - self.s.as_ptr() as usize - 1;
                    Some(Value::Int(parse_int(&self.s.as_bytes()[from..from + 1 + n.len()])?))
                }
                _ => None,
            },
            Tok::Number(n) => Some(Value::Int(parse_int(n.as_bytes())?)),
            Tok::Quoted(q) => Some(Value::Text(unquote(q)?.into())),
            _ => None,
        }
    }
}

fn unquote(q: &str) -> Option<String> {
    let mut out = String::with_capacity(q.len());
    let mut rest = q;
    while let Some(i) = rest.find('\\') {
        out.push_str(&rest[..i]);
        let c = *rest.as_bytes().get(i + 1)?;
        let mut used = 2;
        match c {
            b'"' => out.push('"'),
            b'\\' => out.push('\\'),
            b'n' => out.push('\n'),
            b't' => out.push('\t'),
            b'x' => {
                let h = rest.get(i + 2..i + 4)?;
                if !h.bytes().all(|b| b.is_ascii_hexdigit()) {
                    return None;
                }
                let n = u8::from_str_radix(h, 16).ok()?;
                if n > 0x7f {
                    return None;
                }
                out.push(n as char);
                used = 4;
            }
            _ => return None,
        }
        rest = &rest[i + used..];
    }
    out.push_str(rest);
    if out.len() > 256 {
        None
    } else {
        Some(out)
    }
}
