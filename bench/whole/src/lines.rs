//! The grammar of a line.
use crate::expression::{Expr, Reader};
use crate::tokens::{Lexer, Tok};
use crate::value::{Type, Value};

/// An expression with the names in it and the members behind `over`.
pub struct FormulaText<'a> {
    pub tree: Expr,
    pub names: Vec<&'a str>,
    pub members: Vec<&'a str>,
}

pub enum Line<'a> {
    Blank,
    Input(&'a str, Type, Value),
    /// A name, its type, the digits of its rank, and its formula.
    Derived(&'a str, Type, &'a str, FormulaText<'a>),
    Define(&'a str, FormulaText<'a>),
    Set(&'a str, Value),
    Add(&'a str, &'a str),
    Drop(&'a str, &'a str),
    Settle,
    Do(&'a str),
    Take(&'a str, &'a str),
    Turn(&'a str),
}

/// The meaning of a line; None where it is not in the grammar.
pub fn read_line(text: &str) -> Option<Line<'_>> {
    let text = text.trim_start_matches([' ', '\t', '\r']);
    if text.is_empty() || text.starts_with('#') {
        return Some(Line::Blank);
    }
    let mut tokens = Lexer::new(text);
    let Tok::Word(word) = tokens.next()? else { return None };
    let line = match word {
        "input" => {
            let (name, ty) = typed_name(&mut tokens)?;
            tokens.sym("=")?;
            Line::Input(name, ty, tokens.literal()?)
        }
        "derived" => {
            let (name, ty) = typed_name(&mut tokens)?;
            tokens.word("rank")?;
            let Tok::Number(rank) = tokens.next()? else { return None };
            return Some(Line::Derived(name, ty, rank, formula(tokens)?));
        }
        "define" => return Some(Line::Define(tokens.name()?, formula(tokens)?)),
        "set" => {
            let name = tokens.name()?;
            tokens.sym("=")?;
            Line::Set(name, tokens.literal()?)
        }
        "add" => Line::Add(tokens.name()?, tokens.name()?),
        "drop" => Line::Drop(tokens.name()?, tokens.name()?),
        "settle" => Line::Settle,
        "do" => Line::Do(tokens.name()?),
        "take" => {
            let name = tokens.name()?;
            tokens.word("from")?;
            Line::Take(name, tokens.name()?)
        }
        "turn" => Line::Turn(tokens.name()?),
        _ => return None,
    };
    tokens.end()?;
    Some(line)
}

fn typed_name<'a>(tokens: &mut Lexer<'a>) -> Option<(&'a str, Type)> {
    let name = tokens.name()?;
    tokens.sym(":")?;
    match tokens.next()? {
        Tok::Word("int") => Some((name, Type::Int)),
        Tok::Word("text") => Some((name, Type::Text)),
        _ => None,
    }
}

/// `=`, an expression and its members, to the end of the line.
fn formula(mut tokens: Lexer) -> Option<FormulaText> {
    tokens.sym("=")?;
    let mut reader = Reader::new(&mut tokens);
    let tree = reader.expr()?;
    let names = reader.names;
    let mut members = Vec::new();
    match tokens.next()? {
        Tok::End => return Some(FormulaText { tree, names, members }),
        Tok::Word("over") => {}
        _ => return None,
    }
    loop {
        members.push(tokens.name()?);
        match tokens.next()? {
            Tok::Sym(",") => {}
            Tok::End => return Some(FormulaText { tree, names, members }),
            _ => return None,
        }
    }
}
