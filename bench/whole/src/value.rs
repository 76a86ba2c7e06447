//! Values, their texts and their frame layout.
use std::sync::Arc;

#[derive(Clone, Copy, PartialEq, Eq, Debug)]
pub enum Fault {
    Overflow = 1,
    Zero,
    Long,
    Number,
    Empty,
}

#[derive(Clone, PartialEq, Eq, Debug)]
pub enum Value {
    Int(i64),
    Text(Arc<str>),
    Bad(Fault),
}

#[derive(Clone, Copy, PartialEq, Eq, Debug)]
pub enum Type {
    Int,
    Text,
}

impl Value {
    pub fn has_type(&self, ty: Type) -> bool {
        match self {
            Value::Int(_) => ty == Type::Int,
            Value::Text(_) => ty == Type::Text,
            Value::Bad(_) => true,
        }
    }

    /// Appends its bytes in a frame.
    pub fn put(&self, out: &mut Vec<u8>) {
        match self {
            Value::Int(i) => {
                out.push(1);
                out.extend_from_slice(&i.to_be_bytes());
            }
            Value::Text(t) => {
                out.push(2);
                out.extend_from_slice(&(t.len() as u16).to_be_bytes());
                out.extend_from_slice(t.as_bytes());
            }
            Value::Bad(f) => {
                out.push(3);
                out.push(*f as u8);
            }
        }
    }

    pub fn take(b: &[u8]) -> (Value, usize) {
        match b[0] {
            1 => (Value::Int(i64::from_be_bytes(b[1..9].try_into().unwrap())), 9),
            2 => {
                let n = u16::from_be_bytes([b[1], b[2]]) as usize;
                (Value::Text(std::str::from_utf8(&b[3..3 + n]).unwrap().into()), 3 + n)
            }
            3 => (
                Value::Bad(match b[1] {
                    1 => Fault::Overflow,
                    2 => Fault::Zero,
                    3 => Fault::Long,
                    4 => Fault::Number,
                    5 => Fault::Empty,
                    _ => panic!("fault code"),
                }),
                2,
            ),
            _ => panic!("value tag"),
        }
    }

    /// Appends its printed text.
    pub fn print(&self, out: &mut Vec<u8>) {
        match self {
            Value::Int(i) => put_int(*i, out),
            Value::Text(t) => {
                out.push(b'"');
                let mut rest = t.as_bytes();
                // Runs of plain characters are copied whole.
                while let Some(i) = rest.iter().position(|c| matches!(c, 0..=0x1f | b'"' | b'\\' | 0x7f)) {
                    out.extend_from_slice(&rest[..i]);
                    match rest[i] {
                        b'"' => out.extend_from_slice(b"\\\""),
                        b'\\' => out.extend_from_slice(b"\\\\"),
                        b'\n' => out.extend_from_slice(b"\\n"),
                        b'\t' => out.extend_from_slice(b"\\t"),
                        c => {
                            out.extend_from_slice(b"\\x");
                            put_hex(&[c], out);
                        }
                    }
                    rest = &rest[i + 1..];
                }
                out.extend_from_slice(rest);
                out.push(b'"');
            }
            Value::Bad(f) => out.extend_from_slice(match f {
                Fault::Overflow => b"!overflow",
                Fault::Zero => b"!zero",
                Fault::Long => b"!long",
                Fault::Number => b"!number",
                Fault::Empty => b"!empty",
            }),
        }
    }
}

pub fn put_int(i: i64, out: &mut Vec<u8>) {
    if i < 0 {
        out.push(b'-');
    }
    put_u64(i.unsigned_abs(), out);
}

pub fn put_u64(mut u: u64, out: &mut Vec<u8>) {
    let mut buf = [0u8; 20];
    let mut at = 20;
    loop {
        at -= 1;
        buf[at] = b'0' + (u % 10) as u8;
        u /= 10;
        if u == 0 {
            break;
        }
    }
    out.extend_from_slice(&buf[at..]);
}

pub fn put_hex(bytes: &[u8], out: &mut Vec<u8>) {
    const H: &[u8; 16] = b"0123456789abcdef";
    for &b in bytes {
        out.push(H[(b >> 4) as usize]);
        out.push(H[(b & 15) as usize]);
    }
}

/// `-`? digits, within i64. Leading zeros are allowed.
pub fn parse_int(b: &[u8]) -> Option<i64> {
    let (neg, digits) = if b.first() == Some(&b'-') { (true, &b[1..]) } else { (false, b) };
    if digits.is_empty() {
        return None;
    }
    let mut n: i64 = 0;
    for &d in digits {
        if !d.is_ascii_digit() {
            return None;
        }
        let d = (d - b'0') as i64;
        n = n.checked_mul(10)?;
        n = if neg { n.checked_sub(d)? } else { n.checked_add(d)? };
    }
    Some(n)
}
