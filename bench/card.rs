//! A card runner in plain Rust, written from docs/card.md.

use crate::engine::{Length, Point, Value};
use crate::sheet::{Role, Sheet, Workings};
use std::io::Write;

/// A value that a card can write.
trait Written: Value {
    fn parse(word: &[u8]) -> Option<Self>;
}

/// An optional minus and 1 to 8 digits, with no leading 0 and no -0.
fn number(word: &[u8]) -> Option<i64> {
    let (negative, digits) = match word {
        [b'-', rest @ ..] => (true, rest),
        _ => (false, word),
    };
    if digits.is_empty() || digits.len() > 8 || (digits[0] == b'0' && (digits.len() > 1 || negative)) {
        return None;
    }
    let mut n = 0;
    for digit in digits {
        if !digit.is_ascii_digit() {
            return None;
        }
        n = n * 10 + (digit - b'0') as i64;
    }
    Some(if negative { -n } else { n })
}

impl Written for Length {
    fn parse(word: &[u8]) -> Option<Self> {
        Some(Length { x: number(word)? })
    }
}

impl Written for Point {
    fn parse(word: &[u8]) -> Option<Self> {
        let comma = word.iter().position(|b| *b == b',')?;
        Some(Point { x: number(&word[..comma])?, y: number(&word[comma + 1..])? })
    }
}

enum Line<V> {
    Bind(Vec<i64>, V),
    Unbind(i64),
    Grip(Vec<Role>),
    Pull(Vec<V>),
    Keep,
    Drop,
}

fn role(word: &[u8]) -> Option<Role> {
    match word {
        b"." => Some(Role::Held),
        b"*" => Some(Role::Pulled),
        b"~" => Some(Role::Loose(1)),
        _ => Some(Role::Loose(number(word)?)),
    }
}

/// A line without its byte 10.
fn line<V: Written>(count: usize, text: &[u8]) -> Option<Line<V>> {
    if text.len() > 1_023 {
        return None;
    }
    let mut words = text.split(|b| *b == b' ');
    let line = match words.next()? {
        b"bind" => {
            let coefficients: Vec<i64> = words.by_ref().take(count).map(number).collect::<Option<_>>()?;
            if coefficients.len() < count {
                return None;
            }
            Line::Bind(coefficients, V::parse(words.next()?)?)
        }
        b"unbind" => Line::Unbind(number(words.next()?)?),
        b"grip" => {
            let roles: Vec<Role> = words.by_ref().take(count).map(role).collect::<Option<_>>()?;
            if roles.len() < count {
                return None;
            }
            Line::Grip(roles)
        }
        b"pull" => {
            let wishes: Vec<V> = words.by_ref().take(count).map(V::parse).collect::<Option<_>>()?;
            if wishes.len() < count {
                return None;
            }
            Line::Pull(wishes)
        }
        b"keep" => Line::Keep,
        b"drop" => Line::Drop,
        _ => return None,
    };
    if words.next().is_some() { None } else { Some(line) }
}

fn put_values<V: Value>(out: &mut Vec<u8>, values: &[V]) {
    for v in values {
        for k in 0..V::SIZE {
            let _ = write!(out, "{}{}", if k == 0 { ' ' } else { ',' }, v.get(k));
        }
    }
}

fn put<T>(out: &mut Vec<u8>, answer: Result<T, u8>) -> Option<T> {
    match answer {
        Ok(done) => {
            out.extend_from_slice(b"ok");
            Some(done)
        }
        Err(number) => {
            let _ = write!(out, "no {number}");
            None
        }
    }
}

fn run_lines<V: Written>(count: usize, lines: &mut dyn Iterator<Item = &[u8]>, out: &mut Vec<u8>) {
    let Ok(mut sheet) = Sheet::<V>::open(count) else { return };
    let mut proposal = vec![V::zero(); count];
    // the workings while there is a grip, and the denominator while there is a proposal
    let mut grip: Option<Workings> = None;
    let mut proposed: Option<i64> = None;
    for text in lines {
        match (text.strip_suffix(b"\n").and_then(|text| line::<V>(count, text)), &grip, proposed) {
            (None, ..) => out.extend_from_slice(b"no 16"),
            (Some(Line::Bind(coefficients, q)), None, _) => {
                put(out, sheet.bind(&coefficients, q));
            }
            (Some(Line::Unbind(number)), None, _) => {
                put(out, sheet.unbind(number));
            }
            (Some(Line::Grip(roles)), None, _) => {
                if let Some(workings) = put(out, sheet.grip(&roles)) {
                    for number in &workings.spares {
                        let _ = write!(out, " {number}");
                    }
                    grip = Some(workings);
                }
            }
            (Some(Line::Pull(wishes)), Some(workings), _) => {
                proposed = put(out, sheet.pull(workings, &wishes, &mut proposal));
                if let Some(d) = proposed {
                    let _ = write!(out, " {d}");
                    put_values(out, &proposal);
                }
            }
            (Some(Line::Keep), Some(_), Some(d)) => {
                if put(out, sheet.keep(&proposal, d)).is_some() {
                    grip = None;
                    proposed = None;
                }
            }
            (Some(Line::Drop), Some(_), _) => {
                out.extend_from_slice(b"ok");
                grip = None;
                proposed = None;
            }
            _ => out.extend_from_slice(b"no 19"),
        }
        out.push(b'\n');
    }
}

/// The kind and the count of names of a good first line.
fn heading(text: &[u8]) -> Option<(bool, usize)> {
    let text = text.strip_suffix(b"\n")?;
    if text.len() > 1_023 {
        return None;
    }
    let mut words = text.split(|b| *b == b' ');
    let points = match words.next()? {
        b"length" => false,
        b"point" => true,
        _ => return None,
    };
    let mut names: Vec<&[u8]> = Vec::new();
    for word in words {
        let plain = |b: &u8| b.is_ascii_lowercase() || b.is_ascii_digit();
        if word.len() > 8 || !word.first()?.is_ascii_lowercase() || !word.iter().all(plain) || names.contains(&word) {
            return None;
        }
        names.push(word);
    }
    if names.is_empty() || names.len() > 48 { None } else { Some((points, names.len())) }
}

/// What a card prints.
pub fn run_card(card: &[u8]) -> Vec<u8> {
    let mut out = Vec::new();
    let mut lines = card.split_inclusive(|b| *b == b'\n');
    let first = if card.len() > 65_536 { None } else { lines.next().and_then(heading) };
    match first {
        Some((false, count)) => run_lines::<Length>(count, &mut lines, &mut out),
        Some((true, count)) => run_lines::<Point>(count, &mut lines, &mut out),
        None => out.extend_from_slice(b"no 16\n"),
    }
    out.extend_from_slice(b"end\n");
    out
}
