//! Files of cases, a line each: the call and what it is given, then `=`, then the answer.
//!
//! Bytes are in hex, two lower-case digits a byte; `-` is no bytes. Dots only set words apart, and
//! `61*300` is the byte 61 three hundred times. `let NAME BYTES` gives bytes a name, which begins with a
//! capital and then stands among the dots like hex. Colons, commas and slashes part what a word is made of.
//! Other numbers are decimal. Empty lines and lines that begin with `#` are no cases, and what follows ` # `
//! on a line is a comment.

use std::borrow::Cow;
use std::collections::BTreeMap;
use std::fmt::Write;
use std::str::FromStr;

/// One case. Words are separated by spaces; those that have names of bytes are given in hex.
#[derive(Debug, PartialEq, Eq)]
pub struct Case<'a> {
    /// The line as it stands in the file.
    pub line: &'a str,
    /// The call and what it is given.
    pub given: Vec<Cow<'a, str>>,
    pub answer: Vec<Cow<'a, str>>,
    /// Its comment is `open`: there is room for another answer.
    pub open: bool,
}

/// What stands between the pieces of a word.
const BETWEEN: [char; 3] = [':', ',', '/'];

/// The bytes that have names.
type Names<'a> = BTreeMap<&'a str, Vec<u8>>;

/// The cases of a file, each or the line that isn't one.
pub fn cases(file: &str) -> impl Iterator<Item = Result<Case<'_>, String>> {
    let mut names = Names::new();
    file.lines()
        .filter(|line| !line.trim().is_empty() && !line.starts_with('#'))
        .filter_map(move |line| {
            let read = match line.strip_prefix("let ") {
                None => case(line, &names).map(Some),
                Some(named) => name(named, &mut names).map(|()| None),
            };
            read.map_err(|why| format!("{line}\n{why}")).transpose()
        })
}

/// What stands before a comment, and the comment.
fn without_comment(line: &str) -> (&str, &str) {
    line.split_once(" # ").unwrap_or((line, ""))
}

fn case<'a>(line: &'a str, names: &Names) -> Result<Case<'a>, String> {
    let (case, comment) = without_comment(line);
    let mut halves = case.split(" = ");
    let (Some(given), Some(answer), None) = (halves.next(), halves.next(), halves.next()) else {
        return Err("no case: it has no single `=`".to_string());
    };
    let in_hex = |half: &'a str| {
        let words = half.split_whitespace();
        words.map(|word| in_hex(word, names)).collect()
    };
    let (given, answer): (Result<_, _>, Result<_, _>) = (in_hex(given), in_hex(answer));
    Ok(Case {
        line,
        given: given?,
        answer: answer?,
        open: comment.trim() == "open",
    })
}

/// Notes a name and its bytes.
fn name<'a>(line: &'a str, names: &mut Names<'a>) -> Result<(), String> {
    let words: Vec<&str> = without_comment(line).0.split_whitespace().collect();
    match *words {
        [name, word] if is_name(name) && !names.contains_key(name) => {
            let named = bytes(&in_hex(word, names)?)?;
            names.insert(name, named);
            Ok(())
        }
        _ => Err("no new name, which begins with a capital, and its bytes".to_string()),
    }
}

fn is_name(part: &str) -> bool {
    part.starts_with(|c: char| c.is_ascii_uppercase())
}

/// The word with bytes in place of their names.
fn in_hex<'a>(word: &'a str, names: &Names) -> Result<Cow<'a, str>, String> {
    if !word
        .split(BETWEEN)
        .flat_map(|piece| piece.split('.'))
        .any(is_name)
    {
        return Ok(Cow::Borrowed(word));
    }
    let mut hex = String::new();
    for piece in word.split_inclusive(BETWEEN) {
        let end = piece.trim_end_matches(BETWEEN).len();
        hex += &piece_in_hex(&piece[..end], names)?;
        hex += &piece[end..];
    }
    Ok(Cow::Owned(hex))
}

fn piece_in_hex<'a>(word: &'a str, names: &Names) -> Result<Cow<'a, str>, String> {
    if !word.split('.').any(is_name) {
        return Ok(Cow::Borrowed(word));
    }
    let mut all = Vec::new();
    for part in word.split('.') {
        if !is_name(part) {
            all.extend(bytes(part)?);
            continue;
        }
        let (name, times) = part.split_once('*').unwrap_or((part, "1"));
        let named = names
            .get(name)
            .ok_or_else(|| format!("{name} has no bytes"))?;
        all.extend(named.repeat(number(times)?));
    }
    let mut hex = String::with_capacity(2 * all.len());
    for byte in &all {
        write!(hex, "{byte:02x}").expect("a String has room");
    }
    Ok(match all.is_empty() {
        true => Cow::Borrowed("-"),
        false => Cow::Owned(hex),
    })
}

/// The bytes that a word stands for.
pub fn bytes(word: &str) -> Result<Vec<u8>, String> {
    let mut bytes = Vec::new();
    if word == "-" {
        return Ok(bytes);
    }
    for part in word.split('.') {
        match part.split_once('*') {
            None => bytes.extend(hex(part)?),
            Some((byte, times)) => match hex(byte)?[..] {
                [byte] => bytes.resize(bytes.len() + number::<usize>(times)?, byte),
                _ => return Err(format!("{part} doesn't repeat one byte")),
            },
        }
    }
    Ok(bytes)
}

fn hex(digits: &str) -> Result<Vec<u8>, String> {
    let digit = |digit: u8| match digit {
        b'0'..=b'9' => Ok(digit - b'0'),
        b'a'..=b'f' => Ok(digit - b'a' + 10),
        _ => Err(format!("{digits} isn't in hex")),
    };
    match digits.as_bytes().as_chunks() {
        ([], _) | (_, [_]) => Err(format!("{digits} has no two digits a byte")),
        (pairs, _) => pairs
            .iter()
            .map(|&[high, low]| Ok(digit(high)? << 4 | digit(low)?))
            .collect(),
    }
}

/// A decimal number.
pub fn number<T: FromStr>(word: &str) -> Result<T, String> {
    word.parse()
        .map_err(|_| format!("{word} is no such number"))
}
