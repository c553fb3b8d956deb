//! Good tables, which of two records is newer, merging, accepting, and stepping through a table.

use super::fields::Reader;
use super::{file_at, read, records, Body, File, Refusal, DELETED, INVALID, MAX_FILES};
use std::cmp::Ordering;

pub const MAX_TABLE: usize = 65_536;

/// Whether the bytes are a FileInfo array that fills them, names rising, within the limits.
pub fn is_good(table: &[u8]) -> bool {
    if table.len() > MAX_TABLE {
        return false;
    }
    let mut reader = Reader::new(table, 0);
    let Ok(count) = reader.limited(MAX_FILES) else {
        return false;
    };
    let mut last: &[u8] = &[];
    for _ in 0..count {
        let Ok(name) = records::file(&mut reader) else {
            return false;
        };
        // No name is empty, so the first is above.
        let name = name.of(table);
        if name <= last {
            return false;
        }
        last = name;
    }
    reader.rest().is_empty()
}

pub(super) fn check(table: &[u8]) -> Result<(), Refusal> {
    match is_good(table) {
        true => Ok(()),
        false => Err(Refusal::new(15, 0)),
    }
}

/// The records of an array that was checked.
pub(super) struct Records<'a> {
    pub array: &'a [u8],
    pub at: usize,
}

impl<'a> Records<'a> {
    pub fn new(array: &'a [u8]) -> Self {
        Records { array, at: 4 }
    }
}

impl Iterator for Records<'_> {
    type Item = File;

    #[inline]
    fn next(&mut self) -> Option<File> {
        let file = file_at(self.array, self.at)?;
        self.at = file.end;
        Some(file)
    }
}

/// The encoded bytes of a record from its Flags on.
fn from_flags<'a>(array: &'a [u8], file: &File) -> &'a [u8] {
    &array[file.name.start + file.name.len.next_multiple_of(4)..file.end]
}

/// The encoded bytes of a whole record.
fn whole<'a>(array: &'a [u8], file: &File) -> &'a [u8] {
    &array[file.name.start - 4..file.end]
}

/// Which of two records of one name is higher.
pub fn compare(a: &[u8], f: &File, b: &[u8], g: &File) -> Ordering {
    let valid = |file: &File| file.flags & INVALID == 0;
    let deleted = |file: &File| file.flags & DELETED != 0;
    f.modified
        .cmp(&g.modified)
        .then(f.version.cmp(&g.version))
        .then(valid(f).cmp(&valid(g)))
        .then(deleted(f).cmp(&deleted(g)))
        .then_with(|| from_flags(a, f).cmp(from_flags(b, g)))
}

/// The bytes of each record of a merged table, names rising.
struct Merged<'a> {
    left: Records<'a>,
    right: Records<'a>,
    f: Option<File>,
    g: Option<File>,
}

impl<'a> Merged<'a> {
    fn new(a: &'a [u8], b: &'a [u8]) -> Self {
        let (mut left, mut right) = (Records::new(a), Records::new(b));
        let (f, g) = (left.next(), right.next());
        Merged { left, right, f, g }
    }

    #[inline]
    fn take_left(&mut self, file: &File) -> &'a [u8] {
        self.f = self.left.next();
        whole(self.left.array, file)
    }

    #[inline]
    fn take_right(&mut self, file: &File) -> &'a [u8] {
        self.g = self.right.next();
        whole(self.right.array, file)
    }
}

impl<'a> Iterator for Merged<'a> {
    type Item = &'a [u8];

    #[inline]
    fn next(&mut self) -> Option<&'a [u8]> {
        let (a, b) = (self.left.array, self.right.array);
        let (f, g) = match (self.f, self.g) {
            (None, None) => return None,
            (Some(f), None) => return Some(self.take_left(&f)),
            (None, Some(g)) => return Some(self.take_right(&g)),
            (Some(f), Some(g)) => (f, g),
        };
        Some(match f.name.of(a).cmp(g.name.of(b)) {
            Ordering::Less => self.take_left(&f),
            Ordering::Greater => self.take_right(&g),
            Ordering::Equal => {
                let (first, second) = (self.take_left(&f), self.take_right(&g));
                match compare(a, &f, b, &g) {
                    Ordering::Less => second,
                    _ => first,
                }
            }
        })
    }
}

/// Fills a buffer with a table of these records, which are gone through twice.
fn fill<'a, I: Iterator<Item = &'a [u8]>>(
    out: &mut [u8],
    records: impl Fn() -> I,
) -> Result<usize, Refusal> {
    let (count, len) = records().fold((0u32, 4), |(count, len), record| {
        (count + 1, len + record.len())
    });
    if count > MAX_FILES || len > MAX_TABLE {
        return Err(Refusal::new(19, 0));
    }
    let Some(out) = out.get_mut(..len) else {
        return Err(Refusal::new(14, 0));
    };
    let (head, mut rest) = out.split_at_mut(4);
    head.copy_from_slice(&count.to_be_bytes());
    for record in records() {
        let (place, after) = rest.split_at_mut(record.len());
        place.copy_from_slice(record);
        rest = after;
    }
    Ok(len)
}

/// Fills the buffer with the merged table of two.
pub fn merge(a: &[u8], b: &[u8], out: &mut [u8]) -> Result<usize, Refusal> {
    check(a)?;
    check(b)?;
    fill(out, || Merged::new(a, b))
}

/// Fills the buffer with the sender's new table: the message's records and, after an IndexUpdate,
/// those old ones that it doesn't mention.
pub fn accept(
    old: &[u8],
    message: &[u8],
    repository: &[u8],
    out: &mut [u8],
) -> Result<usize, Refusal> {
    check(old)?;
    let (named, files, update) = match read(message)?.body {
        Body::Index {
            repository, files, ..
        } => (repository, files, false),
        Body::IndexUpdate {
            repository, files, ..
        } => (repository, files, true),
        _ => return Err(Refusal::new(18, 0)),
    };
    if named.of(message) != repository {
        return Err(Refusal::new(21, 0));
    }
    let array = files.of(message);
    let mut sorted: Vec<File> = Records::new(array).collect();
    // A stable sort leaves records of one name in the order of the message.
    sorted.sort_by(|f, g| f.name.of(array).cmp(g.name.of(array)));
    let repeated = sorted
        .windows(2)
        .filter(|pair| pair[0].name.of(array) == pair[1].name.of(array))
        .map(|pair| pair[1].name.start - 4)
        .min();
    if let Some(place) = repeated {
        return Err(Refusal::new(13, files.start + place));
    }
    let mut kept = Records::new(old);
    let mut next = if update { kept.next() } else { None };
    let mut records = Vec::with_capacity(sorted.len());
    for file in &sorted {
        let name = file.name.of(array);
        while let Some(earlier) = next {
            match earlier.name.of(old).cmp(name) {
                Ordering::Less => records.push(whole(old, &earlier)),
                Ordering::Equal => {}
                Ordering::Greater => break,
            }
            next = kept.next();
        }
        records.push(whole(array, file));
    }
    while let Some(file) = next {
        records.push(whole(old, &file));
        next = kept.next();
    }
    fill(out, || records.iter().copied())
}

/// The record that starts at a place of a table, or none at the table's end.
pub fn step(table: &[u8], at: usize) -> Result<Option<File>, Refusal> {
    check(table)?;
    let mut records = Records::new(table);
    while records.at < at {
        if records.next().is_none() {
            break;
        }
    }
    if records.at != at {
        return Err(Refusal::new(15, 0));
    }
    Ok(records.next())
}
