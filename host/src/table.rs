//! Tables: good ones, which of two records is newer, merging, and accepting a sender's records.

use crate::answer::text_of;
use crate::{ffi, raw, FileInfo, Files, FilesBuilder, FilesIter, Refusal};
use alloc::string::String;
use alloc::vec;
use alloc::vec::Vec;
use core::cmp::Ordering;
use core::error::Error;
use core::fmt;
use core::iter::Enumerate;

/// The longest table there is, in bytes: a buffer of this length holds any.
///
/// ```
/// use fordtrumpet::{merge, Table, MAX_TABLE};
///
/// let mut out = [0; MAX_TABLE];
/// assert!(merge(Table::EMPTY, Table::EMPTY, &mut out)?.is_empty());
/// # Ok::<(), fordtrumpet::Refusal>(())
/// ```
pub const MAX_TABLE: usize = 65_536;

/// The most records that a table has.
///
/// ```
/// use fordtrumpet::{FilesBuilder, Flags, TableBuf, TableError, MAX_RECORDS};
///
/// let mut files = FilesBuilder::new();
/// for number in 0..=MAX_RECORDS {
///     files.push(number.to_string(), Flags(0), 0, 0, []);
/// }
/// assert_eq!(TableBuf::from_files(&files), Err(TableError::TooManyRecords(513)));
/// ```
pub const MAX_RECORDS: usize = 512;

/// A good table: a FileInfo array whose names rise, of at most 512 records and 65,536 bytes.
///
/// [`TableBuf`] is one that owns its bytes.
///
/// ```
/// use fordtrumpet::{FilesBuilder, Flags, Table};
///
/// let mut files = FilesBuilder::new();
/// files.push("a", Flags(0o644), 1_700_000_000, 0, []);
/// files.push("b", Flags(0o644), 1_700_000_000, 0, []);
/// let table = Table::new(files.as_bytes())?;
/// assert_eq!(table.len(), 2);
/// # Ok::<(), fordtrumpet::Refusal>(())
/// ```
#[derive(Clone, Copy, PartialEq, Eq)]
pub struct Table<'a> {
    files: Files<'a>,
}

impl<'a> Table<'a> {
    /// The empty table.
    ///
    /// ```
    /// assert!(fordtrumpet::Table::EMPTY.is_empty());
    /// ```
    pub const EMPTY: Table<'static> = Table {
        files: Files::new(&[0, 0, 0, 0], 0),
    };

    /// Checks that the bytes are a good table.
    ///
    /// # Errors
    ///
    /// 15 if they aren't.
    ///
    /// ```
    /// use fordtrumpet::{Refusal, Table};
    ///
    /// assert_eq!(Table::new(&[0, 0, 0, 0]), Ok(Table::EMPTY));
    /// assert_eq!(Table::new(&[]), Err(Refusal::BadTable));
    /// ```
    pub fn new(bytes: &'a [u8]) -> Result<Self, Refusal> {
        // SAFETY: pointer and length are those of one slice.
        match unsafe { ffi::bep_check_table(bytes.as_ptr(), bytes.len()) } {
            0 => Ok(Table::checked(bytes)),
            number => Err(Refusal::new(number, 0)),
        }
    }

    /// The table that these bytes are known to be.
    fn checked(bytes: &'a [u8]) -> Self {
        let count = bytes.first_chunk().expect("a table has a count word");
        Table {
            files: Files::new(bytes, u32::from_be_bytes(*count) as usize),
        }
    }

    /// The number of records.
    ///
    /// ```
    /// assert_eq!(fordtrumpet::Table::EMPTY.len(), 0);
    /// ```
    pub fn len(&self) -> usize {
        self.files.len()
    }

    /// Whether there is no record.
    ///
    /// ```
    /// assert!(fordtrumpet::Table::EMPTY.is_empty());
    /// ```
    pub fn is_empty(&self) -> bool {
        self.files.is_empty()
    }

    /// The record with a number, from 0. It goes through those before it.
    ///
    /// ```
    /// # use fordtrumpet::*;
    /// # let mut files = FilesBuilder::new();
    /// # files.push("a", Flags(0o644), 1_700_000_000, 0, []);
    /// # let table = Table::new(files.as_bytes()).unwrap();
    /// assert_eq!(table.get(0).unwrap().name, "a");
    /// assert!(table.get(1).is_none());
    /// ```
    pub fn get(&self, number: usize) -> Option<FileInfo<'a>> {
        self.files.iter().nth(number)
    }

    /// The record of a name, with its number.
    ///
    /// ```
    /// # use fordtrumpet::*;
    /// # let mut files = FilesBuilder::new();
    /// # files.push("a", Flags(0o644), 1_700_000_000, 0, []);
    /// # files.push("b", Flags(0o644), 1_700_000_000, 7, []);
    /// # let table = Table::new(files.as_bytes()).unwrap();
    /// let (number, file) = table.find("b").unwrap();
    /// assert_eq!((number, file.version), (1, 7));
    /// assert!(table.find("c").is_none());
    /// ```
    pub fn find(&self, name: impl AsRef<[u8]>) -> Option<(usize, FileInfo<'a>)> {
        let name = name.as_ref();
        // Names rise, so those that are greater needn't be looked at.
        self.iter()
            .take_while(|(_, file)| file.name.as_bytes() <= name)
            .find(|(_, file)| file.name.as_bytes() == name)
    }

    /// Goes through the records, names rising, each with its number.
    ///
    /// ```
    /// # use fordtrumpet::*;
    /// # let mut files = FilesBuilder::new();
    /// # files.push("a", Flags(0o644), 1_700_000_000, 0, []);
    /// # let table = Table::new(files.as_bytes()).unwrap();
    /// for (number, file) in table {
    ///     println!("{number}: {}", file.name.escape_debug());
    /// }
    /// ```
    pub fn iter(&self) -> Enumerate<FilesIter<'a>> {
        self.files.iter().enumerate()
    }

    /// The records, names rising.
    ///
    /// ```
    /// assert!(fordtrumpet::Table::EMPTY.files().is_empty());
    /// ```
    pub fn files(&self) -> Files<'a> {
        self.files
    }

    /// The bytes of the table.
    ///
    /// ```
    /// assert_eq!(fordtrumpet::Table::EMPTY.as_bytes(), [0, 0, 0, 0]);
    /// ```
    pub fn as_bytes(&self) -> &'a [u8] {
        self.files.as_bytes()
    }
}

/// The empty table.
impl Default for Table<'_> {
    fn default() -> Self {
        Table::EMPTY
    }
}

impl fmt::Debug for Table<'_> {
    fn fmt(&self, f: &mut fmt::Formatter<'_>) -> fmt::Result {
        fmt::Debug::fmt(&self.files, f)
    }
}

impl<'a> TryFrom<&'a [u8]> for Table<'a> {
    type Error = Refusal;

    fn try_from(bytes: &'a [u8]) -> Result<Self, Refusal> {
        Table::new(bytes)
    }
}

impl<'a> IntoIterator for Table<'a> {
    type Item = (usize, FileInfo<'a>);
    type IntoIter = Enumerate<FilesIter<'a>>;

    fn into_iter(self) -> Self::IntoIter {
        self.iter()
    }
}

impl<'a> IntoIterator for &Table<'a> {
    type Item = (usize, FileInfo<'a>);
    type IntoIter = Enumerate<FilesIter<'a>>;

    fn into_iter(self) -> Self::IntoIter {
        self.iter()
    }
}

/// A good table that owns its bytes.
///
/// ```
/// use fordtrumpet::{FilesBuilder, Flags, TableBuf};
///
/// let mut files = FilesBuilder::new();
/// files.push("b", Flags(0o644), 1_700_000_000, 0, []);
/// files.push("a", Flags(0o644), 1_700_000_000, 0, []);
/// let table = TableBuf::from_files(&files)?;
/// assert!(table.as_table().files().iter().map(|file| file.name).eq(["a", "b"]));
/// # Ok::<(), fordtrumpet::TableError>(())
/// ```
#[derive(Clone, PartialEq, Eq)]
pub struct TableBuf {
    bytes: Vec<u8>,
}

impl TableBuf {
    /// The empty table.
    ///
    /// ```
    /// use fordtrumpet::{Table, TableBuf};
    ///
    /// assert_eq!(TableBuf::new().as_table(), Table::EMPTY);
    /// ```
    pub fn new() -> Self {
        Table::EMPTY.into()
    }

    /// Checks that the bytes are a good table.
    ///
    /// # Errors
    ///
    /// 15 if they aren't.
    ///
    /// ```
    /// use fordtrumpet::TableBuf;
    ///
    /// assert!(TableBuf::from_bytes(vec![0; 4]).is_ok());
    /// assert!(TableBuf::from_bytes(vec![0; 5]).is_err());
    /// ```
    pub fn from_bytes(bytes: Vec<u8>) -> Result<Self, Refusal> {
        Table::new(&bytes)?;
        Ok(TableBuf { bytes })
    }

    /// The table of files in any order.
    ///
    /// # Errors
    ///
    /// The first file with a field that no table may have; else a name that stands twice, too many
    /// files, or too many bytes.
    ///
    /// ```
    /// use fordtrumpet::{FilesBuilder, Flags, TableBuf, TableError};
    ///
    /// let mut files = FilesBuilder::new();
    /// files.push("a", Flags(0o644), 1_700_000_000, 0, []);
    /// files.push("a", Flags(0o644), 1_700_000_001, 0, []);
    /// assert_eq!(TableBuf::from_files(&files), Err(TableError::RepeatedName("a".to_string())));
    /// ```
    pub fn from_files(files: &FilesBuilder) -> Result<Self, TableError> {
        let mut records: Vec<_> = files.records().collect();
        for (number, record) in records.iter().enumerate() {
            check(record).map_err(|refusal| TableError::Field { number, refusal })?;
        }
        records.sort_by_key(|record| name_of(record));
        for pair in records.windows(2) {
            if name_of(pair[0]) == name_of(pair[1]) {
                return Err(TableError::RepeatedName(name_of(pair[0]).into()));
            }
        }
        if records.len() > MAX_RECORDS {
            return Err(TableError::TooManyRecords(records.len()));
        }
        let mut bytes = (records.len() as u32).to_be_bytes().to_vec();
        bytes.extend(records.iter().copied().flatten());
        if bytes.len() > MAX_TABLE {
            return Err(TableError::TooManyBytes(bytes.len()));
        }
        Ok(TableBuf::from_bytes(bytes).expect("records that pass, in order, are a good table"))
    }

    /// The table.
    ///
    /// ```
    /// assert!(fordtrumpet::TableBuf::new().as_table().is_empty());
    /// ```
    pub fn as_table(&self) -> Table<'_> {
        Table::checked(&self.bytes)
    }

    /// The bytes of the table.
    ///
    /// ```
    /// assert_eq!(fordtrumpet::TableBuf::new().into_bytes(), [0, 0, 0, 0]);
    /// ```
    pub fn into_bytes(self) -> Vec<u8> {
        self.bytes
    }
}

/// What reading one record gives, its place counted from the record's start.
fn check(record: &[u8]) -> Result<(), Refusal> {
    // An Index with this record alone, which needs more room than none: all else comes first.
    let mut array = vec![0, 0, 0, 1];
    array.extend_from_slice(record);
    match crate::write_index(0, "", &array, &mut []) {
        Ok(_) | Err(Refusal::NoRoom) => Ok(()),
        // Before the record there are the header, the empty Repository and the count.
        Err(refusal) => Err(Refusal::new(refusal.number(), refusal.place() - 12)),
    }
}

/// The name of a record whose reading was accepted.
fn name_of(record: &[u8]) -> &str {
    let length = record.first_chunk().expect("it begins with a length word");
    text_of(&record[4..][..u32::from_be_bytes(*length) as usize])
}

/// The empty table.
impl Default for TableBuf {
    fn default() -> Self {
        TableBuf::new()
    }
}

impl fmt::Debug for TableBuf {
    fn fmt(&self, f: &mut fmt::Formatter<'_>) -> fmt::Result {
        self.as_table().fmt(f)
    }
}

impl From<Table<'_>> for TableBuf {
    fn from(table: Table<'_>) -> Self {
        TableBuf {
            bytes: table.as_bytes().to_vec(),
        }
    }
}

impl<'a> From<&'a TableBuf> for Table<'a> {
    fn from(table: &'a TableBuf) -> Self {
        table.as_table()
    }
}

/// Why files make no table.
///
/// ```
/// use fordtrumpet::{FilesBuilder, Flags, TableBuf};
///
/// let mut files = FilesBuilder::new();
/// files.push("a", Flags(0o644), 1_700_000_000, 0, []);
/// files.push("../a", Flags(0o644), 1_700_000_000, 0, []);
/// let error = TableBuf::from_files(&files).unwrap_err();
/// let why = "file 1: the Name isn't a plain path below its folder (24), at byte 0";
/// assert_eq!(error.to_string(), why);
/// ```
#[derive(Clone, Debug, PartialEq, Eq)]
#[non_exhaustive]
pub enum TableError {
    /// There are more than 512 files: so many.
    TooManyRecords(usize),
    /// They take more than 65,536 bytes: so many.
    TooManyBytes(usize),
    /// A name stands twice.
    RepeatedName(String),
    /// A field is at fault.
    Field {
        /// The number of the file, in the order in which they were given.
        number: usize,
        /// What is wrong, with the place in the file's record.
        refusal: Refusal,
    },
}

impl fmt::Display for TableError {
    fn fmt(&self, f: &mut fmt::Formatter<'_>) -> fmt::Result {
        match self {
            TableError::TooManyRecords(count) => {
                write!(f, "{count} files, more than {MAX_RECORDS}")
            }
            TableError::TooManyBytes(bytes) => write!(f, "{bytes} bytes, more than {MAX_TABLE}"),
            TableError::RepeatedName(name) => write!(f, "the name {name:?} stands twice"),
            TableError::Field { number, refusal } => write!(f, "file {number}: {refusal}"),
        }
    }
}

impl Error for TableError {}

/// What a caller handed over is no table: invalid input.
#[cfg(feature = "std")]
impl From<TableError> for std::io::Error {
    fn from(error: TableError) -> Self {
        std::io::Error::new(std::io::ErrorKind::InvalidInput, error)
    }
}

/// Fills `out` with the merged table of two tables and gives it.
///
/// The merged table has the newest record of each name. A buffer of [`MAX_TABLE`] bytes has room for
/// any. Only the bytes of the table change in `out`.
///
/// # Errors
///
/// 19 if the merged table is above 512 records or 65,536 bytes; 14 if `out` is too short. Nothing is
/// written then.
///
/// ```
/// use fordtrumpet::{merge, FilesBuilder, Flags, Table};
///
/// let (mut ours, mut theirs) = (FilesBuilder::new(), FilesBuilder::new());
/// ours.push("a", Flags(0o644), 1_700_000_000, 0, []);
/// theirs.push("a", Flags(0o644), 1_700_000_000, 1, []);
/// theirs.push("b", Flags(0o644), 1_700_000_000, 0, []);
/// let (ours, theirs) = (Table::new(ours.as_bytes())?, Table::new(theirs.as_bytes())?);
/// let mut out = [0; 100];
/// assert_eq!(merge(ours, theirs, &mut out)?, theirs);
/// # Ok::<(), fordtrumpet::Refusal>(())
/// ```
pub fn merge<'o>(a: Table<'_>, b: Table<'_>, out: &'o mut [u8]) -> Result<Table<'o>, Refusal> {
    let length = raw::merge(a.as_bytes(), b.as_bytes(), out)?;
    Ok(Table::checked(&out[..length]))
}

/// Fills `out` with a sender's new table and gives it.
///
/// `old` is the sender's table so far. After an Index the new one has the message's records, after an
/// IndexUpdate those and the old ones that the message doesn't mention; its records are taken even
/// where they are older. Only the bytes of the table change in `out`.
///
/// # Errors
///
/// What reading the message gives; 18 if it is neither an Index nor an IndexUpdate; 21 if it is of
/// another repository; 13 if a name stands twice in it; 19 if the new table is above 512 records or
/// 65,536 bytes; 14 if `out` is too short. Nothing is written then.
///
/// ```
/// use fordtrumpet::{accept, write_index_update, FilesBuilder, Flags, Table};
///
/// let (mut old, mut sent) = (FilesBuilder::new(), FilesBuilder::new());
/// old.push("a", Flags(0o644), 1_700_000_000, 0, []);
/// sent.push("b", Flags(0o644), 1_700_000_000, 0, []);
/// let (mut message, mut out) = ([0; 100], [0; 100]);
/// let length = write_index_update(0, "default", sent.as_bytes(), &mut message)?;
/// let old = Table::new(old.as_bytes())?;
/// let table = accept(old, &message[..length], "default", &mut out)?;
/// assert!(table.files().iter().map(|file| file.name).eq(["a", "b"]));
/// # Ok::<(), fordtrumpet::Refusal>(())
/// ```
pub fn accept<'o>(
    old: Table<'_>,
    message: &[u8],
    repository: impl AsRef<[u8]>,
    out: &'o mut [u8],
) -> Result<Table<'o>, Refusal> {
    let length = raw::accept(old.as_bytes(), message, repository, out)?;
    Ok(Table::checked(&out[..length]))
}

/// Which of two records of one name is newer: [`Ordering::Greater`] where it is the first.
///
/// What decides is, in turn: the time of modification; the version; valid over invalid; deleted over
/// undeleted; the encoded bytes from the flags on. Only equal records are equal.
///
/// ```
/// use fordtrumpet::{compare, FilesBuilder, Flags, Table};
/// use std::cmp::Ordering;
///
/// let record = |modified, version| {
///     let mut files = FilesBuilder::new();
///     files.push("a", Flags(0o644), modified, version, []);
///     files
/// };
/// let (first, second) = (record(0, 0), record(-1, 9));
/// let mut first = Table::new(first.as_bytes())?.files().iter();
/// let mut second = Table::new(second.as_bytes())?.files().iter();
/// let (first, second) = (first.next().unwrap(), second.next().unwrap());
/// assert_eq!(compare(&first, &second), Ordering::Greater);
/// # Ok::<(), fordtrumpet::Refusal>(())
/// ```
pub fn compare(first: &FileInfo<'_>, second: &FileInfo<'_>) -> Ordering {
    let (a, b) = (first.as_bytes(), second.as_bytes());
    let mut answer = [0];
    // SAFETY: each pointer and length are those of one slice, and the answer has the size asked for.
    let number =
        unsafe { ffi::bep_compare(a.as_ptr(), a.len(), 0, b.as_ptr(), b.len(), 0, &mut answer) };
    assert_eq!(number, 0, "a record that was read is wholly there");
    answer[0].cmp(&1)
}
