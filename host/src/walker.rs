//! Goes through a table record by record, checking it at each step.

use crate::{ffi, FileInfo, Refusal};

/// A table and a place in it.
///
/// It opens on any bytes: whether they are a good table is checked, whole, at each step. Where a table
/// was checked before, [`Table::files`](crate::Table::files) is much faster.
///
/// ```
/// use fordtrumpet::raw::Walker;
/// use fordtrumpet::{FilesBuilder, Flags};
///
/// let mut files = FilesBuilder::new();
/// files.push("a", Flags(0o644), 1_700_000_000, 0, []);
/// files.push("b", Flags(0o644), 1_700_000_000, 0, []);
/// let mut walker = Walker::open(files.as_bytes());
/// let mut names = Vec::new();
/// while let Some(file) = walker.step()? {
///     names.push(file.name);
/// }
/// assert_eq!(names, ["a", "b"]);
/// # Ok::<(), fordtrumpet::Refusal>(())
/// ```
#[derive(Clone, Copy, Debug)]
pub struct Walker<'a> {
    table: &'a [u8],
    at: usize,
}

impl<'a> Walker<'a> {
    /// A walker at the first record.
    ///
    /// ```
    /// use fordtrumpet::raw::Walker;
    ///
    /// assert!(Walker::open(b"\0\0\0\0").step()?.is_none());
    /// # Ok::<(), fordtrumpet::Refusal>(())
    /// ```
    pub fn open(table: &'a [u8]) -> Self {
        Walker { table, at: 4 }
    }

    /// The record at the place, past which the walker moves; or none at the table's end, where it
    /// stays.
    ///
    /// # Errors
    ///
    /// 15 if the bytes aren't a good table. The walker stays where it is.
    ///
    /// ```
    /// use fordtrumpet::raw::Walker;
    ///
    /// assert_eq!(Walker::open(b"").step().unwrap_err().number(), 15);
    /// ```
    pub fn step(&mut self) -> Result<Option<FileInfo<'a>>, Refusal> {
        let table = self.table;
        let mut answer = [0; 8];
        // SAFETY: pointer and length are those of one slice, and the answer has the size asked for.
        let number = unsafe { ffi::bep_step(table.as_ptr(), table.len(), self.at, &mut answer) };
        if number != 0 {
            return Err(Refusal::new(number, 0));
        }
        if answer[0] == 0 {
            return Ok(None);
        }
        // The step has checked the whole table and found the record to be one of it.
        let file = FileInfo::new(table, self.at, answer);
        self.at += file.as_bytes().len();
        Ok(Some(file))
    }

    /// The place in the table.
    ///
    /// ```
    /// use fordtrumpet::raw::Walker;
    ///
    /// assert_eq!(Walker::open(b"\0\0\0\0").place(), 4);
    /// ```
    pub fn place(&self) -> usize {
        self.at
    }
}
