//! A folder on disk: its scan, its blocks, and the files that come into it. For Unix, where names are
//! bytes; the scan fails at one that isn't UTF-8.

use fordtrumpet::{
    find_local, sha256, Block, FileInfo, FilesBuilder, Flags, Table, TableBuf, TableError,
    MAX_BLOCK,
};
use std::fs::{self, DirBuilder, File, OpenOptions, Permissions};
use std::io::{self, ErrorKind, Read};
use std::os::unix::ffi::OsStrExt;
use std::os::unix::fs::{DirBuilderExt, FileExt, MetadataExt, PermissionsExt};
use std::path::{Path, PathBuf};
use std::time::{Duration, SystemTime, UNIX_EPOCH};
use std::{env, process};

/// What isn't whole yet lies in a folder of this name. It is no part of what is copied.
const PARTIAL: &str = ".copy-partial";

/// The bits of the mode that are told and taken: a peer is to set no set-user-ID bit here.
const MODE: u32 = 0o777;

/// What has come into a folder.
#[derive(Debug, Default)]
pub struct Report {
    /// The files that were copied.
    pub copied: Vec<String>,
    /// Those that weren't, and why.
    pub left: Vec<String>,
    /// How many bytes of blocks came over the link.
    pub received: usize,
}

impl Report {
    /// Notes how it went with a file.
    pub fn note(&mut self, name: &str, outcome: io::Result<()>) {
        // For people, and a name may hold what a terminal would obey.
        let shown = name.escape_debug();
        match outcome {
            Ok(()) => self.copied.push(shown.collect()),
            Err(why) => self.left.push(format!("{shown}: {why}")),
        }
    }
}

/// A folder that is brought up to what another has.
pub struct Folder {
    root: PathBuf,
    ours: TableBuf,
}

impl Folder {
    /// The folder with this path, scanned. What an earlier run left half done is removed.
    pub fn open(root: &Path) -> io::Result<Self> {
        match fs::remove_dir_all(root.join(PARTIAL)) {
            Err(error) if error.kind() != ErrorKind::NotFound => return Err(error),
            _ => {}
        }
        let mut folder = Folder {
            root: root.to_path_buf(),
            ours: TableBuf::new(),
        };
        folder.scan()?;
        Ok(folder)
    }

    /// What was there when it was scanned last.
    pub fn ours(&self) -> Table<'_> {
        self.ours.as_table()
    }

    /// Makes a record of each regular file in the folder and in those below it. Links aren't followed.
    pub fn scan(&mut self) -> io::Result<()> {
        let (mut paths, mut files) = (Vec::new(), FilesBuilder::new());
        // Whatever is wrong, a user looks for the name.
        let named = |path: &Path, why: io::Error| {
            io::Error::new(why.kind(), format!("{}: {why}", path.display()))
        };
        self.list(&self.root, &mut paths)
            .map_err(|why| named(&self.root, why))?;
        for path in &paths {
            let name = path.strip_prefix(&self.root).expect("it lies below");
            scan_file(path, name.as_os_str().as_bytes(), &mut files)
                .map_err(|why| named(path, why))?;
        }
        self.ours = TableBuf::from_files(&files).map_err(|error| match error {
            TableError::Field { number, refusal } => named(&paths[number], refusal.into()),
            error => named(&self.root, fault(error)),
        })?;
        Ok(())
    }

    fn list(&self, folder: &Path, paths: &mut Vec<PathBuf>) -> io::Result<()> {
        for entry in fs::read_dir(folder)? {
            let entry = entry?;
            let (path, kind) = (entry.path(), entry.file_type()?);
            if kind.is_file() {
                paths.push(path);
            } else if kind.is_dir() && path != self.root.join(PARTIAL) {
                self.list(&path, paths)?;
            }
        }
        Ok(())
    }

    /// The bytes of a block of a file that a scan found.
    pub fn block(&self, name: &str, offset: u64, length: u32) -> io::Result<Vec<u8>> {
        let mut data = vec![0; length as usize];
        let file = File::open(self.root.join(name))?;
        file.read_exact_at(&mut data, offset)?;
        Ok(data)
    }

    /// Begins a file by its record. Blocks that are here already, in whatever file of our table, are
    /// put in their places; the others are for the caller to write.
    pub fn begin(&self, new: &FileInfo) -> io::Result<Incoming> {
        if is_partial(new.name) {
            return Err(fault("the name is kept for what isn't whole yet"));
        }
        let modified = time(new.modified).ok_or_else(|| fault("the time is out of range"))?;
        let partial = self.root.join(PARTIAL);
        // Nobody else needs to read what isn't whole.
        match DirBuilder::new().mode(0o700).create(&partial) {
            Err(error) if error.kind() != ErrorKind::AlreadyExists => return Err(error),
            _ => {}
        }
        // Every name has a hash of its own, and none of its slashes.
        let digits = sha256(new.name.as_bytes()).map(|byte| format!("{byte:02x}"));
        let temporary = partial.join(digits.concat());
        File::create_new(&temporary)?;
        let file = Incoming {
            name: new.name.to_string(),
            fault: None,
            temporary,
            modified,
            // Without the owner's right to read, the next scan would fail.
            mode: new.flags.mode() & MODE | 0o400,
            replaces: self.ours().find(new.name).map(|(_, old)| old.modified),
        };
        let mut offset = 0;
        for block in new.blocks {
            if let Some(place) = find_local(self.ours(), block.length, block.hash) {
                file.write(offset, &self.local_block(place)?)?;
            }
            offset += u64::from(block.length);
        }
        Ok(file)
    }

    /// A block of our table, by the numbers of its file and of itself.
    fn local_block(&self, (file, block): (u32, u32)) -> io::Result<Vec<u8>> {
        let file = self.ours().get(file as usize).expect("a file of the table");
        let mut blocks = file.blocks.iter();
        let before = blocks.by_ref().take(block as usize);
        let offset = before.map(|block| u64::from(block.length)).sum();
        let block = blocks.next().expect("a block of the file");
        let data = self.block(file.name, offset, block.length)?;
        match sha256(&data) == *block.hash {
            true => Ok(data),
            false => Err(fault("a file with its blocks has changed since the scan")),
        }
    }

    /// Gives a file that is whole its time, its mode and its name.
    pub fn finish(&self, file: &Incoming) -> io::Result<()> {
        if let Some(what) = file.fault {
            return Err(fault(what));
        }
        let target = self.make_parents(&file.name)?;
        match fs::symlink_metadata(&target) {
            // Somebody works on it, or it is a link or a folder.
            Ok(there) if !there.is_file() || Some(there.mtime()) != file.replaces => {
                return Err(fault("what is there isn't what was scanned"));
            }
            Err(error) if error.kind() != ErrorKind::NotFound => return Err(error),
            _ => {}
        }
        let whole = OpenOptions::new().write(true).open(&file.temporary)?;
        whole.set_permissions(Permissions::from_mode(file.mode))?;
        whole.set_modified(file.modified)?;
        whole.sync_all()?;
        fs::rename(&file.temporary, target)
    }

    /// The path of a name, with its folders made. No name leads out of the folder by itself, the library
    /// sees to that, but a link on the way could.
    fn make_parents(&self, name: &str) -> io::Result<PathBuf> {
        let mut path = self.root.clone();
        let mut parts = name.split('/').peekable();
        while let Some(part) = parts.next() {
            path.push(part);
            if parts.peek().is_some() {
                match fs::symlink_metadata(&path) {
                    Ok(there) if there.is_dir() => {}
                    Ok(_) => return Err(fault("a part of the name is no folder here")),
                    Err(error) if error.kind() == ErrorKind::NotFound => fs::create_dir(&path)?,
                    Err(error) => return Err(error),
                }
            }
        }
        Ok(path)
    }
}

/// Removes what isn't whole. Where that fails, the next run does it.
impl Drop for Folder {
    fn drop(&mut self) {
        let _ = fs::remove_dir_all(self.root.join(PARTIAL));
    }
}

/// A file that isn't whole yet, under its temporary name.
pub struct Incoming {
    pub name: String,
    /// Why it won't be whole.
    pub fault: Option<&'static str>,
    temporary: PathBuf,
    modified: SystemTime,
    mode: u32,
    /// The time of the file that it takes the place of.
    replaces: Option<i64>,
}

impl Incoming {
    /// Writes a block in its place.
    pub fn write(&self, offset: u64, data: &[u8]) -> io::Result<()> {
        let file = OpenOptions::new().write(true).open(&self.temporary)?;
        file.write_all_at(data, offset)
    }
}

/// Whether a name lies where what isn't whole does, on a file system that folds case too.
fn is_partial(name: &str) -> bool {
    let first = name.split('/').next();
    first.is_some_and(|part| part.eq_ignore_ascii_case(PARTIAL))
}

fn scan_file(path: &Path, name: &[u8], files: &mut FilesBuilder) -> io::Result<()> {
    let mut file = File::open(path)?;
    let metadata = file.metadata()?;
    let mut blocks = Vec::new();
    loop {
        let mut data = Vec::new();
        file.by_ref()
            .take(MAX_BLOCK as u64)
            .read_to_end(&mut data)?;
        if data.is_empty() {
            break;
        }
        blocks.push((data.len() as u32, sha256(&data)));
    }
    let blocks = blocks.iter().map(|(length, hash)| Block {
        length: *length,
        hash,
    });
    let mode = Flags(metadata.mode() & MODE);
    files.push(name, mode, metadata.mtime(), 0, blocks);
    Ok(())
}

/// The time so many seconds after 1970, or before it.
fn time(seconds: i64) -> Option<SystemTime> {
    let distance = Duration::from_secs(seconds.unsigned_abs());
    match seconds {
        0.. => UNIX_EPOCH.checked_add(distance),
        _ => UNIX_EPOCH.checked_sub(distance),
    }
}

/// Two new folders with a few files.
pub fn samples() -> io::Result<[PathBuf; 2]> {
    let folder = env::temp_dir().join(format!("fordtrumpet-copy-{}", process::id()));
    let folders = [folder.join("first"), folder.join("second")];
    fs::create_dir(&folder)?;
    for folder in &folders {
        fs::create_dir(folder)?;
    }
    fs::create_dir(folders[0].join("notes"))?;
    fs::write(
        folders[0].join("notes/long.txt"),
        "three blocks \n".repeat(20_000),
    )?;
    fs::write(folders[0].join("empty"), "")?;
    fs::write(folders[1].join("hello.txt"), "hello")?;
    Ok(folders)
}

fn fault(what: impl Into<Box<dyn std::error::Error + Send + Sync>>) -> io::Error {
    io::Error::new(ErrorKind::InvalidData, what)
}

#[cfg(test)]
mod tests {
    use super::is_partial;

    #[test]
    fn names_kept_for_what_is_not_whole_are_told_from_others() {
        let kept = [".copy-partial", ".copy-partial/x", ".Copy-PARTIAL/x/y"];
        let others = ["a", ".copy-partial2/x", "a/.copy-partial", "..."];
        assert!(kept.into_iter().all(is_partial));
        assert!(!others.into_iter().any(is_partial));
    }
}
