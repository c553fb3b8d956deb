//! Puts messages and arrays together without checking anything, and keeps note of their fields so
//! that they can be damaged.

/// What a field is, for damage that fits it.
#[derive(Clone, Copy, Debug, PartialEq, Eq)]
pub enum What {
    Header,
    /// The length word of a string or opaque, with its limit.
    Length(u32),
    /// The count word of an array, with its limit.
    Count(u32),
    /// The contents of a string.
    Text,
    /// The contents of a Name.
    Name,
    Pad,
    Flags,
    /// Modified, Version, Offset, Data and hashes, where any bytes will do.
    Free,
    BlockLength,
    HashLength,
}

/// A field of an encoding and where it stands.
#[derive(Clone, Copy, Debug)]
pub struct Field {
    pub what: What,
    pub at: usize,
    pub len: usize,
}

/// Bytes being put together.
#[derive(Clone, Debug, Default)]
pub struct Encoding {
    pub bytes: Vec<u8>,
    pub fields: Vec<Field>,
}

/// One file for an array.
#[derive(Clone, Debug)]
pub struct File {
    pub name: Vec<u8>,
    pub flags: u32,
    pub modified: i64,
    pub version: u32,
    pub blocks: Vec<Block>,
}

/// One block of a file.
#[derive(Clone, Copy, Debug)]
pub struct Block {
    pub length: u32,
    pub hash: [u8; 32],
}

impl Encoding {
    pub fn new() -> Self {
        Encoding::default()
    }

    fn put(&mut self, what: What, bytes: &[u8]) -> &mut Self {
        if !bytes.is_empty() {
            self.fields.push(Field {
                what,
                at: self.bytes.len(),
                len: bytes.len(),
            });
            self.bytes.extend_from_slice(bytes);
        }
        self
    }

    fn word(&mut self, what: What, word: u32) -> &mut Self {
        self.put(what, &word.to_be_bytes())
    }

    pub fn header(&mut self, kind: u32, id: u32) -> &mut Self {
        self.word(What::Header, id << 16 | kind << 8)
    }

    pub fn string(&mut self, bytes: &[u8], limit: u32) -> &mut Self {
        self.padded(What::Text, bytes, limit)
    }

    pub fn name(&mut self, bytes: &[u8]) -> &mut Self {
        self.padded(What::Name, bytes, 255)
    }

    pub fn data(&mut self, bytes: &[u8], limit: u32) -> &mut Self {
        self.padded(What::Free, bytes, limit)
    }

    fn padded(&mut self, what: What, bytes: &[u8], limit: u32) -> &mut Self {
        let pad = bytes.len().next_multiple_of(4) - bytes.len();
        self.word(What::Length(limit), bytes.len() as u32)
            .put(what, bytes)
            .put(What::Pad, &[0; 3][..pad])
    }

    pub fn count(&mut self, count: usize, limit: u32) -> &mut Self {
        self.word(What::Count(limit), count as u32)
    }

    pub fn offset(&mut self, offset: u64) -> &mut Self {
        self.put(What::Free, &offset.to_be_bytes())
    }

    pub fn block_length(&mut self, length: u32) -> &mut Self {
        self.word(What::BlockLength, length)
    }

    pub fn hash(&mut self, hash: &[u8]) -> &mut Self {
        self.word(What::HashLength, hash.len() as u32)
            .put(What::Free, hash)
    }

    pub fn file(&mut self, file: &File) -> &mut Self {
        self.name(&file.name)
            .word(What::Flags, file.flags)
            .put(What::Free, &file.modified.to_be_bytes())
            .word(What::Free, file.version)
            .count(file.blocks.len(), 1024);
        for block in &file.blocks {
            self.block_length(block.length).hash(&block.hash);
        }
        self
    }

    pub fn files(&mut self, files: &[File]) -> &mut Self {
        self.count(files.len(), 512);
        for file in files {
            self.file(file);
        }
        self
    }

    pub fn options(&mut self, options: &[(Vec<u8>, Vec<u8>)]) -> &mut Self {
        self.count(options.len(), 64);
        for (key, value) in options {
            self.string(key, 64).string(value, 255);
        }
        self
    }

    /// Adds another encoding with its fields.
    pub fn append(&mut self, other: &Encoding) -> &mut Self {
        let start = self.bytes.len();
        self.bytes.extend_from_slice(&other.bytes);
        self.fields.extend(other.fields.iter().map(|field| Field {
            at: field.at + start,
            ..*field
        }));
        self
    }
}
