//! Writes an Index message with two files to the file named on the command line.
//!
//! `cargo run --example make_sample sample.bin`; `show.c` prints what it holds.

use fordtrumpet::{write_index, Block, FilesBuilder, Flags};
use std::error::Error;
use std::{env, fs};

fn main() -> Result<(), Box<dyn Error>> {
    let path = env::args_os().nth(1).ok_or("name the file to write")?;

    let first = Block {
        length: 131_072,
        hash: &[0x11; 32],
    };
    let second = Block {
        length: 5,
        hash: &[0x22; 32],
    };
    let mut files = FilesBuilder::new();
    files.push(
        "notes/a.txt",
        Flags(0o644),
        1_700_000_000,
        2,
        [first, second],
    );
    files.push("notes/b.txt", Flags::DELETED, 1_700_000_100, 0, []);

    let mut out = [0; 1024];
    let length = write_index(1, "default", files.as_bytes(), &mut out)?;
    fs::write(&path, &out[..length])?;
    println!("{length} bytes written to {}", path.display());
    Ok(())
}
