//! How long the library and the reference need for the same calls on messages, side by side.

mod by_std;
#[path = "../tests/reference/mod.rs"]
mod reference;
#[path = "../tests/support/mod.rs"]
mod support;
mod timing;

use fordtrumpet::Message;
use reference::{by_copy, Edition};
use std::hint::black_box;
use support::draft::{Body, Draft};
use support::encode::{Block, Encoding, File};
use timing::{best_times, compare, heading, keep, print, time_alone};

fn main() {
    heading();
    let drafts = drafts();
    for (what, draft) in &drafts {
        compare_reading(what, draft);
    }
    for (what, draft) in &drafts {
        compare_writing(what, draft);
    }
    compare_turning("Request", request());
    compare_turning(
        "Index, 4 files of 400 blocks (64 KB)",
        index(4, 400, "directory/file name"),
    );
    compare_turning(
        "Index, 512 files without blocks",
        index(512, 0, "directory/file name"),
    );
    compare_turning("Response, 131,072 bytes", response(131_072));
    compare_texts();
    compare_walking_files("walk 512 files", &index(512, 0, "directory/file name"));
    compare_walking_options("walk 64 options", &options(64));
    time_copying();
}

/// The messages that are read and written.
fn drafts() -> Vec<(&'static str, Draft)> {
    let mut update = index(1, 2, "directory/file name");
    let Body::Index { update: flag, .. } = &mut update.body else {
        unreachable!()
    };
    *flag = true;
    vec![
        (
            "Index, 1 file of 2 blocks",
            index(1, 2, "directory/file name"),
        ),
        ("IndexUpdate, 1 file of 2 blocks", update),
        ("Request", request()),
        ("Response, 100 bytes", response(100)),
        ("Ping", draft(Body::Ping)),
        ("Pong", draft(Body::Pong)),
        ("Options, 2", options(2)),
        (
            "Index, 4 files of 400 blocks (64 KB)",
            index(4, 400, "directory/file name"),
        ),
        (
            "Index, 512 files without blocks",
            index(512, 0, "directory/file name"),
        ),
        (
            "Index, 512 files, names not ASCII",
            index(512, 0, "каталог/имя"),
        ),
        (
            "Index, 512 files, names of three parts",
            index(512, 0, "clips/cam1/take"),
        ),
        ("Response, 131,072 bytes", response(131_072)),
        ("Options, 64", options(64)),
    ]
}

fn draft(body: Body) -> Draft {
    Draft::new(77, body)
}

fn index(count: usize, blocks: usize, name: &str) -> Draft {
    let block = Block {
        length: 131_072,
        hash: [0xA7; 32],
    };
    let file = |number| File {
        name: format!("{name} {number:04}").into_bytes(),
        flags: 0o644,
        modified: 1_700_000_000,
        version: 1,
        blocks: vec![block; blocks],
    };
    let mut files = Encoding::new();
    files.files(&(0..count).map(file).collect::<Vec<_>>());
    draft(Body::Index {
        update: false,
        repository: b"default".to_vec(),
        files,
    })
}

fn request() -> Draft {
    draft(Body::Request {
        repository: b"default".to_vec(),
        name: b"directory/file name 0001".to_vec(),
        offset: 131_072,
        length: 131_072,
        hash: vec![0xA7; 32],
    })
}

fn response(len: usize) -> Draft {
    draft(Body::Response {
        data: vec![0xA7; len],
    })
}

fn options(count: usize) -> Draft {
    let option = |number| {
        (
            format!("option {number:02}").into_bytes(),
            b"its value".to_vec(),
        )
    };
    let mut options = Encoding::new();
    options.options(&(0..count).map(option).collect::<Vec<_>>());
    draft(Body::Options { options })
}

fn compare_reading(what: &str, draft: &Draft) {
    let message = draft.encode().bytes;
    type Library = fn(&[u8]) -> Result<fordtrumpet::ReadMessage<'_>, fordtrumpet::Refusal>;
    type Reference = fn(&[u8]) -> Result<reference::Message, reference::Refusal>;
    let library: Library = black_box(fordtrumpet::read);
    let reference: Reference = black_box(reference::read);
    assert_eq!(library(&message).unwrap().used, message.len());
    assert_eq!(reference(&message).unwrap().end, message.len());
    compare(
        &format!("read {what}"),
        &mut [],
        |_| keep(&library(black_box(&message))),
        |_| keep(&reference(black_box(&message))),
    );
}

/// Reads messages that are names and little else. Each gets a second line, in which the reference takes
/// the standard library's UTF-8 for its text rule.
fn compare_texts() {
    let long = |name: &str| name.repeat(250 / name.len());
    for (what, name) in [
        ("512 names, ASCII", "directory/file name".to_string()),
        ("512 names, Cyrillic", "каталог/имя".to_string()),
        ("512 long names, ASCII", long("directory/file name")),
        ("512 long names, Cyrillic", long("каталог/имя")),
        ("512 long names, Chinese", long("目录/文件名")),
        ("512 long names, emoji", long("📁📄🎬🎧")),
    ] {
        let draft = index(512, 0, &name);
        compare_reading(what, &draft);
        compare_reading_by_std("  by std::str::from_utf8", &draft);
    }
}

fn compare_reading_by_std(what: &str, draft: &Draft) {
    let message = draft.encode().bytes;
    type Library = fn(&[u8]) -> Result<fordtrumpet::ReadMessage<'_>, fordtrumpet::Refusal>;
    type Reference = fn(&[u8]) -> Result<by_std::Message, reference::Refusal>;
    let library: Library = black_box(fordtrumpet::read);
    let reference: Reference = black_box(by_std::read);
    assert_eq!(reference(&message).unwrap().end, message.len());
    compare(
        what,
        &mut [],
        |_| keep(&library(black_box(&message))),
        |_| keep(&reference(black_box(&message))),
    );
}

fn compare_writing(what: &str, draft: &Draft) {
    let len = draft.encode().bytes.len();
    let mut out = vec![0; len];
    type Library = fn(&Draft, &mut [u8]) -> Result<usize, fordtrumpet::Refusal>;
    type Reference = fn(&Draft, &mut [u8]) -> Result<usize, reference::Refusal>;
    let library: Library = black_box(Draft::write_safely);
    let reference: Reference = black_box(Draft::write_with_reference);
    assert_eq!(library(draft, &mut out), Ok(len));
    assert_eq!(reference(draft, &mut out), Ok(len));
    compare(
        &format!("write {what}"),
        &mut out,
        |out| keep(&library(black_box(draft), out)),
        |out| keep(&reference(black_box(draft), out)),
    );
}

/// Turns a message up and down. Each gets a second line, in which the reference copies what it has read
/// rather than write it field by field.
fn compare_turning(what: &str, mut draft: Draft) {
    let new = draft.encode().bytes;
    draft.edition = Edition::Old;
    let old = draft.encode().bytes;
    let by_copying = "  by copying what was read";

    let up = |old: &[u8], out: &mut [u8]| fordtrumpet::upgrade(old, "default", out);
    let down = fordtrumpet::downgrade;
    compare_turned(&format!("up {what}"), &old, &new, up, |old, out| {
        reference::upgrade(old, b"default", out)
    });
    compare_turned(by_copying, &old, &new, up, |old, out| {
        by_copy::upgrade(old, b"default", out)
    });
    compare_turned(
        &format!("down {what}"),
        &new,
        &old,
        down,
        reference::downgrade,
    );
    compare_turned(by_copying, &new, &old, down, by_copy::downgrade);
}

fn compare_turned(
    what: &str,
    from: &[u8],
    to: &[u8],
    library: fn(&[u8], &mut [u8]) -> Result<usize, fordtrumpet::Refusal>,
    reference: fn(&[u8], &mut [u8]) -> Result<usize, reference::Refusal>,
) {
    let (library, reference) = (black_box(library), black_box(reference));
    let mut out = vec![0; to.len()];
    assert_eq!(library(from, &mut out), Ok(to.len()));
    assert_eq!(out, to);
    out.fill(0);
    assert_eq!(reference(from, &mut out), Ok(to.len()));
    assert_eq!(out, to);
    // On the wire a message begins where the one before it ended, at any multiple of four, and how long
    // a copy takes goes by where it stands: the mean over all places in a line of the cache.
    let mut wire = vec![0; from.len() + 128];
    let line = wire.as_ptr().align_offset(64);
    let places = line..line + 64;
    let (mut library_time, mut reference_time) = (0.0, 0.0);
    for place in places.clone().step_by(4) {
        wire[place..][..from.len()].copy_from_slice(from);
        let message = &wire[place..][..from.len()];
        let (library, reference) = best_times(
            &mut out,
            |out| keep(&library(black_box(message), out)),
            |out| keep(&reference(black_box(message), out)),
        );
        library_time += library;
        reference_time += reference;
    }
    let count = places.step_by(4).count() as f64;
    print(what, library_time / count, reference_time / count);
}

fn compare_walking_files(what: &str, draft: &Draft) {
    let message = draft.encode().bytes;
    let Message::Index(index) = fordtrumpet::read(&message).unwrap().message else {
        unreachable!()
    };
    let array = index.files.as_bytes();
    compare(
        what,
        &mut [],
        |_| {
            for file in black_box(index.files) {
                keep(&file);
            }
        },
        |_| {
            let mut at = 4;
            while let Some(file) = reference::file_at(black_box(array), at) {
                keep(&file);
                at = file.end;
            }
        },
    );
}

fn compare_walking_options(what: &str, draft: &Draft) {
    let message = draft.encode().bytes;
    let Message::Options(message) = fordtrumpet::read(&message).unwrap().message else {
        unreachable!()
    };
    let array = message.options.as_bytes();
    compare(
        what,
        &mut [],
        |_| {
            for option in black_box(message.options) {
                keep(&option);
            }
        },
        |_| {
            let mut at = 4;
            while let Some(option) = reference::option_at(black_box(array), at) {
                keep(&option);
                at = option.end;
            }
        },
    );
}

/// What moving bytes costs at all, for scale.
fn time_copying() {
    const LEN: usize = 65_536;
    // Half a page apart, since processors slow down when the two places look alike in their low bits.
    let mut bytes = vec![0xA7; LEN + 2048 + LEN];
    let (from, to) = bytes.split_at_mut(LEN + 2048);
    let copy = |to: &mut [u8]| to.copy_from_slice(black_box(&from[..LEN]));
    time_alone("copy 65,536 bytes (memcpy)", to, copy);
}
