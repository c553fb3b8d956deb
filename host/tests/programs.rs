//! Runs the programs in folders of their own and reads what they print. `tools/program` builds them.

mod reference;
mod support;

use fordtrumpet::Table;
use std::ffi::OsStr;
use std::os::unix::ffi::OsStrExt;
use std::path::{Path, PathBuf};
use std::process::{Command, Output, Stdio};
use std::time::Duration;
use std::{env, fs, thread};
use support::encode::{Block, File};
use support::random::Random;
use support::tables::{encode, Pool};

/// Runs a program in a new folder that holds these files, and gives what it prints.
fn run(program: &str, case: &str, files: &[(&str, &[u8])]) -> String {
    let folder = folder(program, case);
    fill(&folder, files);
    run_in(program, &folder)
}

fn fill(folder: &Path, files: &[(&str, &[u8])]) {
    for (name, bytes) in files {
        fs::write(folder.join(name), bytes).unwrap();
    }
}

fn folder(program: &str, case: &str) -> PathBuf {
    let folder = Path::new(env!("CARGO_TARGET_TMPDIR"))
        .join(program)
        .join(case);
    let _ = fs::remove_dir_all(&folder);
    fs::create_dir_all(&folder).unwrap();
    folder
}

fn run_in(program: &str, folder: &Path) -> String {
    let output = output(program, folder, Stdio::piped());
    assert!(output.status.success());
    String::from_utf8(output.stdout).unwrap()
}

fn output(program: &str, folder: &Path, stdout: Stdio) -> Output {
    command(program, folder)
        .stdout(stdout)
        .output()
        .unwrap_or_else(|error| panic!("{program}: {error} (`tools/program {program}`)"))
}

fn command(program: &str, folder: &Path) -> Command {
    let path = Path::new(env!("CARGO_MANIFEST_DIR"))
        .join("../target/bin")
        .join(program);
    let mut command = Command::new(path);
    command.current_dir(folder);
    command
}

fn file(name: &str, blocks: impl Iterator<Item = u32>) -> File {
    let block = |number: u32| {
        let mut hash = [0; 32];
        hash[..4].copy_from_slice(&number.to_be_bytes());
        Block { length: 5, hash }
    };
    File {
        name: name.as_bytes().to_vec(),
        flags: 0o644,
        modified: 0,
        version: 0,
        blocks: blocks.map(block).collect(),
    }
}

#[test]
fn wanted_prints_nothing_but_a_closing_line_where_nothing_is_wanted() {
    assert_eq!(run("wanted", "no_files", &[]), "wanted 0\n");
    let held = encode(&[file("a", 0..3)]);
    let files: [(&str, &[u8]); 2] = [("local", &held), ("peer4", &held)];
    assert_eq!(run("wanted", "all_held", &files), "wanted 0\n");
}

/// A good table of 65,536 bytes, the most that a table may have: 1,636 blocks.
fn full_table() -> Vec<u8> {
    let table = encode(&[file("a", 0..1_024), file(&"b".repeat(40), 1_024..1_636)]);
    assert_eq!(table.len(), 65_536);
    table
}

#[test]
fn wanted_takes_full_tables_and_refuses_a_byte_more() {
    let full = full_table();
    let mut over = full.clone();
    over.push(0);
    for (name, blocks) in [
        ("local", 0),
        ("peer1", 1_636),
        ("peer2", 1_636),
        ("peer3", 1_636),
        ("peer4", 1_636),
    ] {
        let printed = run("wanted", &format!("full_{name}"), &[(name, &full)]);
        assert!(printed.ends_with(&format!("wanted {blocks}\n")), "{name}");
        let refused = run("wanted", &format!("over_{name}"), &[(name, &over)]);
        assert_eq!(refused, "refused 15\n", "{name}");
    }
}

#[test]
fn wanted_asks_each_peer_for_what_it_alone_lists() {
    let table = |name: &str, number: u32| encode(&[file(name, number..number + 1)]);
    let (first, second) = (table("a", 1), table("b", 2));
    let (third, fourth) = (table("c", 3), table("d", 4));
    let files: [(&str, &[u8]); 4] = [
        ("peer1", &first),
        ("peer2", &second),
        ("peer3", &third),
        ("peer4", &fourth),
    ];
    let expected = "file 0 block 0 offset 0 length 5 peer 1\n\
                    file 1 block 0 offset 0 length 5 peer 2\n\
                    file 2 block 0 offset 0 length 5 peer 3\n\
                    file 3 block 0 offset 0 length 5 peer 4\n\
                    wanted 4\n";
    assert_eq!(run("wanted", "each_alone", &files), expected);
}

#[test]
fn wanted_refuses_what_is_no_good_table() {
    let long = vec![0; 65_537];
    let mut stale = encode(&[file("a", 0..1)]);
    stale.push(0);
    let above = encode(&[file("../a", 0..1)]);
    for (case, name, bytes) in [
        ("too_long", "local", &long[..]),
        ("stale_end", "peer3", &stale),
        ("name_above", "peer4", &above),
        ("no_bytes", "peer1", &[]),
    ] {
        assert_eq!(
            run("wanted", case, &[(name, bytes)]),
            "refused 15\n",
            "{case}"
        );
    }
    let folder = folder("wanted", "a_folder");
    fs::create_dir(folder.join("peer2")).unwrap();
    assert_eq!(run_in("wanted", &folder), "refused 15\n");
}

#[test]
fn wanted_lends_65536_bytes_for_the_list() {
    // A table has room for 1,600 blocks, so that two make more than the 2,730 entries that fit.
    let first = encode(&[file("a", 0..800), file("b", 800..1_600)]);
    let second = |count: u32| encode(&[file("c", 1_600..2_400), file("d", 2_400..2_400 + count)]);
    let fits = run(
        "wanted",
        "fits",
        &[("peer1", &first), ("peer2", &second(330))],
    );
    assert_eq!(fits.lines().count(), 2_731);
    assert!(fits.ends_with("file 3 block 329 offset 1645 length 5 peer 2\nwanted 2730\n"));
    let over = run(
        "wanted",
        "over",
        &[("peer1", &first), ("peer2", &second(331))],
    );
    assert_eq!(over, "refused 14\n");
}

#[test]
fn listing_prints_a_line_for_each_record() {
    assert_eq!(run("listing", "no_file", &[]), "refused 15\n");
    assert_eq!(run("listing", "empty", &[("table", &[0; 4])]), "");
    assert_eq!(
        run("listing", "no_bytes", &[("table", &[])]),
        "refused 15\n"
    );
    assert_eq!(
        run("listing", "too_long", &[("table", &[0; 65_537])]),
        "refused 15\n"
    );
    let above = encode(&[file("../a", 0..1)]);
    let refused = run("listing", "name_above", &[("table", &above)]);
    assert_eq!(refused, "refused 15\n");
    let files: Vec<_> = (0..512)
        .map(|i| file(&format!("{i:03}"), 0..i % 2))
        .collect();
    let printed = run("listing", "full", &[("table", &encode(&files))]);
    assert_eq!(printed.lines().count(), 512);
    assert!(printed.ends_with("511 511 blocks 1 bytes 5 modified 0 version 0\n"));
}

#[test]
fn listing_takes_a_full_table_and_refuses_a_byte_more() {
    let mut table = full_table();
    let full = run("listing", "full_table", &[("table", &table)]);
    assert_eq!(full.lines().count(), 2);
    table.push(0);
    let over = run("listing", "a_byte_more", &[("table", &table)]);
    assert_eq!(over, "refused 15\n");
}

#[test]
fn listing_prints_names_so_that_lines_can_be_told_apart() {
    let mut record = file("a\u{7f} \\x41~", 0..0);
    record.flags = 0x3000;
    record.modified = i64::MIN;
    let printed = run("listing", "odd_name", &[("table", &encode(&[record]))]);
    assert_eq!(
        printed,
        "0 a\\x7f \\x5cx41~ deleted modified -9223372036854775808 version 0\n"
    );
}

#[test]
fn lines_that_are_lost_are_told_once_on_standard_error() {
    let full = encode(&[file("a", 0..100)]);
    let full: [(&str, &[u8]); 2] = [("peer1", &full), ("table", &full)];
    for (case, files) in [("nothing_to_read", &full[..0]), ("lost_lines", &full)] {
        for program in ["wanted", "listing", "why"] {
            let folder = folder(program, case);
            fill(&folder, files);
            let device = fs::OpenOptions::new().write(true).open("/dev/full");
            let output = output(program, &folder, device.unwrap().into());
            assert_eq!(
                String::from_utf8(output.stderr).unwrap(),
                "standard output: No space left on device\n",
                "{program}, {case}"
            );
        }
    }
}

#[test]
fn a_pipe_is_a_file_that_cannot_be_read() {
    for (program, name, told) in [
        ("wanted", "local", "refused 15\n"),
        ("wanted", "peer4", "refused 15\n"),
        ("listing", "table", "refused 15\n"),
        ("why", "local", "bad table local\n"),
        ("why", "peer4", "bad table peer4\n"),
    ] {
        let folder = folder(program, &format!("pipe_{name}"));
        let made = Command::new("mkfifo").arg(folder.join(name)).status();
        assert!(made.unwrap().success());
        let mut child = command(program, &folder)
            .args(
                (program == "why")
                    .then_some(["a", "0"])
                    .into_iter()
                    .flatten(),
            )
            .stdout(Stdio::piped())
            .spawn()
            .unwrap();
        // A program that waits for the pipe's other end would wait without end.
        let mut patience = 1_000;
        while child.try_wait().unwrap().is_none() {
            patience -= 1;
            if patience == 0 {
                child.kill().unwrap();
                panic!("{program} waits for {name}");
            }
            thread::sleep(Duration::from_millis(10));
        }
        let output = child.wait_with_output().unwrap();
        assert!(output.status.success());
        assert_eq!(output.stdout, told.as_bytes(), "{program}, {name}");
    }
}

/// Runs `why` in a folder with these words and gives what it prints.
fn why_with<W: AsRef<OsStr>>(folder: &Path, words: &[W]) -> String {
    let output = command("why", folder)
        .args(words)
        .output()
        .unwrap_or_else(|error| panic!("why: {error} (`tools/program why`)"));
    String::from_utf8(output.stdout).unwrap()
}

/// What it prints of a name and a block.
fn why(folder: &Path, name: &[u8], block: u32) -> String {
    let block = block.to_string();
    why_with(folder, &[OsStr::from_bytes(name), OsStr::new(&block)])
}

const TABLES: [&str; 5] = ["local", "peer1", "peer2", "peer3", "peer4"];

#[test]
fn why_tells_the_first_reason_that_is_true() {
    let folder = folder("why", "reasons");
    let mut deleted = file("gone", 0..0);
    deleted.flags |= 0x1000;
    let mut both = file("both", 0..0);
    both.flags |= 0x3000;
    let mut invalid = file("stale", 0..2);
    invalid.flags |= 0x2000;
    // The first record holds nothing, and the blocks 7 and 8 are in the second one here.
    let mut empty = file("a", 7..9);
    empty.flags |= 0x2000;
    let local = encode(&[empty, file("c", 6..9)]);
    let second = encode(&[both, deleted, file("new", 7..11), invalid]);
    let fourth = encode(&[file("new", 7..11), file("other", 20..21)]);
    fill(
        &folder,
        &[("local", &local), ("peer2", &second), ("peer4", &fourth)],
    );
    for (name, block, told) in [
        ("nothing", 0, "no such name"),
        ("", 0, "no such name"),
        ("ne", 0, "no such name"),
        ("new ", 0, "no such name"),
        ("../new", 0, "no such name"),
        ("gone", 0, "deleted"),
        ("gone", 5, "deleted"),
        ("both", 0, "deleted"),
        ("stale", 0, "invalid"),
        ("stale", 9, "invalid"),
        ("a", 0, "invalid"),
        ("new", 0, "held by file 1 block 1"),
        ("new", 1, "held by file 1 block 2"),
        ("new", 2, "wanted from peer 2"),
        ("new", 3, "wanted from peer 2"),
        ("new", 4, "no such block"),
        ("new", u32::MAX, "no such block"),
        ("other", 0, "wanted from peer 4"),
        ("c", 0, "held by file 1 block 0"),
    ] {
        let printed = why(&folder, name.as_bytes(), block);
        assert_eq!(printed, format!("{told}\n"), "{name} {block}");
    }
    // A name is held to no rule.
    assert_eq!(why(&folder, b"\xFFnew", 0), "no such name\n");
    assert_eq!(why(&folder, b"new\n", 0), "no such name\n");
}

#[test]
fn why_takes_an_absent_file_for_the_empty_table() {
    let folder = folder("why", "absent");
    assert_eq!(why(&folder, b"a", 0), "no such name\n");
    fill(&folder, &[("peer3", &encode(&[file("a", 0..1)]))]);
    assert_eq!(why(&folder, b"a", 0), "wanted from peer 3\n");
    assert_eq!(why(&folder, b"a", 1), "no such block\n");
}

#[test]
fn why_names_the_first_bad_table() {
    let good = encode(&[file("a", 0..1)]);
    let long = vec![0; 65_537];
    let above = encode(&[file("../a", 0..1)]);
    let stale = [&good[..], &[0]].concat();
    for name in TABLES {
        for (case, bytes) in [
            ("stale", &stale[..]),
            ("long", &long),
            ("above", &above),
            ("no_bytes", &[]),
        ] {
            let folder = folder("why", &format!("{case}_{name}"));
            fill(&folder, &TABLES.map(|table| (table, &good[..])));
            fill(&folder, &[(name, bytes)]);
            // Whatever the name is, and whether it is there.
            for asked in ["a", "b"] {
                let printed = why(&folder, asked.as_bytes(), 0);
                assert_eq!(printed, format!("bad table {name}\n"), "{case}");
            }
        }
        let folder = folder("why", &format!("folder_{name}"));
        fs::create_dir(folder.join(name)).unwrap();
        assert_eq!(why(&folder, b"a", 0), format!("bad table {name}\n"));
    }
    let folder = folder("why", "all_bad");
    fill(&folder, &TABLES.map(|table| (table, &stale[..])));
    assert_eq!(why(&folder, b"a", 0), "bad table local\n");
    fs::remove_file(folder.join("local")).unwrap();
    fs::remove_file(folder.join("peer1")).unwrap();
    assert_eq!(why(&folder, b"a", 0), "bad table peer2\n");
}

#[test]
fn why_takes_full_tables() {
    let full = full_table();
    for name in TABLES {
        let folder = folder("why", &format!("full_{name}"));
        fill(&folder, &[(name, &full)]);
        let told = match name.strip_prefix("peer") {
            Some(peer) => format!("wanted from peer {peer}\n"),
            None => "held by file 1 block 611\n".to_string(),
        };
        assert_eq!(why(&folder, "b".repeat(40).as_bytes(), 611), told);
    }
}

#[test]
fn why_tells_how_it_is_used() {
    let folder = folder("why", "usage");
    fill(&folder, &[("local", &encode(&[file("a", 0..1)]))]);
    for words in [
        &[][..],
        &["a"],
        &["a", ""],
        &["a", "x"],
        &["a", "0x"],
        &["a", "-1"],
        &["a", "1.0"],
        &["a", "4294967296"],
        &["a", "18446744073709551616"],
        &["a", "340282366920938463463374607431768211456"],
    ] {
        let printed = why_with(&folder, words);
        assert_eq!(printed, "usage: why NAME BLOCK\n", "{words:?}");
    }
    assert_eq!(why_with(&folder, &["a", "0"]), "held by file 0 block 0\n");
    assert_eq!(why_with(&folder, &["a", "4294967295"]), "no such block\n");
}

/// What it prints is what the library gives, in the same words.
#[test]
fn why_has_the_words_of_the_library() {
    let mut random = Random::new(8);
    for case in 0..20 {
        let pool = Pool::new(&mut random);
        let tables: [Vec<u8>; 5] = std::array::from_fn(|_| encode(&pool.files(&mut random)));
        let folder = folder("why", &format!("words_{case}"));
        let files: [(&str, &[u8]); 5] =
            std::array::from_fn(|number| (TABLES[number], &tables[number][..]));
        fill(&folder, &files);
        let [local, peers @ ..] = tables.each_ref().map(|table| Table::new(table).unwrap());
        for _ in 0..8 {
            let (name, block) = (pool.name(&mut random), random.below(4) as u32);
            let told = fordtrumpet::why(local, peers, &name, block);
            assert_eq!(why(&folder, &name, block), format!("{told}\n"));
        }
    }
}
