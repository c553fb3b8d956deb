//! The example `copy`: what two folders are after an exchange, and what a hostile peer can't do.

#[allow(dead_code)]
#[path = "../examples/copy.rs"]
mod example;

use example::folder::{Folder, Report};
use example::{copy, exchange, messages, next_message, TRIES};
use fordtrumpet::{
    read, sha256, write_index, write_ping, write_response, Block, FilesBuilder, Flags, Message,
    MAX_TABLE_INDEX,
};
use std::collections::BTreeMap;
use std::ffi::OsStr;
use std::fs::{self, File, Permissions};
use std::io::{self, Read, Write};
use std::net::{Ipv4Addr, TcpListener, TcpStream};
use std::os::unix::ffi::OsStrExt;
use std::os::unix::fs::{symlink, MetadataExt, PermissionsExt};
use std::path::{Path, PathBuf};
use std::thread;
use std::time::{Duration, UNIX_EPOCH};

/// New folders for a test, `name/first` and `name/second`.
fn folders(test: &str) -> [PathBuf; 2] {
    let folder = Path::new(env!("CARGO_TARGET_TMPDIR"))
        .join("copy")
        .join(test);
    let _ = fs::remove_dir_all(&folder);
    ["first", "second"].map(|side| {
        let folder = folder.join(side);
        fs::create_dir_all(&folder).unwrap();
        folder
    })
}

/// A file with these contents, that many seconds after a time long ago.
fn put(folder: &Path, name: &str, contents: &[u8], seconds: u64) {
    let path = folder.join(name);
    fs::create_dir_all(path.parent().unwrap()).unwrap();
    let mut file = File::create(&path).unwrap();
    file.write_all(contents).unwrap();
    // A part of a second is in no record, and so it mustn't matter.
    let time =
        UNIX_EPOCH + Duration::from_secs(1_700_000_000 + seconds) + Duration::from_millis(400);
    file.set_modified(time).unwrap();
    file.set_permissions(Permissions::from_mode(0o640)).unwrap();
}

/// Bytes that differ from block to block and from seed to seed.
fn noise(seed: u64, length: usize) -> Vec<u8> {
    let mut state = seed;
    let mut next = || {
        state = state
            .wrapping_mul(6_364_136_223_846_793_005)
            .wrapping_add(1_442_695_040_888_963_407);
        (state >> 56) as u8
    };
    (0..length).map(|_| next()).collect()
}

/// What is in a folder and below it: contents, seconds and mode of each file, by name.
fn contents(folder: &Path) -> BTreeMap<PathBuf, (Vec<u8>, i64, u32)> {
    let mut files = BTreeMap::new();
    let mut folders = vec![folder.to_path_buf()];
    while let Some(next) = folders.pop() {
        for entry in fs::read_dir(next).unwrap() {
            let entry = entry.unwrap();
            let (path, metadata) = (entry.path(), entry.metadata().unwrap());
            if metadata.is_dir() {
                folders.push(path);
            } else if metadata.is_file() {
                let name = path.strip_prefix(folder).unwrap().to_path_buf();
                let file = (fs::read(&path).unwrap(), metadata.mtime(), metadata.mode());
                files.insert(name, file);
            }
        }
    }
    files
}

/// Both folders are as told, and another exchange finds nothing to do.
fn assert_equal(first: &Path, second: &Path, names: &[&str]) {
    let files = contents(first);
    assert!(
        files.keys().eq(names.iter().map(Path::new)),
        "{:?}",
        files.keys()
    );
    assert!(files == contents(second));
    for report in copy(first, second).unwrap() {
        assert!(
            report.copied.is_empty() && report.left.is_empty(),
            "{report:?}"
        );
        assert_eq!(report.received, 0);
    }
    assert!(files == contents(first) && files == contents(second));
}

#[test]
fn two_folders_end_equal_and_a_second_run_copies_nothing() {
    let [first, second] = folders("two_folders");
    put(&first, "empty", b"", 0);
    put(&first, "one", b"1", 1);
    put(&second, "block", &noise(1, 131_072), 2);
    put(&first, "long", &noise(2, 300_000), 3);
    for folder in [&first, &second] {
        put(folder, "same", &noise(3, 200_000), 4);
    }
    put(&first, "newer here", b"new", 6);
    put(&second, "newer here", b"old and longer", 5);
    put(&first, "newer there", &noise(4, 140_000), 7);
    put(&second, "newer there", &noise(5, 140_000), 8);
    put(
        &second,
        "f\u{fc}r \u{65e5}\u{672c} \u{1f4c4}.txt",
        "gr\u{fc}n".as_bytes(),
        9,
    );
    put(&second, "sub/folder/file", b"below", 10);

    let [to_first, to_second] = copy(&first, &second).unwrap();
    let mut copied = to_first.copied;
    copied.sort();
    assert_eq!(
        copied,
        [
            "block",
            "f\u{fc}r \u{65e5}\u{672c} \u{1f4c4}.txt",
            "newer there",
            "sub/folder/file"
        ]
    );
    assert_eq!(to_first.received, 131_072 + 140_000 + "gr\u{fc}n".len() + 5);
    assert_eq!(to_second.copied, ["empty", "long", "newer here", "one"]);
    assert_eq!(to_second.received, 300_000 + 3 + 1);
    assert_eq!(
        contents(&first)[Path::new("newer there")].0,
        noise(5, 140_000)
    );
    assert_eq!(contents(&second)[Path::new("newer here")].0, b"new");
    let names = [
        "block",
        "empty",
        "f\u{fc}r \u{65e5}\u{672c} \u{1f4c4}.txt",
        "long",
        "newer here",
        "newer there",
        "one",
        "same",
        "sub/folder/file",
    ];
    assert_equal(&first, &second, &names);
}

#[test]
fn two_empty_folders_have_nothing_to_say() {
    let [first, second] = folders("empty");
    assert_equal(&first, &second, &[]);
}

/// Far more than sockets and window hold goes both ways at once.
#[test]
fn long_files_go_both_ways_at_once() {
    let [first, second] = folders("both_ways");
    put(&first, "a", &noise(1, 12_000_000), 0);
    put(&second, "b", &noise(2, 12_000_001), 0);
    for number in 0..200 {
        put(
            &first,
            &format!("small {number:03}"),
            &noise(1_000 + number, 300),
            number,
        );
    }
    let [to_first, to_second] = copy(&first, &second).unwrap();
    assert_eq!(to_first.received, 12_000_001);
    assert_eq!(to_second.received, 12_000_000 + 200 * 300);
    let small: Vec<_> = (0..200)
        .map(|number| format!("small {number:03}"))
        .collect();
    let names: Vec<_> = ["a", "b"]
        .into_iter()
        .chain(small.iter().map(String::as_str))
        .collect();
    assert_equal(&first, &second, &names);
}

#[test]
fn of_two_files_of_one_time_both_devices_take_the_same() {
    let [first, second] = folders("one_time");
    put(&first, "a", b"these", 0);
    put(&second, "a", b"those", 0);
    copy(&first, &second).unwrap();
    assert_equal(&first, &second, &["a"]);
}

/// The second folder has all blocks, in other places and in a file that gets new contents.
#[test]
fn blocks_that_are_there_under_another_name_are_not_sent() {
    let [first, second] = folders("moved");
    let (one, two) = (noise(1, 131_072), noise(2, 131_072));
    put(&first, "a", &[&two[..], &one[..]].concat(), 5);
    put(&first, "b", &one, 5);
    put(&second, "a", &[&one[..], &two[..]].concat(), 0);
    let [_, to_second] = copy(&first, &second).unwrap();
    assert_eq!(to_second.copied, ["a", "b"]);
    assert_eq!(to_second.received, 0);
    assert_equal(&first, &second, &["a", "b"]);
}

#[test]
fn a_folder_that_makes_no_table_is_told_by_name() {
    let [first, second] = folders("no_table");
    for number in 0..513 {
        put(&second, &number.to_string(), b"", 0);
    }
    let error = copy(&first, &second).unwrap_err();
    let why = format!("{}: 513 files, more than 512", second.display());
    assert_eq!(error.to_string(), why);
    let none = first.join("none");
    let error = copy(&first, &none).unwrap_err();
    assert!(error.to_string().contains(&*none.to_string_lossy()));
    let path = second.join(OsStr::from_bytes(b"a\xC0\xAFb"));
    fs::write(&path, b"").unwrap();
    let error = copy(&first, &second).unwrap_err();
    // In the file's record: after the length word and the letter.
    let why = format!("{}: a string isn't UTF-8 (7), at byte 5", path.display());
    assert_eq!(error.to_string(), why);
}

/// A device with this folder, and our end of its link.
fn device(folder: PathBuf) -> (thread::JoinHandle<io::Result<Report>>, TcpStream) {
    let listener = TcpListener::bind((Ipv4Addr::LOCALHOST, 0)).unwrap();
    let near = TcpStream::connect(listener.local_addr().unwrap()).unwrap();
    near.set_read_timeout(Some(Duration::from_secs(20)))
        .unwrap();
    let (far, _) = listener.accept().unwrap();
    (
        thread::spawn(move || exchange(Folder::open(&folder)?, far)),
        near,
    )
}

fn send_index(stream: &mut TcpStream, files: &FilesBuilder) {
    let mut out = vec![0; MAX_TABLE_INDEX];
    let length = write_index(0, b"default", files.as_bytes(), &mut out).unwrap();
    stream.write_all(&out[..length]).unwrap();
}

/// Answers each Request with these bytes until the second Index comes; gives the names asked for.
fn answer_all(stream: &mut TcpStream, data: &[u8]) -> Vec<String> {
    answer_each(stream, |_| data)
}

/// The same with other bytes for each Request, by its number from 0.
fn answer_each<'a>(stream: &mut TcpStream, data: impl Fn(usize) -> &'a [u8]) -> Vec<String> {
    let (mut names, mut indexes) = (Vec::new(), 0);
    let mut stream = &*stream;
    let mut messages = messages(stream);
    let mut out = vec![0; 200_000];
    while indexes < 2 {
        let message = next_message(&mut messages).unwrap();
        match read(&message).unwrap().message {
            Message::Index(_) => indexes += 1,
            Message::Request(request) => {
                let data = data(names.len());
                names.push(request.name.to_string());
                let length = write_response(request.id, data, &mut out).unwrap();
                stream.write_all(&out[..length]).unwrap();
            }
            other => panic!("{other:?}"),
        }
    }
    names
}

/// Names that pass, but lead out of the folder by a link, or to what isn't whole.
#[test]
fn names_that_are_not_for_files_here_are_not_written() {
    let [inner, outside] = folders("hostile");
    symlink(&outside, inner.join("link")).unwrap();
    put(&inner, "mine", b"mine", 9);
    let data = b"hello";
    let hash = sha256(data);
    let bad = [".COPY-partial/x", ".copy-partial/x", "link/x"];
    // With data of their own, and without: an empty file takes no Request.
    for blocks in [
        &[][..],
        &[Block {
            length: 5,
            hash: &hash,
        }][..],
    ] {
        let mut files = FilesBuilder::new();
        for name in bad {
            files.push(name, Flags(0o644), 1_700_000_000, 0, blocks.iter().copied());
        }
        files.push(
            b"good",
            Flags(0o4755),
            1_700_000_000,
            0,
            [Block {
                length: 5,
                hash: &hash,
            }],
        );
        files.push(b"mine", Flags::DELETED, 1_800_000_000, 0, []);
        files.push(b"no mode", Flags(0), 1_700_000_001, 0, []);
        for name in ["good", "no mode"] {
            let _ = fs::remove_file(inner.join(name));
        }

        let (device, mut stream) = device(inner.clone());
        send_index(&mut stream, &files);
        let asked = answer_all(&mut stream, data);
        send_index(&mut stream, &files);
        let report = device.join().unwrap().unwrap();

        assert_eq!(report.copied, ["good", "no mode"]);
        assert_eq!(report.left.len(), bad.len());
        // A link is found when the file gets its name; all others before anything is asked for.
        assert!(
            asked.iter().all(|name| name == "good" || name == "link/x"),
            "{asked:?}"
        );
        let files = contents(inner.parent().unwrap());
        let names = ["first/good", "first/mine", "first/no mode"].map(Path::new);
        assert!(files.keys().eq(names), "{files:?}");
        assert_eq!(files[names[0]], (data.to_vec(), 1_700_000_000, 0o100755));
        assert_eq!(files[names[2]], (vec![], 1_700_000_001, 0o100400));
    }
    // `rt ci` refuses links below the repository.
    fs::remove_file(inner.join("link")).unwrap();
}

/// An Index of a file with this name, and a Request for it, as only a hostile peer sends them: the writers
/// refuse it. Its place is 20 in the one and 16 in the other.
fn unchecked(name: &str) -> [(Vec<u8>, usize); 2] {
    let repository = b"\0\0\0\x07default\0";
    let mut files = FilesBuilder::new();
    files.push(name, Flags(0o644), 1_700_000_000, 0, []);
    let files = files.as_bytes();
    let index = [b"\0\0\x01\0", &repository[..], files].concat();
    // A record begins with its name, and what comes after that isn't reached.
    let request = [b"\0\0\x02\0", &repository[..], &files[4..]].concat();
    [(index, 20), (request, 16)]
}

#[test]
fn a_name_that_leads_out_of_the_folder_ends_the_exchange() {
    let [inner, _] = folders("climbing");
    put(&inner, "mine", b"mine", 9);
    let above = inner.parent().unwrap().to_path_buf();
    let absolute = above.join("absolute");
    for name in [
        "../x",
        "..",
        "a/../../x",
        "a//x",
        "a/",
        "./mine",
        "zero\0x",
        absolute.to_str().unwrap(),
    ] {
        for (message, place) in unchecked(name) {
            let (device, mut stream) = device(inner.clone());
            stream.write_all(&message).unwrap();
            let error = device.join().unwrap().unwrap_err();
            let why = format!("the Name isn't a plain path below its folder (24), at byte {place}");
            assert_eq!(error.to_string(), why, "{name:?}");
            assert!(contents(&above).keys().eq([Path::new("first/mine")]));
        }
    }
}

#[test]
fn blocks_that_are_not_what_was_asked_for_are_not_kept() {
    let hash = sha256(b"hello");
    for (data, why, times) in [
        (&b"hullo"[..], "a: a block isn't what its hash says", TRIES),
        (b"hello!", "a: a block has another length", 1),
        (b"", "a: a block isn't available", 1),
    ] {
        let [folder, _] = folders("wrong_blocks");
        let mut files = FilesBuilder::new();
        files.push(
            b"a",
            Flags(0o644),
            1_700_000_000,
            0,
            [Block {
                length: 5,
                hash: &hash,
            }; 40],
        );
        let (device, mut stream) = device(folder.clone());
        send_index(&mut stream, &files);
        let asked = answer_all(&mut stream, data).len();
        assert_eq!(asked, 40 * times as usize);
        send_index(&mut stream, &files);
        let report = device.join().unwrap().unwrap();
        assert_eq!(report.left, [why]);
        assert!(report.copied.is_empty() && contents(&folder).is_empty());
    }
}

/// A card that reads badly sends blocks of the right size and the wrong content.
#[test]
fn a_block_of_wrong_content_is_asked_for_again() {
    let [folder, _] = folders("asked_again");
    let hash = sha256(b"hello");
    let block = Block {
        length: 5,
        hash: &hash,
    };
    let mut files = FilesBuilder::new();
    files.push(b"a", Flags(0o644), 1_700_000_000, 0, [block; 30]);
    let (device, mut stream) = device(folder.clone());
    send_index(&mut stream, &files);
    // One in four is wrong: 8 of 30, then 2 of these 8, and none of these 2.
    let asked = answer_each(&mut stream, |number| match number % 4 {
        1 => b"hullo",
        _ => b"hello",
    });
    send_index(&mut stream, &files);
    let report = device.join().unwrap().unwrap();
    assert_eq!(asked.len(), 40);
    assert_eq!((report.copied.len(), report.left.len()), (1, 0));
    assert_eq!(report.received, 150);
    let files = contents(&folder);
    let (data, ..) = &files[Path::new("a")];
    assert_eq!(*data, b"hello".repeat(30));
}

#[test]
fn a_peer_that_goes_away_or_talks_nonsense_ends_the_exchange() {
    let hash = [7; 32];
    let mut files = FilesBuilder::new();
    files.push(
        b"a",
        Flags(0o644),
        1_700_000_000,
        0,
        [Block {
            length: 5,
            hash: &hash,
        }],
    );
    let [folder, _] = folders("gone");
    let (gone, mut stream) = device(folder.clone());
    send_index(&mut stream, &files);
    drop(stream);
    gone.join().unwrap().unwrap_err();

    let (nonsense, mut stream) = device(folder.clone());
    stream.write_all(&[0, 0, 8, 0]).unwrap();
    let error = nonsense.join().unwrap().unwrap_err();
    assert_eq!(error.kind(), io::ErrorKind::InvalidData);
    assert!(contents(&folder).is_empty());

    // A name with its slash in another spelling.
    let mut files = FilesBuilder::new();
    files.push("notes||a.txt", Flags(0o644), 1_700_000_000, 0, []);
    let mut index = [0; 200];
    let length = write_index(0, "default", files.as_bytes(), &mut index).unwrap();
    let slash = index.iter().position(|&byte| byte == b'|').unwrap();
    index[slash..][..2].copy_from_slice(b"\xC0\xAF");
    let (nonsense, mut stream) = device(folder.clone());
    stream.write_all(&index[..length]).unwrap();
    let error = nonsense.join().unwrap().unwrap_err();
    let why = format!("a string isn't UTF-8 (7), at byte {slash}");
    assert_eq!(error.to_string(), why);
    assert!(contents(&folder).is_empty());

    // A Response that nobody asked for.
    let (nonsense, mut stream) = device(folder.clone());
    stream.write_all(&[0, 0, 3, 0, 0, 0, 0, 0]).unwrap();
    let error = nonsense.join().unwrap().unwrap_err();
    assert_eq!(error.kind(), io::ErrorKind::InvalidData);
}

#[test]
fn a_ping_gets_its_pong_and_a_block_that_is_not_ours_no_data() {
    let [folder, _] = folders("ping");
    let (device, mut stream) = device(folder);
    let mut out = [0; 200];
    let mut length = write_ping(77, &mut out).unwrap();
    length += fordtrumpet::write_request(
        5,
        b"default",
        b"etc/passwd",
        0,
        9,
        &[0; 32],
        &mut out[length..],
    )
    .unwrap();
    stream.write_all(&out[..length]).unwrap();
    let mut messages = messages(&stream);
    let mut next = || next_message(&mut messages).unwrap();
    assert!(matches!(read(&next()).unwrap().message, Message::Index(_)));
    assert_eq!(next(), [0, 77, 5, 0]);
    assert_eq!(next(), [0, 5, 3, 0, 0, 0, 0, 0]);
    for _ in 0..2 {
        send_index(&mut stream.try_clone().unwrap(), &FilesBuilder::new());
    }
    device.join().unwrap().unwrap();
}

/// A stream that gives few bytes at a time.
struct Slow<'a>(&'a [u8], usize);

impl Read for Slow<'_> {
    fn read(&mut self, out: &mut [u8]) -> io::Result<usize> {
        let count = self.1.min(out.len());
        self.0.read(&mut out[..count])
    }
}

#[test]
fn messages_are_the_same_however_their_bytes_come() {
    let (mut long, mut index, mut ping) = (vec![0; 131_080], [0; 200], [0; 4]);
    write_response(3, &noise(1, 131_072), &mut long).unwrap();
    let mut files = FilesBuilder::new();
    files.push(
        b"a",
        Flags(0o644),
        0,
        0,
        [Block {
            length: 5,
            hash: &[7; 32],
        }],
    );
    let length = write_index(0, b"default", files.as_bytes(), &mut index).unwrap();
    write_ping(9, &mut ping).unwrap();
    let sent = [&ping[..], &index[..length], &long, &ping];
    for count in [1, 3, 1_000, 1_000_000] {
        let bytes = sent.concat();
        let mut messages = messages(Slow(&bytes, count));
        for message in sent {
            assert!(next_message(&mut messages).unwrap() == message);
        }
        let end = next_message(&mut messages).unwrap_err();
        assert_eq!(end.kind(), io::ErrorKind::UnexpectedEof);
    }
}

#[test]
fn a_message_longer_than_any_of_use_is_refused_before_it_has_come() {
    let hash = [7; 32];
    let mut files = FilesBuilder::new();
    for name in 0..10u8 {
        files.push(
            [b'a' + name],
            Flags(0),
            0,
            0,
            [Block {
                length: 1,
                hash: &hash,
            }; 1_000],
        );
    }
    let mut out = vec![0; 500_000];
    let length = write_index(0, b"default", files.as_bytes(), &mut out).unwrap();
    let mut stream = &out[..length];
    next_message(&mut messages(&mut stream)).unwrap_err();
    assert!(stream.len() > 200_000);
}

/// The first example in Rust of the README is cut from the program.
#[test]
fn the_readme_shows_lines_of_the_example() {
    let readme = include_str!("../../README.md");
    let program = include_str!("../examples/copy.rs");
    let (_, shown) = readme.split_once("```rust\n").unwrap();
    let (shown, _) = shown.split_once("```\n").unwrap();
    let (_, marked) = program.split_once("// README: from here on").unwrap();
    let (_, marked) = marked.split_once('\n').unwrap();
    let (marked, _) = marked.split_once("// README: to here.\n").unwrap();
    assert_eq!(shown, marked);
}
