//! Compiles C programs without warnings, links them with the library and runs them.

mod reference;
mod support;

use fordtrumpet::*;
use std::path::{Path, PathBuf};
use std::process::Command;
use std::{env, fs};
use support::encode::{self, Encoding, File};

const MANIFEST: &str = env!("CARGO_MANIFEST_DIR");

fn scratch(name: &str) -> PathBuf {
    Path::new(env!("CARGO_TARGET_TMPDIR")).join(name)
}

fn tool(variable: &str, default: &str) -> Command {
    Command::new(env::var_os(variable).unwrap_or_else(|| default.into()))
}

/// What a command prints. It has to succeed.
fn run(command: &mut Command) -> String {
    let output = command.output().expect("it runs");
    let printed = String::from_utf8(output.stdout).unwrap();
    let errors = String::from_utf8_lossy(&output.stderr);
    assert!(output.status.success(), "{command:?}: {printed}{errors}");
    printed
}

/// The compiler, told to take a C file of this package and to let no warning pass.
fn compiler(source: &str) -> Command {
    let mut cc = tool("CC", "cc");
    cc.args(["-std=c99", "-Wall", "-Wextra", "-Werror", "-pedantic"])
        .args(["-Iinclude", source])
        .current_dir(MANIFEST);
    cc
}

/// Compiles a C file of this package and gives the program.
fn compile(source: &str) -> PathBuf {
    let program = scratch(source).with_extension("");
    fs::create_dir_all(program.parent().unwrap()).unwrap();
    run(compiler(source)
        .args([env!("FORDTRUMPET_LIB"), "-o"])
        .arg(&program));
    program
}

/// Compiles and runs a program whose text is this, and gives what it prints.
fn run_text(name: &str, text: &str) -> String {
    let source = scratch(name).with_extension("c");
    fs::write(&source, text).unwrap();
    run(&mut Command::new(compile(source.to_str().unwrap())))
}

fn show(program: &Path, message: &[u8]) -> String {
    show_with(program, &[], message)
}

fn show_with(program: &Path, options: &[&str], message: &[u8]) -> String {
    let input = scratch("message.bin");
    fs::write(&input, message).unwrap();
    run(Command::new(program).args(options).arg(&input))
}

/// An example in C of the README, by its number from 0.
fn readme_example(number: usize) -> String {
    let readme = fs::read_to_string(Path::new(MANIFEST).join("../README.md")).unwrap();
    let mut examples = readme.split("```c\n").skip(1);
    let example = examples.nth(number).expect("an example in C");
    let (example, _) = example.split_once("```").unwrap();
    example.to_string()
}

#[test]
fn the_readme_compiles_and_writes_a_request() {
    let example = readme_example(1);
    let caller = "
#include <stdio.h>
int main(void)
{
    /* the peer has \"n\" with a block of 5 bytes */
    static const uint8_t none[4] = {0}, theirs[72] = {
        0, 0, 0, 1, 0, 0, 0, 1, 'n', 0, 0, 0, 0, 0, 1, 0xA4, 0, 0, 0, 0, 0, 0, 0, 9, 0, 0, 0, 3,
        0, 0, 0, 1, 0, 0, 0, 5, 0, 0, 0, 32, 1, 2, 3, 4, 5, 6, 7, 8
    };
    uint8_t list[BEP_LIST_ENTRY_BYTES], out[BEP_MAX_REQUEST];
    uint64_t written[1];
    if (bep_request_list(list, sizeof list, none, 4, theirs, 72, none, 4, none, 4, none, 4, written))
        return 1;
    size_t length = request(bep_list_entry(list, 0), none, 4, theirs, 72, out);
    for (size_t i = 0; i < length; i++)
        printf(\"%02x\", out[i]);
    return 0;
}
";
    let printed = run_text("readme_request", &format!("{example}{caller}"));
    let mut hash = [0; 32];
    hash[..8].copy_from_slice(&[1, 2, 3, 4, 5, 6, 7, 8]);
    let mut out = [0; MAX_REQUEST];
    let length = write_request(0, "default", "n", 0, 5, &hash, &mut out).unwrap();
    let hex = out[..length].iter().map(|byte| format!("{byte:02x}"));
    assert_eq!(printed, hex.collect::<String>());
}

#[test]
fn the_readme_compiles_and_takes_messages() {
    let example = readme_example(0);
    let caller = "
int main(void)
{
    /* a Response with five bytes of data, a Ping, and the first bytes of another message */
    static const uint8_t input[] = {0, 1, 3, 0, 0, 0, 0, 5, 1, 2, 3, 4, 5, 0, 0, 0, 0, 2, 4, 0, 0, 3};
    printf(\"%zu taken\\n\", take_messages(input, sizeof input));
    return 0;
}
";
    let printed = run_text("readme", &format!("{example}{caller}"));
    assert_eq!(printed, "5 bytes of data\n20 taken\n");
}

#[test]
fn the_c_example_shows_messages() {
    let program = compile("examples/show.c");

    let mut index = Encoding::new();
    index.header(1, 9).string(b"default", 64).files(&[
        File {
            name: b"a\\b".to_vec(),
            flags: 0o644,
            modified: -3,
            version: 2,
            blocks: vec![encode::Block {
                length: 5,
                hash: [0xAB; 32],
            }],
        },
        File {
            name: b"c".to_vec(),
            flags: 0x3000,
            modified: 4,
            version: 0,
            blocks: vec![],
        },
    ]);
    let expected = format!(
        "type Index\nid 9\nrepository default\nfiles 2\n  \
         name a\\x5cb\n  mode 0644\n  deleted no\n  invalid no\n  modified -3\n  version 2\n  \
         blocks 1\n    length 5\n    hash {}\n  \
         name c\n  mode 0000\n  deleted yes\n  invalid yes\n  modified 4\n  version 0\n  blocks 0\n\
         used 116 of 116 bytes\n",
        "ab".repeat(32)
    );
    assert_eq!(show(&program, &index.bytes), expected);

    let mut request = Encoding::new();
    request.header(2, 7).string(b"", 64).name(b"n");
    request.offset(1 << 40).block_length(131_072).hash(&[1; 32]);
    request.bytes.push(0);
    let expected = format!(
        "type Request\nid 7\nrepository \nname n\noffset 1099511627776\nlength 131072\nhash {}\n\
         used 64 of 65 bytes\n",
        "01".repeat(32)
    );
    assert_eq!(show(&program, &request.bytes), expected);

    let mut options = Encoding::new();
    options.header(7, 0);
    options.options(&[(b"clientId".to_vec(), b"x".to_vec())]);
    let expected =
        "type Options\nid 0\noptions 1\n  key clientId\n  value x\nused 28 of 28 bytes\n";
    assert_eq!(show(&program, &options.bytes), expected);

    let response = [0, 2, 3, 0, 0, 0, 0, 1, 5, 0, 0, 0];
    let expected = "type Response\nid 2\ndata 1 bytes\nused 12 of 12 bytes\n";
    assert_eq!(show(&program, &response), expected);

    assert_eq!(
        show(&program, &[0, 0, 4, 0]),
        "type Ping\nid 0\nused 4 of 4 bytes\n"
    );
    assert_eq!(
        show(&program, &[0, 0, 4, 1]),
        "refused 4 at 0: the reserved bits aren't 0\n"
    );
    assert_eq!(
        show(&program, &[]),
        "refused 1 at 0: a field isn't wholly there\n"
    );
    let mut request = Encoding::new();
    request.header(2, 7).string(b"", 64).name(b"../n");
    assert_eq!(
        show(&program, &request.bytes),
        "refused 24 at 8: the Name isn't a plain path below its folder\n"
    );
    let mut index = Encoding::new();
    index.header(1, 9).string(b"clips\xC0\xAFa", 64);
    assert_eq!(
        show(&program, &index.bytes),
        "refused 7 at 13: a string isn't UTF-8\nbyte c0 after 00 00 08 63 6c 69 70 73\n"
    );
    assert_eq!(
        show(&program, &[0, 1, 1, 0, 0, 0, 0, 1, b'a', 0, 0, 1]),
        "refused 6 at 11: a pad byte isn't zero\nbyte 01 after 00 00 00 00 01 61 00 00\n"
    );

    let show_old = |message: &[u8]| show_with(&program, &["--old"], message);
    let mut index = Encoding::new();
    index.header(1, 9).files(&[]);
    assert_eq!(
        show_old(&index.bytes),
        "type Index\nid 9\nfiles 0\nused 8 of 8 bytes\n"
    );
    let mut request = Encoding::new();
    request.header(2, 7).name(b"n");
    request.offset(5).block_length(6).hash(&[1; 32]);
    let expected = format!(
        "type Request\nid 7\nname n\noffset 5\nlength 6\nhash {}\nused 60 of 60 bytes\n",
        "01".repeat(32)
    );
    assert_eq!(show_old(&request.bytes), expected);
    assert_eq!(
        show_old(&options.bytes),
        "refused 3 at 0: the type isn't 1 to 7\n"
    );
}

#[test]
fn the_header_declares_what_the_library_exports() {
    run(&mut Command::new(compile("tests/c/calls.c")));
}

#[test]
fn null_stands_for_no_bytes() {
    let program = compile("tests/c/null.c");
    run(&mut Command::new(&program));
    let valgrind = Command::new("valgrind").arg("--version").output();
    if valgrind.is_ok_and(|output| output.status.success()) {
        run(Command::new("valgrind")
            .args(["--quiet", "--error-exitcode=9"])
            .arg(&program));
    }
}

#[test]
fn a_result_that_nobody_looks_at_is_warned_of() {
    let source = scratch("ignored.c");
    let compiles = |result: &str| {
        let text = format!(
            "#include \"fordtrumpet.h\"\n\
             int main(void)\n{{\n    \
             uint32_t number = 0, queue[BEP_QUEUE_WORDS] = {{0}};\n    \
             uint8_t hashes[BEP_QUEUE_HASHES] = {{0}};\n    \
             {result}bep_queue_drop(queue, hashes, 1);\n    \
             return (int)number;\n}}\n"
        );
        fs::write(&source, text).unwrap();
        let mut cc = compiler(source.to_str().unwrap());
        cc.arg("-c").arg("-o").arg(scratch("ignored.o"));
        cc.output().unwrap().status.success()
    };
    assert!(compiles("number = "));
    assert!(!compiles(""));
}

/// `AboveLimit(0)` is `ABOVE_LIMIT` in C.
fn name_in_c(refusal: Refusal) -> String {
    let name = format!("{refusal:?}");
    let name = name.split('(').next().unwrap();
    let words = name.char_indices().map(|(at, c)| match c {
        'A'..='Z' if at > 0 => format!("_{c}"),
        _ => c.to_uppercase().to_string(),
    });
    words.collect()
}

#[test]
fn the_header_has_the_refusals_and_their_sentences() {
    let refusals = [
        Refusal::Incomplete(0),
        Refusal::Version(0),
        Refusal::Type(0),
        Refusal::Reserved(0),
        Refusal::AboveLimit(0),
        Refusal::Pad(0),
        Refusal::Text(0),
        Refusal::EmptyName(0),
        Refusal::HashLength(0),
        Refusal::Length(0),
        Refusal::Flag(0),
        Refusal::DeletedWithBlocks(0),
        Refusal::RepeatedName(0),
        Refusal::NoRoom,
        Refusal::BadTable,
        Refusal::WindowFull,
        Refusal::AllowanceFull,
        Refusal::OtherType,
        Refusal::TableTooLarge,
        Refusal::NotOldest,
        Refusal::OtherRepository,
        Refusal::Unsound,
        Refusal::NoSuchPeer,
        Refusal::UnsafeName(0),
    ];
    let mut names = vec!["BEP_ACCEPTED".to_string()];
    let mut expected = "0 accepted\n".to_string();
    for refusal in refusals {
        let (number, sentence) = (refusal.number(), refusal.to_string());
        let (sentence, _) = sentence.split_once(&format!(" ({number})")).unwrap();
        names.push(format!("BEP_REFUSED_{}", name_in_c(refusal)));
        expected += &format!("{number} {sentence}\n");
    }
    for unknown in ["25", "26", "4294967295"] {
        names.push(unknown.to_string());
        expected += &format!("{unknown} unknown number\n");
    }
    let text = format!(
        "#include <stdio.h>\n#include \"fordtrumpet.h\"\n\
         static const uint32_t numbers[] = {{{}}};\n\
         int main(void)\n{{\n    \
         for (size_t i = 0; i < sizeof numbers / sizeof numbers[0]; i++)\n        \
         printf(\"%lu %s\\n\", (unsigned long)numbers[i], bep_refusal_text(numbers[i]));\n    \
         return 0;\n}}\n",
        names.join(", ")
    );
    assert_eq!(run_text("refusals", &text), expected);
}

#[test]
fn the_header_has_the_reasons_and_their_words() {
    let reasons = [
        (Reason::NoSuchName, "NO_SUCH_NAME"),
        (Reason::Deleted, "DELETED"),
        (Reason::Invalid, "INVALID"),
        (Reason::NoSuchBlock, "NO_SUCH_BLOCK"),
        (
            Reason::Held {
                record: 0,
                block: 0,
            },
            "HELD",
        ),
        (Reason::Wanted { peer: 1 }, "WANTED"),
    ];
    let mut text =
        "#include <stdio.h>\n#include \"fordtrumpet.h\"\nint main(void)\n{\n".to_string();
    let mut expected = String::new();
    for (number, (reason, name)) in (1..).zip(reasons) {
        let name = format!("BEP_REASON_{name}");
        text += &format!("    printf(\"%d %s\\n\", {name}, bep_reason_text({name}));\n");
        // In Rust the numbers that come with a reason are told too.
        let words = reason.to_string();
        let words = words
            .split([' '])
            .take_while(|&word| word != "by" && word != "from");
        let words: Vec<&str> = words.collect();
        expected += &format!("{number} {}\n", words.join(" "));
    }
    text += "    puts(bep_reason_text(0));\n    puts(bep_reason_text(7));\n    return 0;\n}\n";
    expected += "unknown reason\nunknown reason\n";
    assert_eq!(run_text("reasons", &text), expected);
}

#[test]
fn the_header_has_the_sizes_and_the_version() {
    let hash = [7; 32];
    let block = Block {
        length: 5,
        hash: &hash,
    };
    let (mut with, mut without) = (FilesBuilder::new(), FilesBuilder::new());
    with.push(b"a", Flags(0), 0, 0, [block]);
    without.push(b"a", Flags(0), 0, 0, []);
    let peer = TableBuf::from_files(&with).unwrap();
    let mut out = [0; MAX_REQUEST_LIST];
    let empty = Table::EMPTY;
    let list = request_list(empty, [peer.as_table(), empty, empty, empty], &mut out).unwrap();
    let version: Vec<usize> = env!("CARGO_PKG_VERSION")
        .split('.')
        .map(|part| part.parse().unwrap())
        .collect();

    let values = [
        ("MAX_REPOSITORY", MAX_REPOSITORY),
        ("MAX_NAME", MAX_NAME),
        ("MAX_BLOCK", MAX_BLOCK),
        ("MAX_BLOCKS", MAX_BLOCKS),
        ("MAX_FILES", MAX_FILES),
        ("MAX_RECORDS", MAX_RECORDS),
        ("PEERS", RequestQueue::PEERS),
        ("MAX_WINDOW", RequestQueue::MAX_WINDOW as usize),
        ("MAX_TABLE", MAX_TABLE),
        ("MAX_INDEX", MAX_INDEX),
        ("MAX_TABLE_INDEX", MAX_TABLE_INDEX),
        ("MAX_REQUEST", MAX_REQUEST),
        ("MAX_RESPONSE", MAX_RESPONSE),
        ("PING_BYTES", PING),
        ("REPLY_BYTES", REPLY),
        ("MAX_OPTIONS", MAX_OPTIONS),
        ("HASH_BYTES", hash.len()),
        (
            "BLOCK_BYTES",
            with.as_bytes().len() - without.as_bytes().len(),
        ),
        ("LIST_ENTRY_BYTES", list.as_bytes().len()),
        ("MAX_REQUEST_LIST", MAX_REQUEST_LIST),
        (
            "QUEUE_WORDS * 4 + BEP_QUEUE_HASHES",
            size_of::<RequestQueue>(),
        ),
        ("FEED_WORDS", size_of::<Feed>() / 4),
        (
            "SHA256_WORDS * 4 + BEP_SHA256_TAIL_BYTES",
            size_of::<Sha256>(),
        ),
        ("MODE", Flags::MODE.0 as usize),
        ("DELETED", Flags::DELETED.0 as usize),
        ("INVALID", Flags::INVALID.0 as usize),
        ("VERSION_MAJOR", version[0]),
        ("VERSION_MINOR", version[1]),
        ("VERSION_PATCH", version[2]),
    ];
    let mut text =
        "#include <stdio.h>\n#include \"fordtrumpet.h\"\nint main(void)\n{\n".to_string();
    let mut expected = String::new();
    for (name, value) in values {
        text += &format!("    printf(\"{name} %lu\\n\", (unsigned long)BEP_{name});\n");
        expected += &format!("{name} {value}\n");
    }
    text += "    puts(BEP_VERSION);\n    return 0;\n}\n";
    expected += concat!(env!("CARGO_PKG_VERSION"), "\n");
    assert_eq!(run_text("sizes", &text), expected);
}

/// Runs `make` for the library that these tests are linked with; nothing is proved or built.
fn make(target: &str, variables: &[String]) {
    let mut make = tool("MAKE", "make");
    // A `make` that runs these tests would hand down its own variables.
    for inherited in ["MAKEFLAGS", "MFLAGS", "MAKELEVEL", "PREFIX", "DESTDIR"] {
        make.env_remove(inherited);
    }
    run(make
        .arg(target)
        .arg(concat!("LIB=", env!("FORDTRUMPET_LIB")))
        .args(variables)
        .current_dir(Path::new(MANIFEST).join("..")));
}

/// A new folder.
fn folder(name: &str) -> PathBuf {
    let folder = scratch(name);
    let _ = fs::remove_dir_all(&folder);
    fs::create_dir_all(&folder).unwrap();
    folder
}

/// The files of a folder and those below it, by their paths in it.
fn files(folder: &Path) -> Vec<String> {
    let mut files = Vec::new();
    for entry in fs::read_dir(folder).unwrap() {
        let entry = entry.unwrap();
        let name = entry.file_name().into_string().unwrap();
        if entry.file_type().unwrap().is_dir() {
            let below = self::files(&entry.path());
            files.extend(below.iter().map(|file| format!("{name}/{file}")));
        } else {
            files.push(name);
        }
    }
    files.sort();
    files
}

const INSTALLED: [&str; 3] = [
    "include/fordtrumpet.h",
    "lib/libbep.a",
    "lib/pkgconfig/fordtrumpet.pc",
];

/// What the compiler has to be told, by `pkg-config` if it is there.
fn flags(prefix: &Path) -> Vec<String> {
    let pkg_config = |arguments: &[&str]| {
        let output = tool("PKG_CONFIG", "pkg-config")
            .env("PKG_CONFIG_PATH", prefix.join("lib/pkgconfig"))
            .args(arguments)
            .output();
        output.ok().map(|output| {
            let errors = String::from_utf8_lossy(&output.stderr);
            assert!(output.status.success(), "{errors}");
            String::from_utf8(output.stdout).unwrap()
        })
    };
    let prefix = prefix.display();
    let plain = format!("-I{prefix}/include -L{prefix}/lib -lbep");
    let flags = pkg_config(&["--cflags", "--libs", "fordtrumpet"]).unwrap_or(plain);
    let version = pkg_config(&["--modversion", "fordtrumpet"]);
    assert!(version.is_none_or(|version| version.trim() == env!("CARGO_PKG_VERSION")));
    flags.split_whitespace().map(str::to_string).collect()
}

#[test]
fn the_example_needs_only_what_is_installed() {
    let prefix = folder("installed");
    make("install", &[format!("PREFIX={}", prefix.display())]);
    assert_eq!(files(&prefix), INSTALLED);

    let elsewhere = folder("elsewhere");
    let example = Path::new(MANIFEST).join("examples/example.c");
    fs::copy(&example, elsewhere.join("example.c")).unwrap();
    fs::copy(&example, elsewhere.join("example.cpp")).unwrap();
    let c = ["-std=c99", "-pedantic", "example.c"];
    let cpp = ["-std=c++17", "-pedantic", "example.cpp"];
    for (mut compiler, arguments) in [(tool("CC", "cc"), c), (tool("CXX", "c++"), cpp)] {
        run(compiler
            .args(["-Wall", "-Wextra", "-Werror", "-g"])
            .args(["-fsanitize=address,undefined", "-fno-sanitize-recover=all"])
            .args(arguments)
            .args(flags(&prefix))
            .args(["-o", "example"])
            .current_dir(&elsewhere));
        let expected = concat!(
            "fordtrumpet ",
            env!("CARGO_PKG_VERSION"),
            "\n\
             message of type 1, 116 bytes\n\
             message of type 4, 4 bytes\n\
             2 bytes wait for more\n\
             a: version 2, 1 blocks\n\
             b: version 0, deleted\n\
             ask peer 1 for 5 bytes of a at 0: 72 bytes\n\
             not what the hash says\n\
             ask peer 1 for 5 bytes of a at 0: 72 bytes\n\
             write hello\n\
             block 0 of b: deleted\n"
        );
        assert_eq!(run(&mut Command::new(elsewhere.join("example"))), expected);
    }
    make("uninstall", &[format!("PREFIX={}", prefix.display())]);
    assert!(files(&prefix).is_empty());
}

#[test]
fn a_staged_installation_knows_where_it_goes() {
    let stage = folder("stage");
    let variables = [
        format!("DESTDIR={}", stage.display()),
        "PREFIX=/opt/bep".to_string(),
    ];
    make("install", &variables);
    assert_eq!(
        files(&stage),
        INSTALLED.map(|file| format!("opt/bep/{file}"))
    );
    let pc = fs::read_to_string(stage.join("opt/bep/lib/pkgconfig/fordtrumpet.pc")).unwrap();
    assert!(pc.starts_with("prefix=/opt/bep\n"), "{pc}");
    let version = concat!("\nVersion: ", env!("CARGO_PKG_VERSION"), "\n");
    assert!(pc.contains(version) && !pc.contains('@'), "{pc}");
    make("uninstall", &variables);
    assert!(files(&stage).is_empty());
}
