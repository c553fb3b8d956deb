//! What `docs/PROMISES.md` names is there: each file, and each name in the file beside it.

use std::fs;
use std::path::{Path, PathBuf};

fn root() -> PathBuf {
    Path::new(env!("CARGO_MANIFEST_DIR")).join("..")
}

/// A path of the repository: those of crates are written from `crates/` on.
fn file(path: &str) -> PathBuf {
    match path.split('/').next() {
        Some("docs" | "host") => root().join(path),
        _ => root().join("crates").join(path),
    }
}

fn is_path(word: &str) -> bool {
    let ending = [".antt", ".rt", ".edit", ".rs", ".md"];
    word.contains('/') && ending.iter().any(|end| word.ends_with(end))
}

/// A character of a name, as Rattle and antt write them.
fn in_name(c: char) -> bool {
    c.is_alphanumeric() || c == '_' || c == '-' || c == '\''
}

/// Whether a text has a name as a word of its own. Of `Kept.results` or `Walker::step` the last part counts.
fn has_name(text: &str, name: &str) -> bool {
    let last = name.rsplit(['.', ':']).next().unwrap();
    let last = last.split([' ', '(']).next().unwrap().trim_end_matches('*');
    text.match_indices(last).any(|(at, _)| {
        let before = text[..at].chars().next_back();
        let after = text[at + last.len()..].chars().next();
        !before.is_some_and(in_name) && (name.ends_with('*') || !after.is_some_and(in_name))
    })
}

/// The names and paths of a row that aren't there, and how many were looked for.
fn missing(row: &str, found: &mut usize) -> Vec<String> {
    let mut missing = Vec::new();
    let mut names: Vec<&str> = Vec::new();
    let parts: Vec<&str> = row.split('`').collect();
    for pair in parts.chunks(2) {
        let &[between, word] = pair else { break };
        // Names belong to the path that follows them in parentheses.
        let of_names = between.ends_with('(');
        if !of_names && !matches!(between, ", " | " and ") {
            names.clear();
        }
        if !is_path(word) {
            names.push(word);
            continue;
        }
        *found += 1;
        match fs::read_to_string(file(word)) {
            Err(_) => missing.push(word.to_string()),
            Ok(text) if of_names => {
                *found += names.len();
                let not_there = names.iter().filter(|name| !has_name(&text, name));
                missing.extend(not_there.map(|name| format!("{name} in {word}")));
            }
            Ok(_) => {}
        }
        names.clear();
    }
    missing
}

#[test]
fn what_the_promises_name_is_there() {
    let list = fs::read_to_string(root().join("docs/PROMISES.md")).unwrap();
    let mut found = 0;
    let missing: Vec<_> = list
        .lines()
        .flat_map(|row| missing(row, &mut found))
        .collect();
    assert!(missing.is_empty(), "{missing:#?}");
    // A list that is read wrongly would name nothing.
    assert!(found > 400, "only {found} names and paths");
}

#[test]
fn a_name_that_is_not_there_is_found() {
    let mut found = 0;
    let row = "| .. | `is_good`, `is_bad` (`table/specs/Table.antt`) | `table/must-fail/none.edit` |";
    assert_eq!(
        missing(row, &mut found),
        [
            "is_bad in table/specs/Table.antt",
            "table/must-fail/none.edit"
        ]
    );
}

#[test]
fn every_edit_is_named() {
    let list = fs::read_to_string(root().join("docs/PROMISES.md")).unwrap();
    let mut unnamed = Vec::new();
    for folder in fs::read_dir(root().join("crates")).unwrap() {
        let folder = folder.unwrap();
        let Ok(edits) = fs::read_dir(folder.path().join("must-fail")) else {
            continue;
        };
        for edit in edits {
            let name = edit.unwrap().file_name().into_string().unwrap();
            let path = format!("{}/must-fail/{name}", folder.file_name().to_str().unwrap());
            if !list.contains(&path) {
                unnamed.push(path);
            }
        }
    }
    assert!(unnamed.is_empty(), "{unnamed:#?}");
}
