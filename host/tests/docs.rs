//! Every public item has an example, which the documentation's tests run.

use std::fs;
use std::path::Path;

/// The public items of a source file whose documentation has no example.
fn without_example(source: &str) -> Vec<&str> {
    let code = source.split("#[cfg(test)]").next().unwrap();
    let mut missing = Vec::new();
    let mut has_example = false;
    for line in code.lines().map(str::trim_start) {
        if line.starts_with("///") {
            has_example |= line.contains("```");
        } else if !line.starts_with("#[") {
            let item = line.strip_prefix("pub ").unwrap_or("");
            let kinds = ["fn ", "const ", "struct ", "enum ", "type "];
            if kinds.iter().any(|kind| item.starts_with(kind)) && !has_example {
                missing.push(line);
            }
            has_example = false;
        }
    }
    missing
}

#[test]
fn every_public_item_has_an_example() {
    let sources = Path::new(env!("CARGO_MANIFEST_DIR")).join("src");
    let mut count = 0;
    for entry in fs::read_dir(sources).unwrap() {
        let path = entry.unwrap().path();
        // What the C side exports is not public here.
        if path.ends_with("ffi.rs") {
            continue;
        }
        let source = fs::read_to_string(&path).unwrap();
        assert_eq!(without_example(&source), [""; 0], "{}", path.display());
        count += 1;
    }
    assert!(count > 10);
}

#[test]
fn an_item_without_example_is_found() {
    let source = "/// No example.\n#[must_use]\npub fn f() {}\n\n/// ```\n/// g();\n/// ```\npub fn g() {}\n";
    assert_eq!(without_example(source), ["pub fn f() {}"]);
}
