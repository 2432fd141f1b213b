//! docs/RECIPES.md: its recipes run, and what it prints of them is what runs.

use std::fs;
use std::path::{Path, PathBuf};
use std::process::Command;

use differential::compiled_example;

fn repository() -> PathBuf {
    Path::new(env!("CARGO_MANIFEST_DIR")).join("../..")
}

fn text(name: &str) -> String {
    fs::read_to_string(repository().join(name)).expect(name)
}

/// examples/recipes.c compiles as it stands, and finds everything as it should be.
#[test]
fn c_example() {
    let program = compiled_example("recipes", env!("CARGO_TARGET_TMPDIR"));
    let output = Command::new(program).output().expect("the example runs");
    let told = String::from_utf8_lossy(&output.stdout).into_owned();
    assert!(output.status.success(), "{}", String::from_utf8_lossy(&output.stderr));
    let recipes: Vec<&str> = told.lines().filter_map(|line| Some(line.split_once(": ")?.0)).collect();
    assert_eq!(recipes, ["top down", "two buffers", "displays", "threads", "interrupts", "time"]);
}

/// Every piece of C in the document stands in the example, or in the head of the header that makes scenes.
#[test]
fn the_document_prints_what_runs() {
    let document = text("docs/RECIPES.md");
    let header = text("include/wayramesh_scene.h").replace("\n * ", "\n").replace("\n *\n", "\n\n");
    let sources = [text("examples/recipes.c"), header.replace("\n    ", "\n")];
    let mut pieces = 0;
    let set_apart = |line: &str| line.starts_with("    ") || line.is_empty();
    for piece in document.lines().collect::<Vec<_>>().split(|line| !set_apart(line)) {
        let lines: Vec<&str> = piece.iter().map(|line| line.strip_prefix("    ").unwrap_or("")).collect();
        let code = lines.join("\n").trim().to_string();
        if code.contains(';') {
            assert!(sources.iter().any(|source| source.contains(&code)), "{code}");
            pieces += 1;
        }
    }
    assert_eq!(pieces, 6);
}
