//! The program: its words, what it reads and writes, and its status.

use std::fs;
use std::io::Write;
use std::path::PathBuf;
use std::process::{Command, Output, Stdio};

/// The root of the repository.
fn root() -> PathBuf {
    PathBuf::from(concat!(env!("CARGO_MANIFEST_DIR"), "/../.."))
}

/// Runs the program in the root of the repository.
fn run(words: &[&str], input: &[u8]) -> Output {
    let mut program = Command::new(env!("CARGO_BIN_EXE_picture"))
        .args(words)
        .current_dir(root())
        .stdin(Stdio::piped())
        .stdout(Stdio::piped())
        .stderr(Stdio::piped())
        .spawn()
        .expect("the program runs");
    let mut stdin = program.stdin.take().expect("an input");
    // The program may end without reading all of it.
    let _ = stdin.write_all(input);
    drop(stdin);
    program.wait_with_output().expect("the program ends")
}

/// What the program says on standard error when it ends with a status and writes nothing.
fn said(words: &[&str], input: &[u8], status: i32) -> String {
    let output = run(words, input);
    assert_eq!(output.status.code(), Some(status), "{words:?}");
    assert!(output.stdout.is_empty(), "{words:?}");
    String::from_utf8(output.stderr).expect("a text")
}

/// A picture that is stored: its name, and the words that make it.
const STORED: [(&str, &[&str]); 4] = [
    ("star", &["examples/star.sheet"]),
    ("marked", &["examples/marked.sheet", "--arcs"]),
    ("valley", &["examples/valley.sheet"]),
    ("steps", &["examples/fork.sheet", "--steps"]),
];

/// The pictures of the documents are those that the program draws.
#[test]
fn stored_pictures() {
    let folder = root().join("docs/pictures");
    for (name, words) in STORED {
        let stored = fs::read(folder.join(name).with_extension("svg")).expect("a stored picture");
        let output = run(words, b"");
        assert_eq!(output.status.code(), Some(0));
        assert!(output.stderr.is_empty());
        assert!(
            output.stdout == stored,
            "docs/pictures/{name}.svg is not what {words:?} draws"
        );
    }
    let files = fs::read_dir(folder).expect("a folder").count();
    assert_eq!(files, STORED.len(), "each stored picture is compared");
}

#[test]
fn input_and_output() {
    let sheet = fs::read(root().join("examples/star.sheet")).expect("a sheet");
    let from_file = run(&["examples/star.sheet"], b"").stdout;
    assert!(from_file.starts_with(b"<svg "));
    assert_eq!(run(&[], &sheet).stdout, from_file);
    let file = std::env::temp_dir().join(format!("picture-{}.svg", std::process::id()));
    let name = file.to_str().expect("a name");
    let output = run(&["--out", name, "examples/star.sheet"], b"");
    assert_eq!(
        (output.status.code(), &output.stdout[..]),
        (Some(0), &b""[..])
    );
    assert_eq!(fs::read(&file).expect("a picture"), from_file);
    said(&["--out", name, "examples/ring.sheet"], b"", 1);
    assert_eq!(
        fs::read(&file).expect("a picture"),
        from_file,
        "a refusal leaves the file alone"
    );
    fs::remove_file(file).expect("the file is there");
}

#[test]
fn failures() {
    let ring = "line 7: link whose sites are already joined by links above, or are one site\n";
    assert_eq!(said(&["examples/ring.sheet"], b"", 1), ring);
    assert_eq!(said(&["--steps", "examples/ring.sheet"], b"", 1), ring);
    let empty = "the sheet: no bytes, or more than 16,384 (edition 2: 24,576)\n";
    assert_eq!(said(&[], b"", 1), empty);
    let there_is_none = "picture: there is no file examples/none.sheet\n";
    assert_eq!(said(&["examples/none.sheet"], b"", 1), there_is_none);
    let folder = "picture: examples is a folder, not a sheet\n";
    assert_eq!(said(&["examples"], b"", 1), folder);
    let unwritable = said(&["--out", "none/x.svg", "examples/star.sheet"], b"", 1);
    assert!(unwritable.starts_with("picture: none/x.svg cannot be written: "));
}

#[test]
fn wrong_words() {
    for (words, due) in [
        (&["--wide"][..], "there is no option --wide"),
        (&["--out"], "--out is there without a file"),
        (&["--out", "a", "--out", "b"], "--out is there twice"),
        (&["a", "b"], "one sheet is drawn at a time"),
        (
            &["--steps", "--arcs"],
            "--steps goes with neither --whole nor --arcs",
        ),
        (
            &["--whole", "--steps"],
            "--steps goes with neither --whole nor --arcs",
        ),
    ] {
        let line = format!("picture: {due}; picture --help says more\n");
        assert_eq!(said(words, b"", 2), line);
    }
    for word in ["-h", "--help"] {
        let output = run(&[word], b"");
        assert_eq!(output.status.code(), Some(0));
        assert!(output.stdout.starts_with(b"usage: picture "));
    }
}
