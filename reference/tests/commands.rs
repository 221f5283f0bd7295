//! The binary, run as a user runs it.

use std::io::Write;
use std::path::Path;
use std::process::{Command, Output, Stdio};

use reference::generate::{bench_files, files, NodeLines};

/// The input is written from a thread of its own, since the program may answer
/// before all of it is taken.
fn run(arguments: &[&str], input: Vec<u8>) -> Output {
    let mut child = Command::new(env!("CARGO_BIN_EXE_reference"))
        .args(arguments)
        .stdin(Stdio::piped())
        .stdout(Stdio::piped())
        .stderr(Stdio::piped())
        .spawn()
        .expect("the binary starts");
    let mut stdin = child.stdin.take().unwrap();
    let writer = std::thread::spawn(move || {
        // A program that refuses its command does not read.
        let _ = stdin.write_all(&input);
    });
    let output = child.wait_with_output().expect("the binary ends");
    writer.join().unwrap();
    output
}

#[test]
fn generate_writes_the_files_and_the_commands_answer_them() {
    let folder = Path::new(env!("CARGO_TARGET_TMPDIR")).join("generated");
    let output = run(&["generate", folder.to_str().unwrap()], Vec::new());
    assert!(output.status.success());
    for (name, bytes) in files(NodeLines::With) {
        assert_eq!(std::fs::read(folder.join(name)).unwrap(), bytes);
    }
    for (command, program) in [
        ("aes-vectors", "aes_vectors"),
        ("function-vectors", "function_vectors"),
        ("calls", "calls"),
    ] {
        let input = std::fs::read(folder.join(program).join("stdin")).unwrap();
        let expected = std::fs::read(folder.join(program).join("stdout")).unwrap();
        let output = run(&[command], input);
        assert!(output.status.success());
        assert!(output.stdout == expected);
        assert!(output.stderr.is_empty());
    }
}

#[test]
fn the_files_of_the_bench_are_written_and_answered() {
    let folder = Path::new(env!("CARGO_TARGET_TMPDIR")).join("bench");
    let output = run(&["generate-bench", folder.to_str().unwrap()], Vec::new());
    assert!(output.status.success());
    for (name, bytes) in bench_files() {
        assert_eq!(std::fs::read(folder.join(name)).unwrap(), bytes);
    }
    for name in ["bench", "bench_more"] {
        let input = std::fs::read(folder.join(name).join("stdin")).unwrap();
        let expected = std::fs::read(folder.join(name).join("stdout")).unwrap();
        assert!(run(&["bench"], input).stdout == expected);
    }
}

#[test]
fn the_lines_for_the_node_are_left_out() {
    let folder = Path::new(env!("CARGO_TARGET_TMPDIR")).join("without_node");
    let arguments = ["generate", "--no-node", folder.to_str().unwrap()];
    assert!(run(&arguments, Vec::new()).status.success());
    for (name, bytes) in files(NodeLines::Without) {
        assert_eq!(std::fs::read(folder.join(name)).unwrap(), bytes);
    }
}

#[test]
fn an_empty_input_has_an_empty_answer() {
    for command in ["aes-vectors", "function-vectors", "calls", "bench"] {
        let output = run(&[command], Vec::new());
        assert!(output.status.success());
        assert!(output.stdout.is_empty());
    }
}

#[test]
fn unknown_commands_exit_with_2() {
    let commands: [&[&str]; 10] = [
        &[],
        &["other"],
        &["aes-vectors", "more"],
        &["calls", "more"],
        &["generate"],
        &["generate", "a", "b"],
        &["generate", "--no-node"],
        &["generate", "--no-node", "a", "b"],
        &["generate-bench"],
        &["bench", "more"],
    ];
    for arguments in commands {
        let output = run(arguments, Vec::new());
        assert_eq!(output.status.code(), Some(2));
        assert!(output.stdout.is_empty());
        assert!(output.stderr.starts_with(b"usage: "));
    }
}

#[test]
fn a_folder_that_cannot_be_made_is_an_error() {
    let file = Path::new(env!("CARGO_TARGET_TMPDIR")).join("a_file");
    std::fs::write(&file, b"").unwrap();
    let output = run(&["generate", file.to_str().unwrap()], Vec::new());
    assert_eq!(output.status.code(), Some(1));
    assert!(!output.stderr.is_empty());
}
