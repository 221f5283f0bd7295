//! The commands of the second program.

use std::io::{self, Read, Write};
use std::path::Path;
use std::process::ExitCode;

use reference::generate::NodeLines;
use reference::{aes_vectors, bench, bench_lines, calls, function_vectors, generate};

const USAGE: &str = "\
usage: reference aes-vectors | function-vectors | calls | bench
       reference generate [--no-node] DIR
       reference generate-bench DIR
       reference bench-load LINES";

fn main() -> ExitCode {
    let arguments: Vec<_> = std::env::args_os().skip(1).collect();
    let words: Vec<_> = arguments.iter().map(|a| a.to_str()).collect();
    let done = match words[..] {
        [Some("aes-vectors")] => answer(aes_vectors::answers),
        [Some("function-vectors")] => answer(function_vectors::answers),
        [Some("calls")] => answer(calls::answers),
        [Some("bench")] => answer(bench::answers),
        [Some("bench-load"), Some(lines)] => match lines.parse() {
            Ok(lines) => io::stdout().write_all(&bench_lines::load(lines)),
            Err(_) => Err(io::Error::other("LINES is not a number")),
        },
        [Some("generate-bench"), _] => {
            write_files(&generate::bench_files(), Path::new(&arguments[1]))
        }
        [Some("generate"), Some("--no-node"), _] => write_files(
            &generate::files(NodeLines::Without),
            Path::new(&arguments[2]),
        ),
        [Some("generate"), folder] if folder != Some("--no-node") => {
            write_files(&generate::files(NodeLines::With), Path::new(&arguments[1]))
        }
        _ => {
            eprintln!("{USAGE}");
            return ExitCode::from(2);
        }
    };
    match done {
        Ok(()) => ExitCode::SUCCESS,
        Err(error) => {
            eprintln!("reference: {error}");
            ExitCode::FAILURE
        }
    }
}

/// Standard input to standard output.
fn answer(answers: fn(&[u8]) -> Vec<u8>) -> io::Result<()> {
    let mut input = Vec::new();
    io::stdin().read_to_end(&mut input)?;
    let mut output = io::stdout();
    output.write_all(&answers(&input))?;
    output.flush()
}

fn write_files(files: &[(&str, Vec<u8>)], folder: &Path) -> io::Result<()> {
    for (name, bytes) in files {
        let path = folder.join(name);
        if let Some(parent) = path.parent() {
            std::fs::create_dir_all(parent)?;
        }
        std::fs::write(path, bytes)?;
    }
    Ok(())
}
