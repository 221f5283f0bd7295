//! The examples of the documents: each is what the program prints.

use reference::{bench, calls, text};

const BENCH: &str = include_str!("../../docs/BENCH.md");
const STORY: &str = include_str!("../../docs/bench-story.txt");

/// The lines that stand after `>`, and the answers below them. A line of an
/// example that begins with two spaces goes on with the one above it.
fn examples(page: &str) -> (String, String) {
    let (mut given, mut answered, mut fenced) = (String::new(), String::new(), false);
    for line in page.replace("\n  ", "").lines() {
        if line == "```" {
            fenced = !fenced;
        } else if let Some(example) = line.strip_prefix("> ") {
            given.push_str(&format!("{example}\n"));
        } else if fenced {
            answered.push_str(&format!("{line}\n"));
        }
    }
    (given, answered)
}

#[test]
fn the_words_of_calls() {
    let (given, answered) = examples(include_str!("../../docs/CALLS.md"));
    assert!(text::lines(given.as_bytes()).len() >= 35);
    let printed = calls::answers(given.as_bytes());
    assert_eq!(String::from_utf8(printed).unwrap(), answered);
}

#[test]
fn the_words_and_the_story_of_the_bench() {
    let (given, answered) = examples(BENCH);
    assert!(text::lines(given.as_bytes()).len() >= 50);
    let printed = bench::answers(given.as_bytes());
    assert_eq!(String::from_utf8(printed).unwrap(), answered);
}

#[test]
fn the_story_stands_in_a_file_of_its_own() {
    let start = BENCH.find("## A story").unwrap();
    let end = BENCH.find("## The refusals").unwrap();
    let (given, answered) = examples(&BENCH[start..end]);
    assert_eq!(given, STORY);
    let printed = bench::answers(STORY.as_bytes());
    assert_eq!(String::from_utf8(printed).unwrap(), answered);
}
