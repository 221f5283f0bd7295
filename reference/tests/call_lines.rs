//! The generated calls: what they must hold.

use reference::generate::{files, NodeLines, LONG, PIECE};
use reference::text::lines;
use reference::{calls, edition_lines, handset_lines};

struct Calls {
    input: Vec<u8>,
    output: Vec<u8>,
}

fn file(node_lines: NodeLines, path: &str) -> Vec<u8> {
    let mut found = files(node_lines).into_iter().filter(|(p, _)| *p == path);
    found.next().expect("a file of this path").1
}

impl Calls {
    fn generated() -> Calls {
        Calls {
            input: file(NodeLines::With, "calls/stdin"),
            output: file(NodeLines::With, "calls/stdout"),
        }
    }

    /// Each line with its answer.
    fn pairs(&self) -> Vec<(&[u8], &[u8])> {
        let (lines_in, lines_out) = (lines(&self.input), lines(&self.output));
        assert_eq!(lines_in.len(), lines_out.len());
        lines_in.into_iter().zip(lines_out).collect()
    }

    /// How many lines that begin so have an answer that begins so.
    fn count(&self, line: &[u8], answer: &[u8]) -> usize {
        let pairs = self.pairs();
        let fits = pairs
            .iter()
            .filter(|(l, a)| l.starts_with(line) && a.starts_with(answer));
        fits.count()
    }
}

fn words(output: &[u8]) -> Vec<String> {
    let first = |line: &&[u8]| line.split(|&b| b == b' ').next().unwrap().to_vec();
    lines(output)
        .iter()
        .map(|line| String::from_utf8(first(line)).unwrap())
        .collect()
}

#[test]
fn every_answer_to_every_word() {
    let calls = Calls::generated();
    assert!(calls.pairs().len() >= 500);
    for (word, answer, least) in [
        ("challenge ", "accepted ", 100),
        ("challenge ", "sync ", 80),
        ("challenge ", "mac", 70),
        ("challenge ", "refused 1", 12),
        ("challenge ", "refused 3", 30),
        ("challenge ", "bad line", 20),
        ("card-read ", "card ", 40),
        ("card-read ", "refused 1", 25),
        ("card-read ", "refused 3", 20),
        ("card-read ", "bad line", 200),
        ("card-write ", "image ", 50),
        ("card-write ", "refused 1", 25),
        ("card-write ", "refused 3", 5),
        ("card-write ", "bad line", 100),
        ("challenge 10", "accepted ", 50),
        ("challenge 11", "accepted ", 40),
        ("challenge 10", "sync ", 30),
        ("challenge 11", "sync ", 30),
        ("challenge 10", "mac", 30),
        ("challenge 11", "mac", 30),
        ("challenge 20", "accepted ", 100),
        ("challenge 21", "accepted ", 100),
        ("challenge 2", "sync ", 100),
        ("challenge 2", "mac", 5),
        ("card-new ", "image ", 8),
        ("card-new ", "refused 1", 16),
        ("auc-new ", "image ", 8),
        ("auc-new ", "refused 1", 16),
        ("auc-read ", "auc ", 80),
        ("auc-read ", "refused 1", 200),
        ("auc-read ", "refused 3", 20),
        ("auc-write ", "image ", 80),
        ("auc-write ", "refused 1", 30),
        ("auc-write ", "refused 3", 8),
        ("order 10", "given ", 50),
        ("order 11", "given ", 40),
        ("order ", "refused 1", 10),
        ("order ", "refused 2", 25),
        ("order ", "refused 3", 90),
        ("order ", "refused 4 ", 60),
        ("order ", "refused 6", 15),
        ("resync 10", "kept ", 80),
        ("resync 11", "kept ", 80),
        ("resync 10", "reset ", 40),
        ("resync 11", "reset ", 40),
        ("resync ", "refused 1", 10),
        ("resync ", "refused 2", 20),
        ("resync ", "refused 3", 90),
        ("resync ", "refused 4 ", 25),
        ("resync ", "refused 5", 80),
        ("resync ", "refused 6", 20),
        ("vector ", "vector -", 80),
        ("vector ", "bad line", 30),
        ("triplets ", "triplets ", 70),
        ("triplets ", "refused 3", 130),
        ("triplets ", "bad line", 60),
        ("phone ", "repeat ", 130),
        ("phone ", "fresh ", 130),
        ("phone ", "sync - ", 90),
        ("phone ", "mac - ", 60),
        ("phone ", "refused 1", 30),
        ("phone ", "refused 3 - ", 140),
        ("phone ", "bad line", 60),
        ("phone-clear ", "done 0 ", 20),
        ("phone-clear ", "refused 3 ", 40),
        ("phone-clear ", "bad line", 60),
    ] {
        let found = calls.count(word.as_bytes(), answer.as_bytes());
        assert!(found >= least, "{word}{answer}: {found}");
    }
}

#[test]
fn every_outcome_of_every_operation_of_the_node() {
    let calls = Calls::generated();
    for (word, outcomes) in [
        (
            "store ",
            "done|refused 1|refused 2|refused 3|refused 7|refused 9",
        ),
        ("renew ", "done|refused 1|refused 2|refused 3|refused 7"),
        ("ask", "done|refused 1|refused 7|refused 8"),
        ("again", "done|refused 1|refused 7"),
        ("answer ", "passed|cause 2|refused 1|refused 3|refused 7"),
        ("reject", "cause 1|refused 1|refused 7"),
        ("sync ", "done|refused 1|refused 3|refused 7"),
        ("timeout", "done|refused 1|refused 7"),
        ("abandon", "done|refused 1|refused 7"),
        ("vlr-record ", "done|bad line"),
        ("vlr-new", "done|bad line"),
    ] {
        for outcome in outcomes.split('|') {
            let found = calls.count(word.as_bytes(), outcome.as_bytes());
            assert!(found >= 2, "{word} {outcome}: {found}");
        }
        let named = |answer: &[u8]| {
            let mut outcomes = outcomes.split('|').chain(["bad line"]);
            outcomes.any(|outcome| answer.starts_with(outcome.as_bytes()))
        };
        let pairs = calls.pairs();
        let mut of_word = pairs.iter().filter(|(l, _)| l.starts_with(word.as_bytes()));
        assert!(of_word.all(|(_, answer)| named(answer)), "{word}");
    }
}

#[test]
fn every_pair_of_equal_rands_is_named() {
    let calls = Calls::generated();
    for word in ["order ", "resync "] {
        for (first, second) in [(0, 1), (0, 2), (0, 3), (0, 4), (1, 2), (3, 4)] {
            let answer = format!("refused 4 {first} {second}");
            assert!(calls.count(word.as_bytes(), answer.as_bytes()) >= 1);
        }
    }
}

#[test]
fn the_lines_for_the_node_can_be_left_out_and_those_for_the_editions_come_last() {
    let with = Calls::generated();
    let without = file(NodeLines::Without, "calls/stdin");
    let (all, fewer) = (lines(&with.input), lines(&without));
    // An empty line and a good one end both, behind the lines for the handset
    // and the editions.
    let mut last_lines = handset_lines::lines();
    last_lines.extend(edition_lines::lines());
    let last = last_lines.len() + 2;
    let (same, from) = (fewer.len() - last, all.len() - last);
    assert_eq!(all[..same], fewer[..same]);
    assert_eq!(all[from..], fewer[same..]);
    assert_eq!(all[from..all.len() - 2], last_lines);
    let answers = lines(&with.output);
    let node_lines = &answers[same..from];
    let operations = node_lines.iter().filter(|line| **line != b"bad line");
    assert!(operations.count() >= 4_000);
    assert!(fewer.iter().all(|line| !line.starts_with(b"vlr-")));
}

#[test]
fn the_sample_and_the_table_come_first() {
    let calls = Calls::generated();
    let words = words(&calls.output);
    assert_eq!(words[..2], ["accepted", "sync"]);
    let answers = lines(&calls.output);
    assert_eq!(answers[1], b"sync 0304050607280001020304250607");
    let table = [
        "sync", "accepted", "sync", "sync", "accepted", "accepted", "accepted", "sync", "mac",
    ];
    assert_eq!(words[2..11], table);
    assert_eq!(words[11..20], table);
    // SQN_MS keeps index 3: the AUTS is that of the row before the tie.
    assert_eq!(answers[5], answers[9]);
    assert_eq!(answers[14], answers[18]);
}

#[test]
fn accepted_images_are_used_again() {
    let calls = Calls::generated();
    let pairs = calls.pairs();
    let replayed = pairs.iter().filter(|(line, answer)| {
        if !answer.starts_with(b"accepted ") {
            return false;
        }
        let image = answer.rsplit(|&b| b == b' ').next().unwrap();
        let rand_and_autn = &line[line.len() - 66..];
        let again = [b"challenge ", image, rand_and_autn].concat();
        let (_, answer) = pairs
            .iter()
            .find(|(line, _)| *line == again)
            .unwrap_or(&(b"", b""));
        answer.starts_with(b"sync ")
    });
    assert!(replayed.count() >= 15);
}

#[test]
fn written_images_are_read() {
    let calls = Calls::generated();
    let pairs = calls.pairs();
    let read = pairs.iter().filter(|(_, answer)| {
        let image = answer.strip_prefix(b"image ");
        image.is_some_and(|image| {
            let line = [b"card-read ", image].concat();
            pairs
                .iter()
                .any(|(l, a)| *l == line && a.starts_with(b"card "))
        })
    });
    assert!(read.count() >= 15);
}

#[test]
fn the_size_the_bytes_and_the_end() {
    let calls = Calls::generated();
    assert!((4_000_000..4_600_000).contains(&calls.input.len()));
    assert!(calls.output.len() < 5_200_000);
    assert!((0..=255).all(|byte| calls.input.contains(&byte)));
    assert_ne!(calls.input.last(), Some(&b'\n'));
    assert_eq!(calls.output.last(), Some(&b'\n'));
    let pairs = calls.pairs();
    assert!(pairs.last().unwrap().1.starts_with(b"accepted "));
    for length in [0, 1, 4_095, 4_096, 4_097, LONG] {
        assert!(pairs.iter().any(|(line, _)| line.len() == length));
    }
}

#[test]
fn the_greatest_length_is_answered_and_no_more() {
    let calls = Calls::generated();
    // Some refusals go on behind the number.
    let answers = |length| -> Vec<&[u8]> {
        let pairs = calls.pairs();
        let fit = pairs.into_iter().filter(|(line, _)| line.len() == length);
        fit.map(|(_, answer)| &answer[..answer.len().min(9)])
            .collect()
    };
    assert_eq!(answers(4_095), [b"refused 3"; 2]);
    let longest = answers(4_096);
    for (answer, times) in [("refused 3", 15), ("refused 1", 3), ("vector -", 1)] {
        let found = longest.iter().filter(|a| **a == answer.as_bytes());
        assert_eq!(found.count(), times, "{answer}");
    }
    assert_eq!(longest.len(), 15 + 3 + 1);
    assert_eq!(answers(4_097), [b"bad line"; 2]);
    assert_eq!(answers(4_098), [b"bad line"; 17]);
}

/// Where each line starts, with the line.
fn starts(input: &[u8]) -> Vec<(usize, &[u8])> {
    let mut start = 0;
    let mut found = Vec::new();
    for line in lines(input) {
        found.push((start, line));
        start += line.len() + 1;
    }
    found
}

#[test]
fn lines_straddle_the_boundaries_of_pieces() {
    let calls = Calls::generated();
    let starts = starts(&calls.input);
    // The line that holds the byte at this place, or whose newline it is.
    let line_at = |place| {
        let mut before = starts.iter().filter(|(start, _)| *start <= place);
        *before.next_back().expect("the first line starts at 0")
    };
    let good = |line: &[u8]| calls::answer(line).starts_with(b"accepted ");
    let (start, line) = line_at(PIECE);
    assert!(start < PIECE && good(line));
    let (start, line) = line_at(2 * PIECE);
    assert!(line.len() == LONG && !good(line));
    assert!(good(&line[3 * PIECE - start..]) && good(&line[..486]));
    let (start, line) = line_at(4 * PIECE - 1);
    assert!(start + line.len() == 4 * PIECE - 1 && good(line));
    let (start, line) = line_at(5 * PIECE);
    assert!(start + line.len() == 5 * PIECE && good(line));
}
