//! The generated lines for the editions: what they must hold.

use std::collections::BTreeSet;

use reference::calls::{answer, LONGEST};
use reference::edition_lines::lines;

/// A line with its fields and its answer.
struct Call {
    line: Vec<String>,
    answer: String,
}

fn calls() -> Vec<Call> {
    let text = |bytes: &[u8]| String::from_utf8_lossy(bytes).into_owned();
    let call = |line: &Vec<u8>| Call {
        answer: text(&answer(line)),
        line: text(line).split(' ').map(str::to_string).collect(),
    };
    lines().iter().map(call).collect()
}

/// The field that holds an image, for the words that read one.
fn image(call: &Call) -> Option<&str> {
    let place = match &call.line[0][..] {
        "card-read" | "auc-read" | "challenge" | "order" | "resync" => 1,
        "phone" => 3,
        _ => return None,
    };
    let image = call.line.get(place)?;
    (call.answer != "bad line").then_some(image)
}

/// The edition that a line names or whose image it lends.
fn edition(call: &Call) -> &str {
    match &call.line[0][..] {
        "card-new" | "card-write" | "auc-new" | "auc-write" => &call.line[1],
        _ => image(call).map_or("", |image| &image[..1]),
    }
}

#[test]
fn there_are_enough_lines_and_the_same_every_time() {
    let all = lines();
    assert_eq!(all, lines());
    assert!(all.len() >= 7_500, "{}", all.len());
    let different: BTreeSet<_> = all.iter().collect();
    assert!(different.len() >= 7_000, "{}", different.len());
    assert!(all.iter().map(Vec::len).sum::<usize>() < 2_450_000);
    assert!(all.iter().all(|line| line.len() <= LONGEST + 2));
}

#[test]
fn every_answer_of_every_word_in_both_editions() {
    let calls = calls();
    for (word, answers, least) in [
        ("card-new", "image|refused 1", 2),
        ("card-write", "image|refused 1|refused 3", 10),
        ("card-read", "card|refused 1|refused 3", 10),
        ("auc-new", "image|refused 1", 2),
        ("auc-write", "image|refused 1|refused 3", 10),
        ("auc-read", "auc|refused 1|refused 3", 10),
        ("challenge", "accepted|sync|mac|refused 1|refused 3", 1),
        ("order", "given|refused 1|refused 2|refused 3|refused 6", 1),
        (
            "resync",
            "kept|reset|refused 1|refused 2|refused 3|refused 5|refused 6",
            1,
        ),
        ("phone", "mac|refused 1|refused 3", 1),
    ] {
        for number in ["1", "2"] {
            for answer in answers.split('|') {
                let fits = calls.iter().filter(|call| {
                    call.line[0] == word
                        && edition(call) == number
                        && call.answer.starts_with(answer)
                });
                let found = fits.count();
                assert!(found >= least, "{word} {number} {answer}: {found}");
            }
        }
    }
}

#[test]
fn more_answers_of_edition_2() {
    let calls = calls();
    let of_edition_2 = |word: &str, answer: &str| {
        let mut calls = calls.iter();
        calls.any(|call| {
            call.line[0] == word && edition(call) == "2" && call.answer.starts_with(answer)
        })
    };
    for (word, answer) in [
        ("order", "refused 4 0 1"),
        ("resync", "refused 4 0 1"),
        ("phone", "fresh"),
        ("phone", "repeat"),
        ("phone", "sync"),
    ] {
        assert!(of_edition_2(word, answer), "{word} {answer}");
    }
}

/// The rules of reading once more, on the text of the lines.
#[test]
fn what_the_reading_refuses_comes_before_all_else() {
    let mut refused = 0;
    for call in calls() {
        let Some(image) = image(&call) else {
            continue;
        };
        let is_card = matches!(&call.line[0][..], "card-read" | "challenge" | "phone");
        let digits = match (is_card, &image[..1]) {
            (true, "1") => 2 * 205,
            (true, _) => 2 * 369,
            (false, _) => 2 * 41,
        };
        let expected = match &image[..1] {
            "-" => Some("refused 3"),
            "1" | "2" if image.len() != digits => Some("refused 3"),
            "1" | "2" if "01".contains(&image[1..2]) => None,
            _ => Some("refused 1"),
        };
        match expected {
            Some(number) => assert_eq!(call.answer, number, "{:?}", call.line),
            None => assert!(!call.answer.starts_with("refused 1")),
        }
        refused += usize::from(expected.is_some());
    }
    assert!(refused >= 1_000, "{refused}");
}

#[test]
fn every_length_and_every_edition_of_an_image() {
    let calls = calls();
    let lengths = [0, 1, 40, 41, 42, 204, 205, 206, 368, 369, 370];
    for word in [
        "card-read",
        "auc-read",
        "challenge",
        "order",
        "resync",
        "phone",
    ] {
        let tried: BTreeSet<(usize, &str)> = calls
            .iter()
            .filter(|call| call.line[0] == word)
            .filter_map(image)
            .map(|image| (image.replace('-', "").len() / 2, &image[..1]))
            .collect();
        for length in &lengths[1..] {
            for edition in "0123f".split("").filter(|digit| !digit.is_empty()) {
                assert!(tried.contains(&(*length, edition)), "{word} {length}");
            }
        }
        assert!(tried.contains(&(0, "-")));
        for length in [1, 41, 205, 369] {
            for edition in "0123456789abcdef".split("").filter(|d| !d.is_empty()) {
                assert!(tried.contains(&(length, edition)), "{word} {length}");
            }
        }
    }
}

/// The next index in an image: its last five or six bits.
fn next_index(image: &str) -> u64 {
    let low = u64::from_str_radix(&image[image.len() - 2..], 16).unwrap();
    match &image[..1] {
        "1" => low % 32,
        _ => low % 64,
    }
}

#[test]
fn every_count_from_every_index_about_the_wrap() {
    let calls = calls();
    for (edition, indices) in [("1", [30, 31, 0]), ("2", [62, 63, 0])] {
        for word in ["given", "kept", "reset"] {
            for next in indices {
                for n in 1..=5 {
                    let begins = format!("{word} {n} {edition}");
                    let mut fits = calls.iter().filter(|call| {
                        call.answer.starts_with(&begins) && next_index(&call.line[1]) == next
                    });
                    let call = fits.next().expect("a line of this sort");
                    let left = next_index(call.answer.split(' ').nth(2).unwrap());
                    let expected = match edition {
                        "1" => (next + 1) % 32,
                        _ => (next + n) % 64,
                    };
                    assert_eq!(left, expected, "{begins} {next}");
                }
            }
        }
    }
}

/// The places of a `card-write` that are not 0.
fn used_places(call: &Call) -> Vec<usize> {
    let places = call.line[6..].iter().enumerate();
    places.filter(|(_, seq)| *seq != "0").map(|p| p.0).collect()
}

#[test]
fn each_place_behind_the_last_index_of_edition_1() {
    let calls = calls();
    let writes: Vec<&Call> = calls
        .iter()
        .filter(|call| call.line[0] == "card-write" && call.answer != "bad line")
        .filter(|call| call.line[1] == "1" && call.line[5] == "205")
        .collect();
    for ind in 32..64 {
        let alone = writes.iter().filter(|call| used_places(call) == [ind]);
        let answers: Vec<&str> = alone.map(|call| &call.answer[..]).collect();
        assert!(!answers.is_empty() && answers.iter().all(|a| *a == "refused 1"));
    }
    let several = writes.iter().filter(|call| {
        let behind = used_places(call).into_iter().filter(|ind| *ind >= 32);
        behind.count() > 1
    });
    assert!(several.count() >= 8);
}

#[test]
fn the_limits_are_met_and_passed() {
    let calls = calls();
    let is_tried = |word: &str, edition: &str, seq: &str, answer: &str| {
        calls.iter().any(|call| {
            call.line[0] == word
                && call.line[1] == edition
                && call.line[6..].iter().any(|field| field == seq)
                && call.answer.starts_with(answer)
        })
    };
    for word in ["card-write", "auc-write"] {
        assert!(is_tried(word, "1", "8796093022207", "image"));
        assert!(is_tried(word, "1", "8796093022208", "refused 1"));
        assert!(is_tried(word, "2", "4398046511103", "image"));
        assert!(is_tried(word, "2", "4398046511104", "refused 1"));
        assert!(is_tried(word, "2", "8796093022207", "refused 1"));
    }
}

#[test]
fn the_old_forms_are_tried() {
    let calls = calls();
    for (word, fields) in [
        ("card-new", 4),
        ("auc-new", 5),
        ("auc-write", 8),
        ("card-write", 5 + 32),
        ("card-write", 5 + 64),
    ] {
        let fits = calls
            .iter()
            .filter(|call| call.line[0] == word && call.line.len() == fields);
        let answers: Vec<&str> = fits.map(|call| &call.answer[..]).collect();
        assert!(answers.len() >= 2 && answers.iter().all(|a| *a == "bad line"));
    }
}
