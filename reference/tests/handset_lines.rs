//! The generated lines for the handset: what they must hold.

use std::collections::BTreeSet;

use reference::calls::{answer, LONGEST};
use reference::handset_lines::lines;

/// A line with its fields and those of its answer.
struct Call {
    line: Vec<String>,
    answer: Vec<String>,
}

fn fields(bytes: &[u8]) -> Vec<String> {
    let text = String::from_utf8_lossy(bytes);
    text.split(' ').map(str::to_string).collect()
}

/// The lines of one word that are of a right form.
fn calls(word: &str) -> Vec<Call> {
    let calls = lines().into_iter().map(|line| Call {
        answer: fields(&answer(&line)),
        line: fields(&line),
    });
    calls
        .filter(|call| call.line[0] == word && call.answer[0] != "bad")
        .collect()
}

/// The fields of a `phone` line by name.
struct Given<'a> {
    held: &'a str,
    stored: &'a str,
    image: &'a str,
    rand: &'a str,
    autn: &'a str,
    fresh: &'a str,
}

impl Call {
    fn given(&self) -> Given<'_> {
        let [_, held, stored, image, rand, autn, fresh] = &self.line[..] else {
            panic!("seven fields");
        };
        Given {
            held,
            stored,
            image,
            rand,
            autn,
            fresh,
        }
    }

    fn outcome(&self) -> String {
        match &self.answer[0][..] {
            "refused" => self.answer[..2].join(" "),
            word => word.to_string(),
        }
    }
}

impl Given<'_> {
    fn lengths_are_right(&self) -> bool {
        let digits = [self.rand, self.autn, self.stored, self.fresh].map(str::len);
        digits == [32, 32, 112, 80]
    }

    fn repeats(&self) -> bool {
        self.lengths_are_right() && self.held == "1" && self.stored.starts_with(self.rand)
    }

    /// What the card says by itself.
    fn card(&self) -> Vec<String> {
        let line = format!("challenge {} {} {}", self.image, self.rand, self.autn);
        fields(&answer(line.as_bytes()))
    }
}

#[test]
fn there_are_enough_lines_and_the_same_every_time() {
    let all = lines();
    assert_eq!(all, lines());
    let of_the_words = all.iter().filter(|line| line.starts_with(b"phone"));
    assert!(of_the_words.count() >= 900);
    assert!(calls("phone").len() + calls("phone-clear").len() >= 500);
    assert!(all.iter().map(Vec::len).sum::<usize>() < 650_000);
    assert!(all.iter().all(|line| line.len() <= LONGEST + 2));
}

#[test]
fn the_sample_comes_first() {
    let calls = calls("phone");
    let outcomes: Vec<_> = calls[..3].iter().map(Call::outcome).collect();
    assert_eq!(outcomes, ["fresh", "repeat", "sync"]);
    assert_eq!(calls[0].given().autn, "03040506072800010001020304250606");
}

#[test]
fn every_outcome_by_mark_and_set() {
    let calls = calls("phone");
    for held in ["0", "1"] {
        for set in ["10", "11"] {
            for outcome in ["fresh", "sync", "mac", "refused 3", "repeat"] {
                let fits = calls.iter().filter(|call| {
                    let given = call.given();
                    given.held == held && given.image.starts_with(set) && call.outcome() == outcome
                });
                let found = fits.count();
                let least = if (held, outcome) == ("0", "repeat") {
                    0
                } else {
                    2
                };
                assert!(found >= least, "{held} {set} {outcome}: {found}");
                assert!(found == 0 || least > 0);
            }
        }
    }
}

/// The rules once more, on the text of the lines.
#[test]
fn every_answer_follows_from_the_card_and_the_stored_rand() {
    for call in calls("phone") {
        let given = call.given();
        let card = given.card();
        let read = fields(&answer(format!("card-read {}", given.image).as_bytes()));
        let as_given = [given.held, given.stored, given.fresh, given.image].join(" ");
        let no_auts = "0".repeat(28);
        let expected = if read[0] == "refused" {
            read.join(" ")
        } else if !given.lengths_are_right() {
            format!("refused 3 - {no_auts} {as_given}")
        } else if given.repeats() {
            format!("repeat {} {no_auts} {as_given}", &given.stored[32..])
        } else if card[0] == "accepted" {
            let (shown, image) = (card[2..5].concat(), &card[5]);
            format!(
                "fresh {shown} {no_auts} 1 {}{shown} {shown} {image}",
                given.rand
            )
        } else {
            let auts = card.get(1).unwrap_or(&no_auts);
            format!("{} - {auts} {as_given}", card[0])
        };
        assert_eq!(call.answer.join(" "), expected);
    }
}

#[test]
fn a_repeat_is_tried_with_whatever_the_card_would_say() {
    let calls = calls("phone");
    let repeats: Vec<_> = calls.iter().filter(|call| call.given().repeats()).collect();
    assert!(repeats
        .iter()
        .all(|call| call.outcome() == "repeat" || call.answer.len() == 2));
    for (said, least) in [("accepted", 10), ("sync", 50), ("mac", 50), ("refused", 10)] {
        let found = repeats.iter().filter(|call| call.given().card()[0] == said);
        assert!(found.count() >= least, "{said}");
    }
}

#[test]
fn each_length_is_wrong_alone_held_and_not() {
    let calls = calls("phone");
    for held in ["0", "1"] {
        for (part, right) in [(2, 56), (4, 16), (5, 16), (6, 40)] {
            let lengths: BTreeSet<usize> = calls
                .iter()
                .filter(|call| call.line[1] == held && call.outcome() == "refused 3")
                .filter(|call| call.answer.len() > 2 && wrong_parts(&call.line) == [part])
                .map(|call| call.line[part].len() / 2)
                .collect();
            for length in [0, 1, right - 1, right + 1, 2 * right, right + 256] {
                assert!(lengths.contains(&length), "{held} {part} {length}");
            }
        }
    }
}

/// The places of the fields whose lengths are wrong.
fn wrong_parts(line: &[String]) -> Vec<usize> {
    let right = [(2, 112), (4, 32), (5, 32), (6, 80)];
    let wrong = right
        .into_iter()
        .filter(|&(part, digits)| line[part].len() != digits);
    wrong.map(|(part, _)| part).collect()
}

#[test]
fn a_rand_differs_from_the_held_one_in_each_single_byte() {
    let mut places = BTreeSet::new();
    for call in calls("phone") {
        let given = call.given();
        if given.held == "1" && given.lengths_are_right() && call.outcome() != "repeat" {
            let byte = |text: &str, place: usize| text[2 * place..2 * place + 2].to_string();
            let other = |place: &usize| byte(given.rand, *place) != byte(given.stored, *place);
            let different: Vec<usize> = (0..16).filter(other).collect();
            if let [place] = different[..] {
                places.insert((given.image[..2].to_string(), place, call.outcome()));
            }
        }
    }
    for set in ["10", "11"] {
        for place in 0..16 {
            let found =
                |outcome: &str| places.contains(&(set.to_string(), place, outcome.to_string()));
            assert!(
                found("fresh") && (found("mac") || found("sync")),
                "{set} {place}"
            );
        }
    }
}

#[test]
fn what_is_left_is_lent_again() {
    let calls = calls("phone");
    let stores: BTreeSet<String> = calls.iter().map(|call| call.line[2].clone()).collect();
    let left = calls
        .iter()
        .filter(|call| call.outcome() == "fresh" && stores.contains(&call.answer[4]));
    assert!(left.count() >= 50);
    let clears = self::calls("phone-clear");
    let held = clears
        .iter()
        .filter(|call| call.line[1] == "1" && stores.contains(&call.line[2]));
    assert!(held.count() >= 10);
}

#[test]
fn stores_of_every_sort_are_cleared() {
    let calls = calls("phone-clear");
    for held in ["0", "1"] {
        let of_mark = || calls.iter().filter(|call| call.line[1] == held);
        assert!(of_mark().filter(|call| call.outcome() == "done").count() >= 3);
        let refused: BTreeSet<usize> = of_mark()
            .filter(|call| call.outcome() == "refused 3")
            .map(|call| call.line[2].len() / 2)
            .collect();
        for length in [0, 16, 40, 54, 55, 57, 58, 65, 112, 312] {
            assert!(refused.contains(&length), "{held} {length}");
        }
        assert!(!refused.contains(&56));
    }
}

#[test]
fn bad_lines_are_tried() {
    let all = lines();
    let bad = |line: &str| {
        let found = all.iter().any(|given| given == line.as_bytes());
        found && answer(line.as_bytes()) == b"bad line"
    };
    for line in [
        "phone",
        "phone-clear",
        "phone 00 - - - - -",
        "phone 2 - - - - -",
        "phone - - - - - -",
        "phone  - - - - -",
        "phone 0 - - - -",
        "phone 0 - - - - - -",
        "Phone 1 - - - - -",
        "phoneclear 1 -",
        "phone-clea 1 -",
        "phone-Clear 1 -",
    ] {
        assert!(bad(line), "{line}");
    }
    let count = all
        .iter()
        .filter(|line| answer(line) == b"bad line")
        .count();
    assert!(count >= 150);
}
