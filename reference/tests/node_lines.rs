//! The generated lines for the node: what they must hold.

use std::collections::BTreeSet;

use reference::calls::answers;
use reference::node_lines;
use reference::text::lines;

/// The digits of a place, and of all places.
const PLACE: usize = 146;
const PLACES: usize = 16 * PLACE;

/// A record as the node line has it, with all digits of its places.
#[derive(Clone, Debug, PartialEq)]
struct Record {
    state: usize,
    held: usize,
    out: String,
    places: String,
}

/// A line that is not bad, the record that it meets, and its answer.
struct Call {
    before: Record,
    fields: Vec<String>,
    answer: Vec<String>,
}

fn zeros(digits: &str) -> bool {
    digits.bytes().all(|digit| digit == b'0')
}

fn is_item(place: &str) -> bool {
    match &place[..2] {
        "00" => true,
        "01" => zeros(&place[58..]),
        _ => false,
    }
}

impl Record {
    fn of(fields: &[String]) -> Record {
        let [state, held, out, places] = fields else {
            panic!("four fields");
        };
        Record {
            state: state.parse().unwrap(),
            held: held.parse().unwrap(),
            out: out.clone(),
            places: format!("{:0<PLACES$}", places.replace('-', "")),
        }
    }

    fn new() -> Record {
        let fields = ["0", "0", &"0".repeat(PLACE), "-"].map(str::to_string);
        Record::of(&fields)
    }

    fn places(&self) -> Vec<&str> {
        (0..16)
            .map(|place| &self.places[PLACE * place..PLACE * (place + 1)])
            .collect()
    }

    fn is_valid(&self) -> bool {
        let out = match self.state {
            1 => is_item(&self.out),
            _ => zeros(&self.out),
        };
        let places = self.places();
        out && self.held <= 16
            && places[..self.held].iter().all(|place| is_item(place))
            && places[self.held..].iter().all(|place| zeros(place))
    }

    fn situation(&self) -> &'static str {
        match (self.state, &self.out[..2]) {
            (0, _) => "idle",
            (2, _) => "resyncing",
            (_, "01") => "triplet",
            _ if zeros(&self.out) => "zeros",
            _ => "vector",
        }
    }

    /// The kinds held, for a node that holds a few.
    fn kinds(&self) -> String {
        let held = &self.places()[..self.held];
        held.iter().map(|place| &place[1..2]).collect()
    }

    fn with(&self, state: usize, out: &str, places: &[String]) -> Record {
        Record {
            state,
            held: places.len(),
            out: format!("{out:0<PLACE$}"),
            places: format!("{:0<PLACES$}", places.concat()),
        }
    }
}

impl Call {
    fn word(&self) -> &str {
        &self.fields[0]
    }

    /// All before the ten fields that follow it.
    fn outcome(&self) -> String {
        self.answer[..self.answer.len() - 10].join(" ")
    }
}

fn text(bytes: &[u8]) -> Vec<String> {
    let text = String::from_utf8_lossy(bytes);
    text.split(' ').map(str::to_string).collect()
}

fn calls() -> Vec<Call> {
    let given = node_lines::lines();
    let output = answers(&[&given.join(&b'\n')[..], b"\n"].concat());
    let mut before = Record::new();
    let mut calls = Vec::new();
    for (line, printed) in given.iter().zip(lines(&output)) {
        if printed == b"bad line" {
            continue;
        }
        let answer = text(printed);
        let after = Record::of(&answer[answer.len() - 4..]);
        calls.push(Call {
            before: std::mem::replace(&mut before, after),
            fields: text(line),
            answer,
        });
    }
    calls
}

/// What is given, by the places of RAND, AUTN, AUTS, CK, IK and KC.
type Given<'a> = Vec<(usize, &'a str)>;

/// The rules once more, on the text of the lines: the outcome, what is given and
/// the next record.
fn expected(call: &Call) -> (String, Given<'_>, Record) {
    let before = &call.before;
    let fields: Vec<&str> = call.fields.iter().map(String::as_str).collect();
    let refused = |number: u8| (format!("refused {number}"), vec![], before.clone());
    match fields[..] {
        ["vlr-new"] => return ("done".to_string(), vec![], Record::new()),
        ["vlr-record", ..] => {
            let record = Record::of(&call.fields[1..]);
            return ("done".to_string(), vec![], record);
        }
        _ if !before.is_valid() => return refused(1),
        _ => (),
    }
    let (state, out) = (before.state, &before.out);
    let held: Vec<String> = before.places()[..before.held]
        .iter()
        .map(|place| place.to_string())
        .collect();
    let is_triplet = state == 1 && out.starts_with("01");
    let done = |given, record| ("done".to_string(), given, record);
    let length = |field: &str| field.replace('-', "").len() / 2;
    match fields[..] {
        [word @ ("store" | "renew"), kind, count, batch] => {
            let item = if kind == "1" { 28 } else { 72 };
            let count: u64 = count.parse().unwrap();
            if !(1..=5).contains(&count) {
                return refused(2);
            }
            if length(batch) != item * count as usize {
                return refused(3);
            }
            if (state == 2) != (word == "renew") {
                return refused(7);
            }
            let mut places = if word == "store" { held } else { vec![] };
            for at in (0..batch.len()).step_by(2 * item) {
                let item = &batch[at..at + 2 * item];
                places.push(format!("{:0<PLACE$}", format!("0{kind}{item}")));
            }
            match places.len() <= 16 {
                true => done(vec![], before.with(state % 2, out, &places)),
                false => refused(9),
            }
        }
        ["ask"] if state != 0 => refused(7),
        ["ask"] if held.is_empty() => refused(8),
        ["ask"] => {
            let given = match &held[0][..2] {
                "00" => vec![(0, &before.places[2..34]), (1, &before.places[114..146])],
                _ => vec![(0, &before.places[2..34])],
            };
            done(given, before.with(1, &held[0], &held[1..]))
        }
        ["timeout"] if state != 2 => refused(7),
        ["timeout"] => done(vec![], before.with(0, "", &held)),
        ["answer", res] if length(res) != if is_triplet { 4 } else { 8 } => refused(3),
        ["sync", auts] if length(auts) != 14 => refused(3),
        _ if state != 1 => refused(7),
        ["again"] if is_triplet => done(vec![(0, &out[2..34])], before.clone()),
        ["again"] => done(vec![(0, &out[2..34]), (1, &out[114..])], before.clone()),
        ["abandon"] => done(vec![], before.with(0, "", &held)),
        ["reject"] => ("cause 1".to_string(), vec![], before.with(0, "", &held)),
        ["sync", _] if is_triplet => refused(7),
        ["sync", auts] => done(vec![(0, &out[2..34]), (2, auts)], before.with(2, "", &held)),
        ["answer", res] => {
            let next = before.with(0, "", &held);
            match (&out[34..34 + res.len()] == res, is_triplet) {
                (false, _) => ("cause 2".to_string(), vec![], next),
                (true, true) => ("passed".to_string(), vec![(5, &out[42..58])], next),
                (true, false) => {
                    let keys = vec![(3, &out[50..82]), (4, &out[82..114])];
                    ("passed".to_string(), keys, next)
                }
            }
        }
        _ => panic!("{fields:?}"),
    }
}

#[test]
fn every_answer_follows_from_the_record_before_it_and_the_line() {
    for call in calls() {
        let (outcome, given, next) = expected(&call);
        let mut parts = [32, 32, 28, 32, 32, 16].map(|digits| "0".repeat(digits));
        for (part, bytes) in given {
            parts[part] = bytes.to_string();
        }
        assert_eq!(
            call.outcome(),
            outcome,
            "{:?} {:?}",
            call.fields,
            call.before
        );
        let from = call.answer.len() - 10;
        assert_eq!(call.answer[from..from + 6], parts, "{:?}", call.fields);
        assert_eq!(Record::of(&call.answer[from + 6..]), next);
    }
}

#[test]
fn there_are_enough_lines_and_the_same_every_time() {
    let all = node_lines::lines();
    assert_eq!(all, node_lines::lines());
    assert!(calls().len() >= 4_000);
    assert!(all.iter().map(Vec::len).sum::<usize>() < 550_000);
}

const SITUATIONS: [&str; 5] = ["idle", "vector", "triplet", "zeros", "resyncing"];

/// A node that holds all sixteen may be told by its count alone.
#[test]
fn every_operation_meets_every_situation() {
    let mut found = BTreeSet::new();
    for call in calls().iter().filter(|call| call.before.is_valid()) {
        let held = match call.before.held {
            0..=3 => call.before.kinds(),
            16 => "all".to_string(),
            _ => continue,
        };
        let word = match call.word() {
            word @ ("store" | "renew") => format!("{word} {}", call.fields[1]),
            word => word.to_string(),
        };
        found.insert(format!("{word}, {}, {held}", call.before.situation()));
    }
    for word in [
        "store 0", "store 1", "renew 0", "renew 1", "ask", "again", "answer", "reject", "sync",
        "timeout", "abandon",
    ] {
        for situation in SITUATIONS {
            for held in ["", "0", "1", "01", "101", "all"] {
                let what = format!("{word}, {situation}, {held}");
                assert!(found.contains(&what), "{what}");
            }
        }
    }
}

#[test]
fn responses_of_every_length_that_begin_right() {
    let mut found = BTreeSet::new();
    for call in calls().iter().filter(|call| call.before.is_valid()) {
        if let ["answer", res] = call.fields.iter().map(String::as_str).collect::<Vec<_>>()[..] {
            let digits = res.replace('-', "");
            let right = digits.len().min(PLACE - 34);
            if digits[..right] == call.before.out[34..34 + right] {
                let length = digits.len() / 2;
                found.insert((call.before.situation(), length, call.outcome()));
            }
        }
    }
    for situation in SITUATIONS {
        for length in (0..=16).chain([20, 24, 28, 32, 56, 260, 264]) {
            let outcome = match (situation, length) {
                ("triplet", 4) | ("vector" | "zeros", 8) => "passed",
                ("idle" | "resyncing", 8) => "refused 7",
                _ => "refused 3",
            };
            let what = (situation, length, outcome.to_string());
            assert!(found.contains(&what), "{what:?}");
        }
    }
}

#[test]
fn each_bit_of_an_sres_is_wrong_once() {
    let mut bits = BTreeSet::new();
    for call in calls() {
        if call.word() == "answer" && call.outcome() == "cause 2" && call.fields[1].len() == 8 {
            let number = |digits: &str| u32::from_str_radix(digits, 16).unwrap();
            let wrong = number(&call.fields[1]) ^ number(&call.before.out[34..42]);
            if wrong.is_power_of_two() {
                bits.insert(wrong.trailing_zeros());
            }
        }
    }
    assert_eq!(bits, (0..32).collect());
}

#[test]
fn batches_of_the_other_kinds_length_and_of_whole_places() {
    let mut found = BTreeSet::new();
    for call in calls().iter().filter(|call| call.outcome() == "refused 3") {
        if matches!(call.word(), "store" | "renew") {
            let length = call.fields[3].replace('-', "").len() / 2;
            found.insert((call.fields[..3].join(" "), length));
        }
    }
    for word in ["store", "renew"] {
        for (kind, right) in [(0, 72), (1, 28)] {
            for n in 1..=5 {
                for length in [28 * n, 72 * n, 73 * n, right * n - 1, right * n + 1] {
                    let what = (format!("{word} {kind} {n}"), length);
                    assert_eq!(found.contains(&what), length != right * n, "{what:?}");
                }
            }
        }
    }
}

#[test]
fn a_synchronisation_failure_on_a_triplet() {
    let calls = calls();
    for (bytes, outcome) in [(13, "refused 3"), (14, "refused 7"), (15, "refused 3")] {
        let fits = calls.iter().filter(|call| {
            call.word() == "sync"
                && call.before.situation() == "triplet"
                && call.before.is_valid()
                && call.fields[1].len() == 2 * bytes
                && call.outcome() == outcome
        });
        assert!(fits.count() >= 2, "{bytes}");
    }
    // The triplet stays out: it is asked again, or answered, right after.
    let after: BTreeSet<String> = calls
        .windows(2)
        .filter(|two| two[0].word() == "sync" && two[0].before.situation() == "triplet")
        .map(|two| two[1].outcome())
        .collect();
    assert!(after.contains("refused 7") && after.contains("done"));
}

/// Where a record is not valid, by what is wrong with it.
fn faults(record: &Record) -> Vec<String> {
    let mut faults = Vec::new();
    let mut look = |name: &str, place: &str, used: bool| match (used, &place[..2]) {
        (true, "00") => (),
        (true, "01") => {
            for byte in (29..73).filter(|&byte| !zeros(&place[2 * byte..2 * byte + 2])) {
                faults.push(format!("{name}: behind, {byte}"));
            }
        }
        (true, kind) => faults.push(format!("{name}: kind {kind}")),
        (false, kind) if !zeros(kind) => faults.push(format!("{name}: unused, kind {kind}")),
        (false, _) if !zeros(place) => faults.push(format!("{name}: unused")),
        (false, _) => (),
    };
    look("out", &record.out, record.state == 1);
    for (place, digits) in record.places().into_iter().enumerate() {
        let used = place < record.held;
        let name = match place {
            0 => "oldest",
            _ if place + 1 == record.held => "newest",
            _ => "other",
        };
        look(name, digits, used);
    }
    if record.held > 16 {
        faults.push("held".to_string());
    }
    faults
}

#[test]
fn records_are_damaged_in_each_way_alone() {
    let mut found: BTreeSet<String> = BTreeSet::new();
    for call in calls().iter().filter(|call| call.outcome() == "refused 1") {
        if let [fault] = &faults(&call.before)[..] {
            found.insert(fault.clone());
            found.insert(format!("{fault}, {}", call.word()));
        }
    }
    for name in ["out", "oldest", "newest"] {
        for kind in ["02", "03", "10", "80", "81", "ff"] {
            let fault = format!("{name}: kind {kind}");
            assert!(found.contains(&fault), "{fault}");
        }
        for byte in [29, 50, 72] {
            let fault = format!("{name}: behind, {byte}");
            assert!(found.contains(&fault), "{fault}");
        }
    }
    for (fault, word) in [
        ("out: kind 02", "again"),
        ("out: behind, 29", "answer"),
        ("out: unused, kind 01", "ask"),
        ("out: unused, kind 01", "timeout"),
        ("oldest: kind 02", "ask"),
        ("oldest: behind, 29", "store"),
        ("oldest: behind, 50", "renew"),
        ("oldest: unused, kind 01", "ask"),
        ("other: unused, kind 01", "store"),
        ("other: unused, kind 02", "timeout"),
        ("other: unused", "sync"),
        ("held", "reject"),
    ] {
        let what = format!("{fault}, {word}");
        assert!(found.contains(&what), "{what}");
    }
}

#[test]
fn both_kinds_are_used_up_in_the_order_of_their_arrival() {
    let mut turns = BTreeSet::new();
    for call in calls() {
        if call.word() == "ask" && call.outcome() == "done" && call.before.held >= 4 {
            turns.insert(call.before.kinds());
        }
    }
    // As it is filled by batches, and as single items come in turn.
    assert!(turns.contains("0000011111000110"));
    assert!(turns.contains("11111000110") && turns.contains("1000110"));
    assert!(turns.contains("01010") && turns.contains("10101"));
}

#[test]
fn bad_lines_are_tried() {
    let given = node_lines::lines();
    let bad = |line: &str| {
        let found = given.iter().any(|given| given == line.as_bytes());
        found && answers(format!("{line}\n").as_bytes()) == b"bad line\n"
    };
    for line in [
        "store 1 -",
        "renew 1 -",
        "store 00 6 -",
        "store 01 6 -",
        "store 2 6 -",
        "renew 00 6 -",
        "renew - 6 -",
        "renew 10 6 -",
        "store  6 -",
    ] {
        assert!(bad(line), "{line}");
    }
    let old = format!("store 1 {}", "3c".repeat(72));
    assert!(bad(&old) && bad(&old.replace("store", "renew")));
}
