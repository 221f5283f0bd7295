//! The lines with which the bench is compared. Each meets the bench that the
//! lines before it left.

use crate::bench_form_lines::{self, damaged, malformed};
use crate::random::Random;
use crate::text::write_hex;

/// Document 01's run, whole.
pub fn run() -> Vec<u8> {
    let zeros = "0".repeat(32);
    let k = "000102030405060708090a0b0c0d0e0f";
    format!("key 0 {k} {zeros} 0001\norder 1 {zeros}\nask\nask\nshow\n").into_bytes()
}

/// Lines of every sort; the last one has no newline.
pub fn more() -> Vec<u8> {
    let mut script = Script {
        random: Random::new(512),
        bytes: Vec::new(),
    };
    before_any_key(&mut script);
    first_runs(&mut script);
    puts(&mut script);
    limits(&mut script);
    equal_rands(&mut script);
    full_node(&mut script);
    indices(&mut script);
    jumps(&mut script);
    resynchronisations(&mut script);
    waiting(&mut script);
    kept_failures(&mut script);
    bench_form_lines::push(&mut script);
    walks(&mut script);
    bench_form_lines::boundaries(&mut script);
    script.bytes.extend(b"show");
    script.bytes
}

/// A load of order and ask lines, for timing: batches of five, each used up.
pub fn load(lines: usize) -> Vec<u8> {
    let mut script = Script {
        random: Random::new(100),
        bytes: Vec::new(),
    };
    script.key(1);
    for n in 0..lines {
        if n % 6 == 0 {
            script.order(5);
        } else {
            script.say("ask");
        }
    }
    script.bytes
}

pub struct Script {
    pub random: Random,
    pub bytes: Vec<u8>,
}

impl Script {
    pub fn push(&mut self, line: &[u8]) {
        self.bytes.extend(line);
        self.bytes.push(b'\n');
    }

    pub fn say(&mut self, line: &str) {
        self.push(line.as_bytes());
    }

    /// Several lines, one behind another.
    pub fn all(&mut self, lines: &[&str]) {
        for line in lines {
            self.say(line);
        }
    }

    pub fn key_line(&mut self, set: u8) -> String {
        let fields = [32, 32, 4].map(|count| self.digits(count));
        format!("key {set} {}", fields.join(" "))
    }

    pub fn key(&mut self, set: u8) {
        let line = self.key_line(set);
        self.say(&line);
    }

    fn digits(&mut self, count: usize) -> String {
        String::from_utf8(self.random.field(count)).expect("digits")
    }

    /// A count and that many RANDs, no two of them equal.
    pub fn rands(&mut self, n: usize) -> String {
        let mut fields = n.to_string();
        for place in 0..n {
            let mut rand: [u8; 16] = self.random.bytes();
            rand[3] = place as u8;
            fields.push(' ');
            fields.push_str(&String::from_utf8(write_hex(&rand)).expect("digits"));
        }
        fields
    }

    fn with_rands(&mut self, word: &str, n: usize) {
        let line = format!("{word} {}", self.rands(n));
        self.say(&line);
    }

    pub fn order(&mut self, n: usize) {
        self.with_rands("order", n);
    }

    fn resync(&mut self, n: usize) {
        self.with_rands("resync", n);
    }

    fn put(&mut self, seq_he: u64, next: usize) {
        self.say(&format!("put {seq_he} {next}"));
    }

    /// A new card takes SEQ `high` and is then asked with a lower one, so that
    /// the node waits for a resynchronisation; `held` vectors are behind.
    pub fn fall_out(&mut self, set: u8, high: u64, held: usize) {
        self.key(set);
        self.put(high - 1, 4);
        self.order(1);
        self.put(high - 3, 4);
        self.order(1);
        if held > 0 {
            self.order(held);
        }
        self.all(&["ask", "ask", "show"]);
    }
}

/// Nothing but a key is taken, and a refused key is not.
fn before_any_key(script: &mut Script) {
    for set in [2, 9] {
        script.all(&["show", "ask", "put 1 1", ""]);
        script.order(1);
        script.resync(1);
        script.key(set);
    }
    for line in malformed(script) {
        script.push(&line);
    }
    script.all(&["show", "ask"]);
}

/// Orders of each count, used up; a key again in between, taken and refused.
fn first_runs(script: &mut Script) {
    for set in [0, 1] {
        script.key(set);
        script.all(&["show", "ask"]);
        for n in 1..=5 {
            script.order(n);
            script.say("show");
            script.all(&["ask"; 6][..n + 1]);
        }
        script.order(3);
        script.say("ask");
        script.key(2 + set);
        script.all(&["show", "ask"]);
        script.key(1 - set);
        script.all(&["show", "ask"]);
        script.resync(1);
    }
}

/// What `put` is given as SEQ_HE and as next index.
const NUMBERS: [&str; 20] = [
    "0",
    "1",
    "00",
    "7",
    "0000000000000",
    "0000000000001",
    "00000000000000",
    "00000000000001",
    "8796093022202",
    "8796093022203",
    "8796093022206",
    "8796093022207",
    "8796093022208",
    "8796093022209",
    "9999999999999",
    "08796093022207",
    "87960930222070",
    "18446744073709551616",
    "99999999999999",
    "4398046511104",
];
const INDICES: [&str; 20] = [
    "0", "1", "9", "00", "01", "09", "10", "30", "31", "32", "33", "63", "64", "99", "000", "031",
    "100", "255", "256", "",
];

/// SEQ_HE and next index at their limits and in every count of digits.
fn puts(script: &mut Script) {
    script.key(0);
    for number in NUMBERS {
        for index in INDICES {
            script.say(&format!("put {number} {index}"));
        }
        script.say("show");
    }
    for index in 0..100 {
        script.put(index, index as usize);
        if index % 10 == 0 {
            script.say("show");
        }
    }
}

/// Orders about the largest SEQ.
fn limits(script: &mut Script) {
    for set in [0, 1] {
        for n in 1..=5 {
            for seq_he in 8_796_093_022_202..=8_796_093_022_207 {
                script.key(set);
                script.put(seq_he, 9);
                script.order(n);
                script.all(&["show", "ask"]);
            }
        }
    }
}

/// Every pair of every count, for an order and for a resynchronisation.
fn equal_rands(script: &mut Script) {
    for word in ["order", "resync"] {
        script.fall_out(1, 40, 0);
        if word == "order" {
            script.resync(1);
        }
        for n in 2..=5 {
            let rands = script.rands(n);
            let fields: Vec<&str> = rands.split(' ').collect();
            for first in 1..=n {
                for second in first + 1..=n {
                    let mut fields = fields.clone();
                    fields[second] = fields[first];
                    script.say(&format!("{word} {}", fields.join(" ")));
                }
            }
        }
        script.all(&["show", "ask"]);
        script.with_rands(word, 5);
        script.all(&["ask"; 7]);
    }
}

/// Sixteen are held and no more; 4 and 6 come before 9.
fn full_node(script: &mut Script) {
    for counts in [[5, 5, 5, 1], [4, 4, 4, 4], [5, 4, 3, 4], [2, 5, 5, 4]] {
        script.key(counts[0] as u8 % 2);
        for n in counts {
            script.order(n);
        }
        for n in 1..=5 {
            script.order(n);
        }
        let zeros = "0".repeat(32);
        script.say(&format!("order 2 {zeros} {zeros}"));
        script.say("show");
        script.put(8_796_093_022_207, 3);
        script.order(1);
        script.put(16, 4);
        for n in [2, 1, 5] {
            script.say("ask");
            script.order(n);
        }
        script.all(&["ask"; 18]);
        script.order(5);
        script.say("ask");
    }
}

/// The index cycle, more than once round.
fn indices(script: &mut Script) {
    for set in [0, 1] {
        script.key(set);
        script.put(1_000, 29);
        for turn in 0..70 {
            script.order(1 + turn % 2);
            script.all(&["ask", "show"]);
            if turn % 2 == 1 {
                script.say("ask");
            }
        }
    }
}

/// SEQs about SEQ_MS + D.
fn jumps(script: &mut Script) {
    for (turn, ahead) in (268_435_454..268_435_458).enumerate() {
        for base in [0, 77] {
            script.key(turn as u8 % 2);
            script.put(base, 5);
            script.order(1);
            script.say("ask");
            script.put(base + ahead, 6);
            script.order(2);
            script.all(&["ask", "ask", "ask", "show"]);
            script.resync(3);
            script.all(&["show", "ask", "ask", "ask", "ask"]);
        }
    }
}

/// SEQ_HE about SEQ_MS and about SEQ_MS + D, for each count.
fn resynchronisations(script: &mut Script) {
    const D: u64 = 268_435_456;
    for high in [100, 8_796_093_022_200] {
        for n in 1..=5 {
            let mut starts = vec![0, high - 1, high, high + 1, 8_796_093_022_207];
            if high == 100 {
                let far = high + D - n as u64;
                starts.extend([far - 1, far, far + 1]);
            } else {
                starts.extend([high + 2, high + 4, high + 6, high - D]);
            }
            for seq_he in starts {
                script.fall_out((seq_he % 2) as u8, high, n % 3);
                script.put(seq_he, 31);
                script.resync(n);
                script.all(&["show", "ask", "ask", "show"]);
            }
        }
    }
    // The card's highest place leaves no room for a batch.
    for n in 1..=5 {
        for high in 8_796_093_022_203..=8_796_093_022_207 {
            script.fall_out(1, high, 0);
            script.put(5, 0);
            script.resync(n);
            script.all(&["show", "ask"]);
        }
    }
}

/// While the node waits: 4 and 6 of the centre, then 7, before 8 and 9.
fn waiting(script: &mut Script) {
    let zeros = "0".repeat(32);
    for held in [0, 2] {
        for set in [0, 1] {
            script.fall_out(set, 50, held);
            script.say("ask");
            script.order(1);
            script.order(5);
            script.say(&format!("order 2 {zeros} {zeros}"));
            script.put(8_796_093_022_207, 2);
            script.order(1);
            script.say(&format!("resync 2 {zeros} {zeros}"));
            script.say("show");
            script.put(60, 2);
            script.push(b"resync 0");
            script.say("show");
            script.resync(2);
            script.all(&["ask", "ask", "ask"]);
        }
    }
    // Fourteen more are held when the failure comes; all are dropped.
    script.fall_out(0, 50, 4);
    script.fall_out(1, 50, 5);
    script.order(5);
    script.resync(5);
    script.all(&["ask"; 6]);
}

/// The last AUTS outlives refusals, bad lines, puts and a resynchronisation; a
/// key that is taken forgets it, one that is refused does not.
fn kept_failures(script: &mut Script) {
    for set in [0, 1] {
        script.key(set);
        script.resync(1);
        script.fall_out(set, 90, 1);
        script.key(3);
        script.all(&["nonsense", "ask", "put 9 99", "put 80 3"]);
        script.resync(1);
        script.resync(1);
        script.say("ask");
        script.resync(2);
        let rands = script.rands(1);
        script.say(&format!("resync 2 {0} {0}", &rands[2..]));
        script.all(&["put 8796093022207 0", "show"]);
        script.resync(1);
        script.put(89, 4);
        script.order(2);
        script.all(&["ask", "ask", "ask"]);
        script.resync(3);
        script.all(&["ask", "show"]);
        script.key(set);
        script.resync(1);
        script.all(&["show", "ask"]);
    }
    // A first AUTS is old when a second failure comes: the second one counts.
    script.fall_out(1, 90, 0);
    script.resync(1);
    script.say("ask");
    script.put(500, 7);
    script.order(1);
    script.say("ask");
    script.put(300, 7);
    script.order(1);
    script.all(&["ask", "show"]);
    script.resync(1);
    script.all(&["ask", "show"]);
}

/// Lines at random, most of them taken.
fn walks(script: &mut Script) {
    for turn in 0..40 {
        script.key(turn % 2);
        for _ in 0..40 {
            step(script);
        }
    }
}

fn step(script: &mut Script) {
    let n = 1 + script.random.below(5);
    match script.random.below(24) {
        0..=9 => script.say("ask"),
        10..=13 => script.order(n),
        14..=16 => script.resync(n),
        17 => script.say("show"),
        18 => {
            let next = script.random.below(33);
            let seq_he = script.random.draw() % 60;
            script.put(seq_he, next);
        }
        19 => {
            let next = script.random.below(32);
            let far = script.random.draw() % (1 << 30);
            script.put(far, next);
        }
        20 => {
            let lines = damaged(script);
            let line = lines[script.random.below(lines.len())].clone();
            script.push(&line);
        }
        21 => {
            let rands = script.rands(1);
            script.say(&format!("order 2 {0} {0}", &rands[2..]));
        }
        _ => {
            script.say("ask");
            script.say("show");
        }
    }
}
