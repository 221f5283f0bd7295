//! Contenders for one piece of work, timed in turn, round by round.

use crate::clock;

/// Does the work of one round.
pub type Work = Box<dyn FnMut()>;

struct Contender {
    name: &'static str,
    work: Work,
    /// Nanoseconds for one piece, a number for each round.
    times: Vec<f64>,
}

/// The first contender is the one that the others are laid beside.
pub struct Measure {
    name: &'static str,
    /// The pieces that one round does.
    pieces: usize,
    contenders: Vec<Contender>,
}

impl Measure {
    pub fn new(name: &'static str, pieces: usize) -> Measure {
        Measure {
            name,
            pieces,
            contenders: Vec::new(),
        }
    }

    pub fn with(mut self, name: &'static str, work: impl FnMut() + 'static) -> Measure {
        self.contenders.push(Contender {
            name,
            work: Box::new(work),
            times: Vec::new(),
        });
        self
    }

    pub fn warm_up(&mut self) {
        for contender in &mut self.contenders {
            (contender.work)();
        }
    }

    /// Every contender once, so that all of them meet the same disturbances.
    pub fn round(&mut self) {
        for contender in &mut self.contenders {
            let start = clock::now();
            (contender.work)();
            let time = clock::now() - start;
            contender.times.push(time as f64 / self.pieces as f64);
        }
    }

    pub fn print(&self) {
        let [ours, others @ ..] = &self.contenders[..] else {
            panic!("a measure without contenders");
        };
        let time = median(ours.times.clone());
        println!("{}", self.name);
        println!(
            "  {:44} {time:9.0} ns {:10.0} a second",
            ours.name,
            1e9 / time
        );
        for other in others {
            let ratios = other.times.iter().zip(&ours.times).map(|(a, b)| a / b);
            let (time, ratio) = (median(other.times.clone()), median(ratios.collect()));
            println!("  {:44} {time:9.0} ns   ratio {ratio:7.2}", other.name);
        }
    }
}

fn median(mut numbers: Vec<f64>) -> f64 {
    numbers.sort_by(f64::total_cmp);
    numbers[numbers.len() / 2]
}
