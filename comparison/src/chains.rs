//! A card and a centre of one edition used on through many calls, their images
//! carried from one to the next: vectors arrive in order, out of order, twice or
//! never, and the centre sometimes falls back to an old copy of its image.

use reference::auc_image;
use reference::editions::{Edition, KNOWN};
use reference::random::Random;
use reference::triplet;
use reference::usim::D;
use reference::vector::{Bytes, Vector, LENGTH, MOST};
use vetrhoss::{AMF_SIZE, DONE, K_SIZE, OPC_SIZE, OP_SIZE, RAND_SIZE, SYNCH_FAILURE};

use crate::call::{Call, Function, Numbers};
use crate::cases::{filler, ANSWER_SIZES};
use crate::compare::{Comparison, Outcome};

const CHAINS: usize = 200;
const STEPS: usize = 40;

/// A vector, and what the card answered to it.
type Failure = (Vector, Vec<u8>);

struct Chain<'a, 'b> {
    comparison: &'a mut Comparison<'b>,
    random: &'a mut Random,
    card: Vec<u8>,
    centre: Vec<u8>,
    /// An earlier image of the centre.
    copy: Vec<u8>,
    /// Vectors that are not used yet, oldest first.
    held: Vec<Vector>,
    used: Vec<Vector>,
}

pub fn compare(comparison: &mut Comparison, random: &mut Random) -> Result<(), String> {
    for turn in 0..CHAINS {
        let edition = &KNOWN[turn % KNOWN.len()];
        let mut chain = Chain::start(edition, comparison, random)?;
        for _ in 0..STEPS {
            chain.step()?;
        }
    }
    Ok(())
}

impl<'a, 'b> Chain<'a, 'b> {
    fn start(
        edition: &Edition,
        comparison: &'a mut Comparison<'b>,
        random: &'a mut Random,
    ) -> Result<Chain<'a, 'b>, String> {
        let mut chain = Chain {
            comparison,
            random,
            card: Vec::new(),
            centre: Vec::new(),
            copy: Vec::new(),
            held: Vec::new(),
            used: Vec::new(),
        };
        let numbers = [edition.number.into(), chain.random.draw() % 2];
        let [k, op, opc] = [K_SIZE, OP_SIZE, OPC_SIZE].map(|size| filler(size, chain.random));
        let opc = last(chain.call(Function::Opc, [0; 2], vec![k.clone(), op, opc])?);
        let amf = filler(AMF_SIZE, chain.random);
        let keys = vec![k, opc];
        let card = filler(edition.card_image(), chain.random);
        let centre = filler(edition.auc_image(), chain.random);
        let card = [keys.clone(), vec![card]].concat();
        let centre = [keys, vec![amf, centre]].concat();
        chain.card = last(chain.call(Function::NewUsim, numbers, card)?);
        chain.centre = last(chain.call(Function::NewAuc, numbers, centre)?);
        chain.copy.clone_from(&chain.centre);
        Ok(chain)
    }

    fn call(
        &mut self,
        function: Function,
        numbers: Numbers,
        buffers: Vec<Vec<u8>>,
    ) -> Result<Outcome, String> {
        let call = Call {
            function,
            numbers,
            buffers,
        };
        self.comparison.call(&call)
    }

    fn step(&mut self) -> Result<(), String> {
        match self.random.below(16) {
            0..=3 => self.order(),
            4..=8 => self.use_vector(0),
            9 => {
                let place = self.random.below(MOST);
                self.use_vector(place)
            }
            10 => {
                let place = self.random.below(1 + self.held.len());
                self.use_vector(place)
            }
            11..=12 => self.use_again(),
            13 => {
                self.held.truncate(self.random.below(3));
                Ok(())
            }
            14 => {
                std::mem::swap(&mut self.centre, &mut self.copy);
                Ok(())
            }
            _ => self.jump(),
        }
    }

    fn lent(&mut self) -> (u64, [Vec<u8>; 2]) {
        let count = self.random.below(MOST + 1);
        let n = if count == 0 { MOST } else { count };
        let lent = [RAND_SIZE, LENGTH].map(|size| filler(size * n, self.random));
        (count as u64, lent)
    }

    /// The centre's next image and the vectors of its batch, each found by its
    /// place. Random RANDs are unlike.
    fn given(&mut self, outcome: Outcome) -> Result<Vec<Vector>, String> {
        if outcome.answer.number != DONE {
            return Err(format!("no batch but {:?}", outcome.answer));
        }
        self.centre.clone_from(&outcome.buffers[0]);
        let batch = last(outcome);
        self.triplets(&batch)?;
        let mut vectors = Vec::new();
        for k in 0..batch.len() / LENGTH {
            let found = self.call(Function::VectorAt, [k as u64, 0], vec![batch.clone()])?;
            let from = found.answer.value as usize;
            let bytes: &Bytes = batch[from..]
                .first_chunk()
                .ok_or("a place past the batch")?;
            vectors.push(Vector::of(bytes));
        }
        Ok(vectors)
    }

    /// A batch that was given can be converted.
    fn triplets(&mut self, batch: &[u8]) -> Result<(), String> {
        let lent = filler(triplet::LENGTH * (batch.len() / LENGTH), self.random);
        let outcome = self.call(Function::Triplets, [0; 2], vec![batch.to_vec(), lent])?;
        match outcome.answer.number {
            DONE => Ok(()),
            _ => Err(format!("no triplets but {:?}", outcome.answer)),
        }
    }

    fn order(&mut self) -> Result<(), String> {
        let (count, [rands, batch]) = self.lent();
        let buffers = vec![self.centre.clone(), rands, batch];
        let outcome = self.call(Function::Order, [count, 0], buffers)?;
        let vectors = self.given(outcome)?;
        self.held.extend(vectors);
        Ok(())
    }

    fn use_vector(&mut self, place: usize) -> Result<(), String> {
        if place >= self.held.len() {
            return Ok(());
        }
        let vector = self.held.remove(place);
        self.used.push(vector.clone());
        match self.challenge(vector)? {
            Some(failure) => self.resynchronise(failure),
            None => Ok(()),
        }
    }

    /// A failure of an old challenge is not always followed up.
    fn use_again(&mut self) -> Result<(), String> {
        if self.used.is_empty() {
            return Ok(());
        }
        let vector = self.used[self.random.below(self.used.len())].clone();
        let Some(failure) = self.challenge(vector)? else {
            return Ok(());
        };
        match self.random.below(2) {
            0 => self.resynchronise(failure),
            _ => Ok(()),
        }
    }

    /// The card knows every vector of its centre: it is accepted with the same
    /// keys on both sides, or it is not fresh.
    fn challenge(&mut self, vector: Vector) -> Result<Option<Failure>, String> {
        let (rand, autn) = (vector.rand.to_vec(), vector.autn.to_vec());
        let mut buffers = vec![self.card.clone(), rand, autn];
        buffers.extend(ANSWER_SIZES.map(|size| filler(size, self.random)));
        let Outcome { answer, buffers } = self.call(Function::Challenge, [0; 2], buffers)?;
        self.card.clone_from(&buffers[0]);
        let (keys, auts) = (buffers[3..6].concat(), &buffers[6]);
        let expected = [&vector.xres[..], &vector.ck, &vector.ik].concat();
        match answer.number {
            DONE if keys == expected => Ok(None),
            SYNCH_FAILURE => Ok(Some((vector, auts.clone()))),
            _ => Err(format!("a vector of the centre gives {answer:?}")),
        }
    }

    /// After it every vector of the new batch is accepted, some being lost.
    fn resynchronise(&mut self, (vector, auts): Failure) -> Result<(), String> {
        let (count, [rands, batch]) = self.lent();
        let rand = vector.rand.to_vec();
        let buffers = vec![self.centre.clone(), rand, auts, rands, batch];
        let outcome = self.call(Function::Resynchronise, [count, 0], buffers)?;
        self.held.clear();
        for vector in self.given(outcome)? {
            if self.random.below(4) == 0 {
                continue;
            }
            self.used.push(vector.clone());
            if self.challenge(vector)?.is_some() {
                return Err("a vector of a resynchronised batch is not fresh".to_string());
            }
        }
        Ok(())
    }

    /// The centre's SEQ_HE goes far ahead, as by a bad repair, unless its end is
    /// near; the image as it was is the next copy.
    fn jump(&mut self) -> Result<(), String> {
        let mut auc = auc_image::read(&self.centre).map_err(|refusal| format!("{refusal:?}"))?;
        if auc.seq_he < auc.row().seq_limit() - 3 * D {
            auc.seq_he += D - 10 + self.random.draw() % D;
        }
        let image = auc_image::image(&auc).map_err(|refusal| format!("{refusal:?}"))?;
        self.copy = std::mem::replace(&mut self.centre, image);
        Ok(())
    }
}

/// The buffer that a call filled last.
fn last(mut outcome: Outcome) -> Vec<u8> {
    outcome.buffers.pop().expect("every call lends a buffer")
}
