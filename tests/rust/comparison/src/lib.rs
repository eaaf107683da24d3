//! A library's calls beside the oracle's: after every call the same answer, and the same state word by word. The oracle knows no images: of
//! these the model says what is saved and what is loaded.
//!
//! `pair` makes a call of both and compares, and `question` says what is asked of both after it. `histories`, `messages`, `lent` and `images`
//! say which calls are made: histories from setup on, accesses to the message frame in the midst of them, calls of words that no history makes,
//! and loads of what is an image and what is none. `report` tells a difference with the calls that lead to it, and with the fewest that do.
//! `wrong` has controllers that a comparison has to find.
pub mod histories;
pub mod images;
pub mod lent;
pub mod memory;
pub mod messages;
pub mod pair;
pub mod question;
pub mod report;
pub mod request;
mod slots;
#[cfg(test)]
mod stand_in;
pub mod tally;
pub mod wrong;

use histories::Scenes;
use pair::Pair;
use question::Question;
use report::Case;
use request::Request;
use tally::Tally;

/// What is compared with the oracle: the calls of `libvgic.a`, with their packed answers.
pub trait Library {
    fn state_words(&self, count: u64, limit: u64) -> u64;
    fn image_bytes(&self, count: u64, limit: u64) -> u64;
    fn image_shape(&self, image: &[u8]) -> u64;
    /// A save writes into the buffer; other calls are lent none.
    fn call(&self, words: &mut [u32], buffer: &mut [u8], request: &Request) -> u64;
    fn ask(&self, words: &[u32], question: &Question) -> u64;
}

/// Where the two part, in words.
#[derive(Clone, Debug, PartialEq, Eq)]
pub struct Difference(pub String);

/// Which calls a seed gives.
#[derive(Clone, Copy, Debug, PartialEq, Eq)]
pub enum Mix {
    /// None of the message frame: a seed's are as they ever were.
    Plain,
    /// With accesses to the message frame among them.
    Messages,
}

/// All that is compared: about so many calls, and how many of which kind they were. The seed gives the same calls again.
pub fn run<L: Library>(
    library: &L,
    seed: u64,
    calls: u64,
) -> Result<Vec<(&'static str, Tally)>, Case> {
    run_mix(library, Mix::Plain, seed, calls)
}

/// The same of calls with messages among them, and a part more that is about these.
pub fn run_with_messages<L: Library>(
    library: &L,
    seed: u64,
    calls: u64,
) -> Result<Vec<(&'static str, Tally)>, Case> {
    run_mix(library, Mix::Messages, seed, calls)
}

fn run_mix<L: Library>(
    library: &L,
    mix: Mix,
    seed: u64,
    calls: u64,
) -> Result<Vec<(&'static str, Tally)>, Case> {
    let mut tallies = vec![];
    let mut part = |name, play: &dyn Fn(&mut Pair<L>) -> Result<(), Difference>| {
        let mut pair = Pair::new(library);
        match play(&mut pair) {
            Ok(()) => tallies.push((name, pair.tally)),
            Err(difference) => return Err(Case::of(&pair, difference)),
        }
        Ok(())
    };
    part("a full stack", &histories::deepest)?;
    part("histories", &|pair| {
        Scenes::new(mix, seed).play(pair, calls / 2)
    })?;
    part("every place", &|pair| {
        Scenes::new(mix, !seed).sweep(pair, calls * 15 / 100)
    })?;
    part("every shape", &|pair| {
        histories::shapes(pair, seed, calls / 10)
    })?;
    if mix == Mix::Messages {
        part("messages", &|pair| messages::play(pair, seed, calls / 10))?;
    }
    part("lent words", &|pair| lent::play(pair, mix, seed, calls / 4))?;
    part("images", &|pair| images::play(pair, mix, seed, calls / 2))?;
    Ok(tallies)
}
