//! What a caller lends, in the middle of words or bytes that are not lent, and what may become of it in a call.
use crate::{Difference, slots};
use oracle::machine::Machine;

/// Words on either side that are not lent.
const AROUND: usize = 8;

pub struct Memory {
    now: Vec<u32>,
    /// As it should stand: before a call as it stood, after one as the oracle says.
    should: Vec<u32>,
    length: usize,
    meaning: Vec<u32>,
}

impl Memory {
    pub fn new(lent: &[u32]) -> Self {
        let around = [0xa5c3_0ff1; AROUND];
        let now = [&around[..], lent, &around].concat();
        Self {
            should: now.clone(),
            now,
            length: lent.len(),
            meaning: vec![],
        }
    }

    pub fn length(&self) -> usize {
        self.length
    }

    pub fn lent(&mut self) -> &mut [u32] {
        &mut self.now[AROUND..][..self.length]
    }

    /// Every word is as it should be.
    pub fn stayed(&self) -> Result<(), Difference> {
        if self.now == self.should {
            return Ok(());
        }
        let place = first_unlike(&self.now, &self.should);
        let what = slots::name(&self.should[AROUND..], place.checked_sub(AROUND));
        let (oracle, library) = (self.should[place], self.now[place]);
        Err(Difference(format!(
            "{what}: oracle {oracle:#x}, library {library:#x}"
        )))
    }

    /// The state's words are as they should be, and no other word has changed. Where the words were not as we write them, one that means
    /// what it should may also stay as it was.
    pub fn became(&mut self, state: &[u32], canonical: bool) -> Result<(), Difference> {
        let now = &self.now[AROUND..][..state.len()];
        let should = &mut self.should[AROUND..][..state.len()];
        if canonical || now == state {
            should.copy_from_slice(state);
            return self.stayed();
        }
        Machine::lent(now).write_words(&mut self.meaning);
        for (index, word) in should.iter_mut().enumerate() {
            let stayed = now[index] == *word && self.meaning.get(index) == Some(&state[index]);
            if !stayed {
                *word = state[index];
            }
        }
        self.stayed()
    }
}

/// Where two begin to differ, that are unlike and equally long.
fn first_unlike<T: PartialEq>(one: &[T], other: &[T]) -> usize {
    let both = one.iter().zip(other);
    both.take_while(|(one, other)| one == other).count()
}

/// A buffer for an image.
pub struct Buffer {
    now: Vec<u8>,
    should: Vec<u8>,
    room: usize,
}

impl Buffer {
    /// Bytes that no image has in a row.
    pub fn new(room: usize) -> Self {
        let now = vec![0xee; room + 2 * AROUND];
        Self {
            should: now.clone(),
            now,
            room,
        }
    }

    pub fn lent(&mut self) -> &mut [u8] {
        &mut self.now[AROUND..][..self.room]
    }

    pub fn should(&mut self) -> &mut [u8] {
        &mut self.should[AROUND..][..self.room]
    }

    /// Every byte is as it should be.
    pub fn same(&self) -> Result<(), Difference> {
        if self.now == self.should {
            return Ok(());
        }
        let place = first_unlike(&self.now, &self.should);
        let (model, library) = (self.should[place], self.now[place]);
        let byte = place as isize - AROUND as isize;
        Err(Difference(format!(
            "byte {byte} of {}: model {model:#x}, library {library:#x}",
            self.room
        )))
    }
}
