//! The library and the oracle side by side.
use crate::{
    Difference, Library,
    memory::{Buffer, Memory},
    question::{self, Question},
    request::{Request, packed, shown},
    tally::Tally,
};
use model::{gic, image, message};
use oracle::{
    lines,
    machine::{Answer, Call, Machine},
    words::{size, within_limits},
};

pub struct Pair<'a, L> {
    library: &'a L,
    machine: Machine,
    memory: Memory,
    /// No word has a bit that counts for nothing: so from an accepted setup on.
    canonical: bool,
    state: Vec<u32>,
    /// The words as they were lent, and every call of them since.
    pub start: Vec<u32>,
    pub requests: Vec<Request>,
    /// What was saved last.
    pub image: Vec<u8>,
    /// What was answered otherwise, if it was a question; in a replay it is what is asked after every call.
    pub wrong: Option<Question>,
    replay: bool,
    pub tally: Tally,
}

impl<'a, L: Library> Pair<'a, L> {
    /// Lends no words at first.
    pub fn new(library: &'a L) -> Self {
        Self {
            library,
            machine: Machine::default(),
            memory: Memory::new(&[]),
            canonical: false,
            state: vec![],
            start: vec![],
            requests: vec![],
            image: vec![],
            wrong: None,
            replay: false,
            tally: Tally::default(),
        }
    }

    /// To make calls again: after each this is asked, if anything, and no more.
    pub fn replay(library: &'a L, wrong: Option<Question>) -> Self {
        Self {
            wrong,
            replay: true,
            ..Self::new(library)
        }
    }

    /// Lends other words, whatever they are.
    pub fn lend(&mut self, words: Vec<u32>) {
        self.machine = Machine::lent(&words);
        self.memory = Memory::new(&words);
        self.canonical = false;
        self.requests.clear();
        self.start = words;
    }

    pub fn words(&mut self) -> &[u32] {
        self.memory.lent()
    }

    /// How many bytes the library says are enough for an image of these words.
    pub fn room(&mut self) -> usize {
        match *self.words() {
            [count, limit, ..] => self.library.image_bytes(count.into(), limit.into()) as usize,
            _ => 0,
        }
    }

    /// Makes the call of both; the oracle's answer, if all is equal.
    pub fn call(&mut self, request: &Request) -> Result<Answer, Difference> {
        self.requests.push(request.clone());
        // What a call meets is known before it, and whether it is accepted after it. Bits are false in lent words alone.
        let is_message = request.message_frame().is_some();
        let meets = request.clears().is_some() || is_message || !self.canonical;
        let before = meets.then(|| self.words().to_vec());
        let answer = match request {
            Request::Save { room } => self.save(request, *room)?,
            Request::Load(image) => self.load(request, image)?,
            _ => self.call_oracle(request)?,
        };
        self.tally.note(request, &answer, self.memory.lent());
        if let (Some(before), true) = (&before, is_message) {
            self.tally.note_message(request, &answer, before);
            self.second_writing(request, &answer, before)?;
        }
        if let (Some(before), 0) = (before, answer.refusal) {
            self.tally.note_clears(request, &before);
            let after = self.memory.lent();
            self.tally.note_bits(request, &answer, &before, after);
        }
        self.ask_after(request, &answer)?;
        Ok(answer)
    }

    fn call_oracle(&mut self, request: &Request) -> Result<Answer, Difference> {
        let answer = self.expect(request);
        let given = self.library.call(self.memory.lent(), &mut [], request);
        same(given, &answer)?;
        if may_change(request, &answer) {
            self.machine.write_words(&mut self.state);
            self.memory.became(&self.state, self.canonical)?;
        } else {
            self.memory.stayed()?;
        }
        if let Request::Setup { count, limit } = *request {
            self.ask_size(count, limit)?;
        }
        Ok(answer)
    }

    /// The second writing answers a message as the oracle has, and leaves of the words what means the same. It has no widths that are none.
    fn second_writing(
        &mut self,
        request: &Request,
        expected: &Answer,
        before: &[u32],
    ) -> Result<(), Difference> {
        let Some(at) = request.message_frame() else {
            return Ok(());
        };
        if lines::width(at.width).is_none() {
            return Ok(());
        }
        let (first, count) = (at.window.first, at.window.count);
        let mut after = before.to_vec();
        let given = answer(match *request {
            Request::WriteMessageFrame(_, value) => {
                message::write(&mut after, first, count, at.offset, at.width, value)
            }
            _ => message::read(&after, first, count, at.offset, at.width),
        });
        if given != *expected {
            return Err(Difference(format!(
                "oracle {expected}, second writing {given}"
            )));
        }
        let mut meaning = vec![];
        Machine::lent(&after).write_words(&mut meaning);
        self.machine.write_words(&mut self.state);
        if meaning != self.state {
            return Err(Difference("other words in the second writing".into()));
        }
        Ok(())
    }

    /// The same bytes in the buffer, past the image too, and every word as it was; no image is longer than the library says.
    fn save(&mut self, request: &Request, room: usize) -> Result<Answer, Difference> {
        let (words, mut buffer) = (self.memory.lent(), Buffer::new(room));
        let answer = answer(image::save(words, buffer.should()));
        let given = self.library.call(words, buffer.lent(), request);
        same(given, &answer)?;
        buffer.same()?;
        if answer.refusal == 0 {
            self.image = buffer.lent()[..answer.value as usize].to_vec();
            let most = self.library.image_bytes(words[0].into(), words[1].into());
            if most < answer.value {
                let length = answer.value;
                return Err(Difference(format!(
                    "{length} bytes, and library says {most}"
                )));
            }
        }
        self.memory.stayed()?;
        Ok(answer)
    }

    /// The same words, or every word as it was; from then on the oracle goes on with them.
    fn load(&mut self, request: &Request, image: &[u8]) -> Result<Answer, Difference> {
        let shape = self.library.image_shape(image);
        let shape = same(shape, &answer(image::shape(image)));
        shape.map_err(|Difference(why)| Difference(format!("shape: {why}")))?;
        let mut after = self.memory.lent().to_vec();
        let answer = answer(image::load(&mut after, image));
        let given = self.library.call(self.memory.lent(), &mut [], request);
        same(given, &answer)?;
        if answer.refusal != 0 {
            self.memory.stayed()?;
            return Ok(answer);
        }
        self.machine = Machine::lent(&after);
        self.canonical = true;
        self.machine.write_words(&mut self.state);
        assert!(after.starts_with(&self.state), "the oracle reads otherwise");
        self.memory.became(&self.state, true)?;
        Ok(answer)
    }

    /// Asks both; a question that writes is found out at the next call, and where much is asked at once.
    fn ask_after(&mut self, request: &Request, answer: &Answer) -> Result<(), Difference> {
        let questions = if self.replay {
            self.wrong.into_iter().collect()
        } else {
            question::after(request, answer, self.tally.calls, self.memory.lent())
        };
        for question in &questions {
            self.ask(question)?;
        }
        if self.replay || questions.len() > 2 {
            self.memory.stayed()?;
        }
        Ok(())
    }

    fn ask(&mut self, question: &Question) -> Result<(), Difference> {
        let expected = question.expected(&self.machine);
        let given = self.library.ask(self.memory.lent(), question);
        self.tally.note_question(question, &expected);
        if given == packed(&expected) {
            return Ok(());
        }
        self.wrong = Some(*question);
        let given = shown(given);
        Err(Difference(format!(
            "{question}: oracle {expected}, library {given}"
        )))
    }

    /// The oracle's answer. It has words of its own, and its widths are right: those refusals are ours to give.
    fn expect(&mut self, request: &Request) -> Answer {
        let Some(call) = request.call() else {
            return Answer::refused(2);
        };
        if let Call::Setup { count, limit } = call
            && within_limits(count, limit)
        {
            if size(count as usize, limit as usize) > self.memory.length() {
                return Answer::refused(5);
            }
            self.canonical = true;
        }
        let answer = self.machine.call(&call);
        answer.unwrap_or_else(|fault| panic!("the oracle: {fault}"))
    }

    /// How long an image may be is the library's to say; it has to be little enough, and 0 where there is none.
    fn ask_size(&self, count: u64, limit: u64) -> Result<(), Difference> {
        let (expected, bytes) = if within_limits(count, limit) {
            (size(count as usize, limit as usize) as u64, 1..=MOST_BYTES)
        } else {
            (0, 0..=0)
        };
        let words = self.library.state_words(count, limit);
        if words != expected {
            return Err(Difference(format!(
                "words of a state: {expected}, library {words}"
            )));
        }
        let most = self.library.image_bytes(count, limit);
        if !bytes.contains(&most) {
            return Err(Difference(format!("an image's bytes: library {most}")));
        }
        Ok(())
    }
}

/// No image takes more, of whatever shape.
const MOST_BYTES: u64 = 16 << 10;

fn same(given: u64, answer: &Answer) -> Result<(), Difference> {
    if given == packed(answer) {
        return Ok(());
    }
    let given = shown(given);
    Err(Difference(format!("oracle {answer}, library {given}")))
}

/// The model's answer as the oracle would give it.
fn answer(it: gic::Answer) -> Answer {
    Answer {
        refusal: it.refusal as u8,
        value: it.value,
        wake: it.wake as u8,
        retired: it.retired as u32,
    }
}

/// The oracle watches itself that a refused call, and a read that gives no interrupt, changes nothing.
fn may_change(request: &Request, answer: &Answer) -> bool {
    let read = matches!(request, Request::Read(_) | Request::ReadMessageFrame(_));
    answer.refusal == 0 && (!read || request.acknowledged_by(answer).is_some())
}
