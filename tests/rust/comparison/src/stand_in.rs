//! That a comparison passes what is equal and finds what is not: the oracle itself in a library's place, as it is and spoiled; and for images
//! the plain writer and reader of tests/rust/simple, which are held to the second writing by this.
use crate::{
    Library, Mix, images,
    pair::Pair,
    question::Question,
    report::Case,
    request::{Request, packed},
    run, run_with_messages,
    slots::{exact, places, put},
    tally::Tally,
    wrong::{self, Spoil},
};
use oracle::{
    RegisterRegion::{CpuInterface, Distributor},
    machine::{Answer, Input, Machine},
    register::{GICC_EOIR, GICC_IAR, GICD_ITARGETSR},
    words::{HEADER, STACK, VCPU, size, within_limits},
};
use simple::image;

/// What it does to the answer of a question.
type Lie = fn(&Question, &[u32], &mut u64);

/// What it does in the place of a save or load.
type Move = fn(&mut [u32], &mut [u8], &Request) -> u64;

struct StandIn {
    spoil: Spoil,
    lie: Lie,
    moved: Move,
}

const CALLS: u64 = 50_000;

impl Library for StandIn {
    fn state_words(&self, count: u64, limit: u64) -> u64 {
        if within_limits(count, limit) {
            size(count as usize, limit as usize) as u64
        } else {
            0
        }
    }

    fn image_bytes(&self, count: u64, limit: u64) -> u64 {
        match (u32::try_from(count), u32::try_from(limit)) {
            (Ok(count), Ok(limit)) => image::room(count, limit).unwrap_or(0) as u64,
            _ => 0,
        }
    }

    fn image_shape(&self, image: &[u8]) -> u64 {
        let shape = image::shape(image);
        told(shape.map(|(count, limit)| count + 65536 * limit))
    }

    fn call(&self, words: &mut [u32], buffer: &mut [u8], request: &Request) -> u64 {
        let before = words.to_vec();
        let mut given = match request {
            Request::Save { .. } | Request::Load(_) => (self.moved)(words, buffer, request),
            _ => packed(&self.answer(words, request)),
        };
        (self.spoil)(request, &before, &mut given, words);
        given
    }

    fn ask(&self, words: &[u32], question: &Question) -> u64 {
        let mut given = packed(&question.expected(&Machine::lent(words)));
        (self.lie)(question, words, &mut given);
        given
    }
}

impl StandIn {
    const SOUND: Self = Self {
        spoil: |_, _, _, _| {},
        lie: |_, _, _| {},
        moved: plain,
    };

    fn answer(&self, words: &mut [u32], request: &Request) -> Answer {
        let Some(call) = request.call() else {
            return Answer::refused(2);
        };
        if let Request::Setup { count, limit } = *request
            && self.state_words(count, limit) > words.len() as u64
        {
            return Answer::refused(5);
        }
        let (mut machine, mut after) = (Machine::lent(words), vec![]);
        let answer = machine.call(&call).unwrap();
        machine.write_words(&mut after);
        if matches!(request, Request::Setup { .. }) && answer.refusal == 0 {
            words[..after.len()].copy_from_slice(&after);
        }
        put(words, &after);
        answer
    }
}

/// The plain writer and reader.
fn plain(words: &mut [u32], buffer: &mut [u8], request: &Request) -> u64 {
    match request {
        Request::Save { .. } => told(image::save(words, buffer)),
        Request::Load(image) => told(image::load(words, image).map(|()| 0)),
        _ => unreachable!("no call of an image"),
    }
}

fn told(answer: Result<usize, simple::Refusal>) -> u64 {
    match answer {
        Ok(value) => value as u64 | 1023 << 32,
        Err(refusal) => (refusal as u64) << 56 | 1023 << 32,
    }
}

#[test]
fn what_is_equal_passes() {
    let all = passes(run(&StandIn::SOUND, 1, CALLS));
    let documents = &all.refusals[..11];
    assert!(documents.iter().all(|count| *count > 20), "{all}");
    assert_eq!((all.messages, all.refusals[11]), Default::default());
}

#[test]
fn what_is_equal_with_messages_passes() {
    let all = passes(run_with_messages(&StandIn::SOUND, 1, CALLS));
    assert!(all.refusals.iter().all(|count| *count > 20), "{all}");
}

/// No difference, and enough of each kind of calls in each part; and in all of them, which is told.
fn passes(tallies: Result<Vec<(&'static str, Tally)>, Case>) -> Tally {
    let tallies = tallies.unwrap_or_else(|case| panic!("{}", case.text()));
    let messages = tallies.iter().any(|(name, _)| *name == "messages");
    for (name, tally) in &tallies[1..] {
        if *name == "images" {
            assert!(tally.saved > 300 && tally.loaded > 2000, "{tally}");
            continue;
        }
        assert!(tally.calls >= CALLS / 10, "{name}: {tally}");
        assert!(tally.acknowledges > 50, "{name}: {tally}");
        assert!(tally.retirements > 20, "{name}: {tally}");
        assert!(tally.wakes > 50, "{name}: {tally}");
        assert!(tally.up > 500, "{name}: {tally}");
        assert!(tally.records > 500, "{name}: {tally}");
        assert!(tally.refused_questions > 500, "{name}: {tally}");
        if ["histories", "lent words"].contains(name) {
            assert!(tally.points.iter().all(|count| *count > 50), "{tally}");
            assert!(tally.met.iter().all(|count| *count > 10), "{tally}");
        }
        if messages && ["histories", "messages"].contains(name) {
            let messages = &tally.messages;
            assert!(messages.iter().all(|count| *count > 10), "{name}: {tally}");
        }
        if *name == "lent words" {
            assert!(tally.bits.iter().all(|count| *count > 20), "{tally}");
            assert!(!messages || tally.missing_message().is_none(), "{tally}");
        }
    }
    let mut all = Tally::default();
    tallies.into_iter().for_each(|(_, tally)| all += tally);
    all
}

/// Found, and told by at most so many calls.
fn found_in(library: StandIn, at_most: usize) {
    let case = run(&library, 1, CALLS).expect_err("a spoiled library");
    let case = case.shrunk(&library);
    assert!(case.requests.len() <= at_most, "{}", case.text());
}

fn found(at_most: usize, spoil: Spoil) {
    let sound = StandIn::SOUND;
    found_in(StandIn { spoil, ..sound }, at_most);
}

/// Where images are played alone.
fn found_moving(at_most: usize, moved: Move) {
    let sound = StandIn::SOUND;
    let library = StandIn { moved, ..sound };
    let mut pair = Pair::new(&library);
    let difference = images::play(&mut pair, Mix::Plain, 1, CALLS).expect_err("a spoiled library");
    let case = Case::of(&pair, difference).shrunk(&library);
    assert!(case.requests.len() <= at_most, "{}", case.text());
}

fn found_out(at_most: usize, lie: Lie) {
    let sound = StandIn::SOUND;
    found_in(StandIn { lie, ..sound }, at_most);
}

fn is_read(request: &Request) -> bool {
    matches!(request, Request::Read(_))
}

#[test]
fn a_wrong_answer_is_found() {
    // A value, a wake bit, a retired number, a refusal; a refusal with a value.
    found(9, |_, _, given, _| *given ^= u64::from(*given as u32 == 5));
    found(9, |_, _, given, _| *given &= !(2 << 48));
    found(12, |_, _, given, _| *given |= 1023 << 32);
    found(3, |_, _, given, _| {
        if *given >> 56 == 3 {
            *given ^= 1 << 56;
        }
    });
    found(3, |_, _, given, _| *given |= u64::from(*given >> 56 == 6));
}

#[test]
fn a_wrong_line_is_found() {
    // Down; up while the Distributor is off; up while the stack is full; one vCPU's down; refused by 3 for 6; a stranger's not refused; by the
    // records, where a bit is false.
    found_out(5, |question, _, given| {
        if matches!(question, Question::IrqLevel { .. }) {
            *given &= !1;
        }
    });
    found_out(3, |question, words, given| {
        if let (Question::IrqLevel { vcpu: 0 }, [1..=8, 32..=1020, 0, ..]) = (question, words) {
            *given |= u64::from(*given >> 56 == 0);
        }
    });
    found_out(1, |question, words, given| {
        if let (Question::IrqLevel { vcpu: 0 }, Some(128)) = (question, words.get(HEADER + 3)) {
            *given |= u64::from(*given >> 56 == 0);
        }
    });
    found_out(7, |question, _, given| {
        if matches!(question, Question::IrqLevel { vcpu: 3 }) {
            *given &= !1;
        }
    });
    found_out(1, |_, _, given| {
        if *given >> 56 == 6 {
            *given ^= 5 << 56;
        }
    });
    found_out(2, |question, words, given| {
        if matches!(question, Question::IrqLevel { .. })
            && words.get(2) == Some(&0)
            && *given >> 56 == 3
        {
            *given ^= 3 << 56;
        }
    });
    found_out(1, |question, words, given| {
        if matches!(question, Question::IrqLevel { .. }) && *given >> 56 == 0 {
            *given = packed(&question.expected(&Machine::lent(&exact(words))));
        }
    });
}

#[test]
fn a_wrong_record_is_found() {
    // A flag left out; another vCPU's; a mask that is not set; an SPI refused for its vCPU; a record at the limit.
    found_out(8, |question, _, given| {
        if matches!(question, Question::Interrupt(_)) {
            *given &= !0x10;
        }
    });
    found_out(2, |question, words, given| {
        if let Question::Interrupt(Input {
            vcpu: 1,
            number: number @ 0..32,
        }) = question
            && *given >> 56 == 0
        {
            let first = words[HEADER + 20 + *number as usize];
            *given = *given & !0xff7f | u64::from(first & 0xff7f);
        }
    });
    found_out(1, |question, words, given| {
        if let Question::Interrupt(Input { number: 32, .. }) = question
            && *given >> 56 == 0
            && words[1] > 32
        {
            *given |= u64::from(words[HEADER + VCPU * words[0] as usize] & 0x00ff_0000);
        }
    });
    found_out(2, |question, words, given| {
        if let Question::Interrupt(Input {
            vcpu: 8..,
            number: 32..1020,
        }) = question
            && words.len() > 2
            && *given >> 56 == 0
        {
            *given = 3 << 56 | 1023 << 32;
        }
    });
    found_out(2, |question, words, given| {
        if let Question::Interrupt(Input { number, .. }) = question
            && words
                .get(1)
                .is_some_and(|limit| *number == u64::from(*limit))
        {
            *given |= u64::from(*given >> 56 == 0);
        }
    });
}

#[test]
fn a_wrong_word_is_found() {
    // A read that writes, a refused call that writes, a record's owner kept, a word past the state, a bit that counts for nothing.
    found(3, |request, _, _, words| {
        if let ([_, _, on, ..], true) = (words, is_read(request)) {
            *on ^= 1;
        }
    });
    found(2, |_, _, given, words| {
        if let (Some(last), true) = (words.last_mut(), *given >> 56 == 6) {
            *last ^= 1 << 31;
        }
    });
    found(12, |_, before, given, words| {
        let retired = (*given >> 32 & 1023) as usize;
        if retired < 16 && words.len() > 100 {
            let at = HEADER + 20 + retired;
            words[at] |= before[at] & 0xff00_0000;
        }
    });
    found(2, |_, _, given, words| {
        let length = words.len();
        if length > size(1, 32) && words[..2] == [1, 32] && *given >> 56 == 0 {
            words[length - 1] = 7;
        }
    });
    found(2, |request, before, _, words| {
        if before != words && !is_read(request) {
            words[2] |= 2;
        }
    });
}

#[test]
fn a_popped_entry_that_is_left_is_found() {
    found(12, |_, before, _, words| {
        let depth = HEADER + 3;
        if words.len() < size(1, 32) || words[0] != before[0] || words[depth] >= before[depth] {
            return;
        }
        let stack = size(words[0] as usize, words[1] as usize) - STACK * words[0] as usize;
        let popped = stack + words[depth] as usize;
        words[popped] = before[popped];
    });
}

#[test]
fn a_rule_that_only_lent_words_show_is_found() {
    // A depth of 128 taken for too deep.
    found(2, |_, before, given, words| {
        let depth = before.get(HEADER + 3);
        if depth == Some(&128) && before.len() >= size(1, 32) && before[0] == 1 {
            words.copy_from_slice(before);
            *given = 6 << 56 | 1023 << 32;
        }
    });
    // A vCPU's depth that is not looked at.
    found(1, |_, before, given, _| {
        let second = before.get(HEADER + VCPU + 3).copied().unwrap_or(0);
        if before.first() == Some(&2) && second > 128 && *given >> 56 == 6 {
            *given = 1023 << 32;
        }
    });
}

/// What no call may have done, where a load was accepted: the words as they were before it, and now.
fn after_load(
    words: &mut [u32],
    buffer: &mut [u8],
    request: &Request,
    change: fn(&[u32], &mut [u32]),
) -> u64 {
    let before = words.to_vec();
    let given = plain(words, buffer, request);
    if matches!(request, Request::Load(_)) && given >> 56 == 0 {
        change(&before, words);
    }
    given
}

#[test]
fn a_wrong_save_is_found() {
    // A byte written though there is no room; one past the image; an unlawful state saved; refused by 9 for 10; a length too many.
    found_moving(3, |words, buffer, request| {
        let given = plain(words, buffer, request);
        if let (Some(first), 10) = (buffer.first_mut(), given >> 56) {
            *first = 1;
        }
        given
    });
    found_moving(3, |words, buffer, request| {
        let given = plain(words, buffer, request);
        if let Some(past) = buffer.get_mut(given as u32 as usize)
            && given >> 56 == 0
        {
            *past = 0;
        }
        given
    });
    found_moving(1, |words, buffer, request| {
        let pends = |sgi: usize| {
            let sources = words[HEADER + 4 + sgi] & 0xff;
            sources == 0 && words[HEADER + 20 + sgi] & 0xff == 0x43
        };
        let sourceless = words.len() > HEADER + VCPU && (0..16).any(pends);
        let given = plain(words, buffer, request);
        if given >> 56 == 9 && sourceless {
            1023 << 32
        } else {
            given
        }
    });
    found_moving(3, |words, buffer, request| {
        let given = plain(words, buffer, request);
        given ^ (u64::from(given >> 56 == 10) * (3 << 56))
    });
    found_moving(3, |words, buffer, request| {
        let given = plain(words, buffer, request);
        given + u64::from(given as u32 != 0)
    });
}

#[test]
fn what_is_no_image_and_is_taken_is_found() {
    // A byte after the end; a number in more groups than it needs; one that is cut to a bit.
    found_moving(1, |words, buffer, request| {
        match (plain(words, buffer, request), request) {
            (given, Request::Load(image)) if given >> 56 == 9 && image.last() == Some(&0) => plain(
                words,
                buffer,
                &Request::Load(image[..image.len() - 1].into()),
            ),
            (given, _) => given,
        }
    });
    found_moving(1, |words, buffer, request| {
        match (plain(words, buffer, request), request) {
            (given, Request::Load(image)) if given >> 56 == 9 => {
                let longer = image
                    .windows(2)
                    .position(|two| two[0] >= 128 && two[1] == 0);
                let shorter = longer.map(|at| {
                    let group = [image[at] - 128];
                    [&image[..at], &group, &image[at + 2..]].concat()
                });
                shorter.map_or(given, |it| plain(words, buffer, &Request::Load(it.into())))
            }
            (given, _) => given,
        }
    });
    found_moving(1, |words, buffer, request| {
        match (plain(words, buffer, request), request) {
            (given, Request::Load(image)) if given >> 56 == 9 => match image[..] {
                [_, _, _, number @ (2 | 3), ref rest @ ..] => {
                    let cut = [&image[..3], &[number & 1], rest].concat();
                    plain(words, buffer, &Request::Load(cut.into()))
                }
                _ => given,
            },
            (given, _) => given,
        }
    });
}

#[test]
fn a_wrong_load_is_found() {
    // A private owner forgotten; the unset mark taken for a mask of 0; an old entry left on a stack; a refused load that writes.
    found_moving(2, |words, buffer, request| {
        after_load(words, buffer, request, |_, words| {
            let own = &mut words[HEADER + 20..HEADER + VCPU];
            own.iter_mut().for_each(|word| *word &= 0x00ff_ffff);
        })
    });
    found_moving(1, |words, buffer, request| {
        after_load(words, buffer, request, |_, words| {
            if words[1] > 32 {
                words[HEADER + VCPU * words[0] as usize] |= 0x80;
            }
        })
    });
    found_moving(1, |words, buffer, request| {
        after_load(words, buffer, request, |before, words| {
            let (own, stack) = places(words, 0);
            let dead = stack + words[own + 3] as usize;
            words[dead] = before[dead];
        })
    });
    found_moving(1, |words, buffer, request| {
        let given = plain(words, buffer, request);
        if let (Some(last), 9) = (words.last_mut(), given >> 56) {
            *last ^= 1;
        }
        given
    });
}

#[test]
fn a_request_taken_wrong_is_found() {
    for wrong in wrong::controllers() {
        let (spoil, sound) = (wrong.spoil, StandIn::SOUND);
        let library = StandIn { spoil, ..sound };
        let case = run(&library, 1, CALLS).expect_err(wrong.what);
        wrong.is_told(wrong.at_most, &case.shrunk(&library));
    }
}

#[test]
fn a_request_taken_wrong_is_found_among_messages() {
    for wrong in wrong::controllers().chain(wrong::of_messages()) {
        let (spoil, sound) = (wrong.spoil, StandIn::SOUND);
        let library = StandIn { spoil, ..sound };
        let case = run_with_messages(&library, 1, CALLS).expect_err(wrong.what);
        wrong.is_told(wrong.among_messages, &case.shrunk(&library));
    }
}

// What document 01 calls tempting and wrong.

#[test]
fn an_sgis_pending_bit_cleared_at_its_first_acknowledge_is_found() {
    found(12, |request, _, given, words| {
        if let Request::Read(at) = request
            && (at.region, at.offset, *given >> 56) == (CpuInterface, GICC_IAR, 0)
            && *given & 1023 < 16
        {
            let number = *given as usize & 1023;
            words[places(words, at.vcpu).0 + 20 + number] &= !2;
        }
    });
}

#[test]
fn a_target_that_does_not_exist_is_found() {
    found(3, |request, _, given, words| {
        if let Request::Write(at, value) = request
            && (at.region, at.width, *given >> 56) == (Distributor, 1, 0)
            && (GICD_ITARGETSR + 32..GICD_ITARGETSR + u64::from(words[1])).contains(&at.offset)
        {
            let number = (at.offset - GICD_ITARGETSR) as usize - 32;
            let spis = HEADER + VCPU * words[0] as usize;
            words[spis + number] |= (*value as u32 & 0xff) << 16;
        }
    });
}

#[test]
fn an_older_entry_removed_is_found() {
    found(30, |request, before, given, words| {
        if let Request::Write(at, value) = request
            && (at.region, at.offset, *given >> 56) == (CpuInterface, GICC_EOIR, 0)
            && at.vcpu < u64::from(words[0])
        {
            let (own, stack) = places(words, at.vcpu);
            let depth = words[own + 3] as usize;
            let served = &mut words[stack..stack + depth];
            let same = |word: &u32| u64::from(*word) & 1023 == *value & 1023;
            let older = served.iter().position(same);
            if let (Some(index), true) = (older, before[own + 3] == depth as u32) {
                served[index..].rotate_left(1);
                served[depth - 1] = 0;
                words[own + 3] -= 1;
            }
        }
    });
}
