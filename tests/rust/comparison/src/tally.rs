//! How much was compared.
use crate::{
    question::Question,
    request::Request,
    slots::{self, EDGE, INFLIGHT, LINE, NOTE, PENDING},
};
use oracle::{
    machine::{Answer, SPURIOUS},
    message_frame::{SETSPI, TYPER},
};
use std::{fmt, ops::AddAssign};

/// Records that writes of ICPENDR may meet: which of these bits, and how they stand. The held ones are level with the line high, and stay as
/// they are but for the note; the others are cleared.
const MET: [(&str, u32, u32); 5] = [
    ("held and pending", PENDING | LINE | EDGE, PENDING | LINE),
    ("held and not pending", PENDING | LINE | EDGE, LINE),
    ("held with a note", NOTE | LINE | EDGE, NOTE | LINE),
    (
        "edge with the line high",
        PENDING | LINE | EDGE,
        PENDING | LINE | EDGE,
    ),
    ("level with the line low", PENDING | LINE | EDGE, PENDING),
];

/// What calls may meet of the summary of the ready, where its bits are false or from the limit up.
const BITS: [&str; 4] = [
    "given though not ready",
    "ready and passed over",
    "set from the limit up in a selection",
    "false and made right",
];

/// What becomes of calls of a message frame; those that ring may be of several kinds.
const MESSAGES: [&str; 11] = [
    "that rang",
    "that rang one in flight",
    "that rang a level one",
    "that woke somebody",
    "that named none of the window",
    "that wrote elsewhere than to SETSPI",
    "that read a window",
    "that 6 refused",
    "that 11 refused",
    "that 1 refused",
    "that 2 refused",
];

#[derive(Clone, Copy, Debug, Default)]
pub struct Tally {
    pub calls: u64,
    pub acknowledges: u64,
    /// Acknowledges by the binary point that the vCPU has.
    pub points: [u64; 8],
    /// Records that writes of ICPENDR met, by their kind.
    pub met: [u64; MET.len()],
    /// What calls met of the summary, by its kind.
    pub bits: [u64; BITS.len()],
    /// Calls of a message frame, by what became of them.
    pub messages: [u64; MESSAGES.len()],
    pub retirements: u64,
    pub wakes: u64,
    /// Answers by their refusal, 0 for none.
    pub refusals: [u64; 12],
    /// Images that were saved, those that were offered, and which of these were loaded.
    pub saved: u64,
    pub offered: u64,
    pub loaded: u64,
    pub questions: u64,
    /// IRQ lines that are up, records that are not 0, questions that are refused.
    pub up: u64,
    pub records: u64,
    pub refused_questions: u64,
}

impl Tally {
    /// The words are those after the call.
    pub fn note(&mut self, request: &Request, answer: &Answer, words: &[u32]) {
        self.calls += 1;
        if let Some(vcpu) = request.acknowledged_by(answer) {
            self.acknowledges += 1;
            self.points[slots::binary_point(words, vcpu)] += 1;
        }
        self.retirements += u64::from(answer.retired != SPURIOUS);
        self.wakes += u64::from(answer.wake != 0);
        self.refusals[usize::from(answer.refusal)] += 1;
        let accepted = u64::from(answer.refusal == 0);
        match request {
            Request::Save { .. } => self.saved += accepted,
            Request::Load(_) => {
                self.offered += 1;
                self.loaded += accepted;
            }
            _ => {}
        }
    }

    /// What an accepted call met that clears pending; the words are those before it.
    pub fn note_clears(&mut self, request: &Request, words: &[u32]) {
        for (_, at) in slots::cleared(words, request) {
            for ((_, bits, stand), count) in MET.iter().zip(&mut self.met) {
                *count += u64::from(words[at] & bits == *stand);
            }
        }
    }

    /// What an accepted call of a controller met of the summary: the words before it, and after it.
    pub fn note_bits(&mut self, request: &Request, answer: &Answer, before: &[u32], after: &[u32]) {
        if matches!(request, Request::Setup { .. } | Request::Load(_)) {
            return;
        }
        let [unready, passed, past, made] = &mut self.bits;
        let exists = |vcpu: &u64| *vcpu < before[0].into();
        if let Some(vcpu) = request.selects().filter(exists) {
            let chosen = answer.value as u32 != SPURIOUS;
            let given = request
                .acknowledged_by(answer)
                .map(|_| answer.value as usize);
            let record = |number| before[slots::record(before, vcpu, number)];
            let is_unready = |number: usize| number >= 32 && !slots::is_ready(record(number));
            let is_passed = |number: usize| number >= 32 && !slots::has_bit(before, number);
            let best = slots::best_by_records(before, vcpu);
            *unready += u64::from(given.map(|it| it % 1024).is_some_and(is_unready));
            *passed += u64::from(best.is_some_and(is_passed));
            *past += u64::from(chosen && slots::has_past(before));
        }
        for (number, at) in (32..).zip(slots::spis(before)) {
            let was = slots::has_bit(before, number);
            let turned = slots::has_bit(after, number) != was;
            *made += u64::from(turned && was != slots::is_ready(before[at]));
        }
    }

    /// What became of a call of a message frame; the words are those before it.
    pub fn note_message(&mut self, request: &Request, answer: &Answer, words: &[u32]) {
        let Some(at) = request.message_frame() else {
            return;
        };
        let accepted = answer.refusal == 0;
        let writes = accepted && matches!(request, Request::WriteMessageFrame(..));
        let rung = request.rings().filter(|_| accepted);
        let record = rung.map_or(0, |number| words[slots::record(words, 0, number)]);
        let kinds = [
            rung.is_some(),
            record & INFLIGHT != 0,
            rung.is_some() && record & EDGE == 0,
            answer.wake != 0,
            writes && at.offset == SETSPI && rung.is_none(),
            writes && at.offset != SETSPI,
            accepted && !writes && at.offset == TYPER,
            answer.refusal == 6,
            answer.refusal == 11,
            answer.refusal == 1,
            answer.refusal == 2,
        ];
        for (count, is_so) in self.messages.iter_mut().zip(kinds) {
            *count += u64::from(is_so);
        }
    }

    /// The first kind of messages that did not come, if there is one.
    pub fn missing_message(&self) -> Option<&'static str> {
        let mut kinds = MESSAGES.iter().zip(self.messages);
        kinds.find(|(_, count)| *count == 0).map(|(kind, _)| *kind)
    }

    /// The first of these that no call met, if there is one.
    pub fn missing_bit(&self) -> Option<&'static str> {
        let mut kinds = BITS.iter().zip(self.bits);
        kinds.find(|(_, count)| *count == 0).map(|(kind, _)| *kind)
    }

    /// The first kind of records that no write of ICPENDR met, if there is one.
    pub fn missing_kind(&self) -> Option<&'static str> {
        let mut kinds = MET.iter().zip(self.met);
        kinds.find(|(_, count)| *count == 0).map(|(kind, _)| kind.0)
    }

    /// The first binary point at which nothing was acknowledged, if there is one.
    pub fn missing_point(&self) -> Option<usize> {
        self.points.iter().position(|count| *count == 0)
    }

    pub fn note_question(&mut self, question: &Question, answer: &Answer) {
        let told = u64::from(answer.value != 0);
        self.questions += 1;
        self.refused_questions += u64::from(answer.refusal != 0);
        match question {
            Question::IrqLevel { .. } => self.up += told,
            Question::Interrupt(_) => self.records += told,
        }
    }
}

impl AddAssign for Tally {
    fn add_assign(&mut self, other: Self) {
        self.calls += other.calls;
        self.acknowledges += other.acknowledges;
        for (point, count) in self.points.iter_mut().zip(other.points) {
            *point += count;
        }
        for (kind, count) in self.met.iter_mut().zip(other.met) {
            *kind += count;
        }
        for (kind, count) in self.bits.iter_mut().zip(other.bits) {
            *kind += count;
        }
        for (kind, count) in self.messages.iter_mut().zip(other.messages) {
            *kind += count;
        }
        self.retirements += other.retirements;
        self.wakes += other.wakes;
        for (number, count) in self.refusals.iter_mut().zip(other.refusals) {
            *number += count;
        }
        self.saved += other.saved;
        self.offered += other.offered;
        self.loaded += other.loaded;
        self.questions += other.questions;
        self.up += other.up;
        self.records += other.records;
        self.refused_questions += other.refused_questions;
    }
}

impl fmt::Display for Tally {
    fn fmt(&self, f: &mut fmt::Formatter) -> fmt::Result {
        let Self {
            calls,
            acknowledges,
            points,
            met,
            bits,
            messages,
            retirements,
            wakes,
            refusals,
            saved,
            offered,
            loaded,
            questions,
            up,
            records,
            refused_questions,
        } = self;
        write!(
            f,
            "{calls} calls ({acknowledges} acknowledges, {retirements} retirements, {wakes} wake sets; binary points"
        )?;
        for (point, count) in points.iter().enumerate() {
            write!(f, " {point}: {count}")?;
        }
        write!(f, "; ICPENDR met")?;
        for ((kind, ..), count) in MET.iter().zip(met) {
            write!(f, " {kind}: {count}")?;
        }
        write!(f, "; bits of the summary")?;
        for (kind, count) in BITS.iter().zip(bits) {
            write!(f, " {kind}: {count}")?;
        }
        write!(f, "; messages")?;
        for (kind, count) in MESSAGES.iter().zip(messages) {
            write!(f, " {kind}: {count}")?;
        }
        write!(f, "; refusals")?;
        for (number, count) in refusals.iter().enumerate().skip(1) {
            write!(f, " {number}: {count}")?;
        }
        write!(
            f,
            "), images: {saved} saved, {offered} offered, {loaded} loaded"
        )?;
        write!(
            f,
            ", {questions} questions ({up} IRQ lines up, {records} records, {refused_questions} refused)"
        )
    }
}
