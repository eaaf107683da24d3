//! What is asked after a call, and changes nothing: whether a vCPU's IRQ line is up, and an interrupt's record.
use crate::request::Request;
use oracle::{
    RegisterRegion::CpuInterface,
    machine::{Answer, Input, Machine},
};
use std::fmt;

#[derive(Clone, Copy, Debug, PartialEq, Eq)]
pub enum Question {
    IrqLevel { vcpu: u64 },
    Interrupt(Input),
}

/// vCPUs and numbers that there are never.
const STRANGERS: [u64; 4] = [8, 256, 1 << 32, u64::MAX];
const NO_NUMBERS: [u64; 4] = [1020, 1023, (1 << 32) + 33, u64::MAX];

impl Question {
    pub fn expected(&self, machine: &Machine) -> Answer {
        match *self {
            Self::IrqLevel { vcpu } => machine.irq_level(vcpu),
            Self::Interrupt(input) => machine.interrupt(input),
        }
    }
}

/// The line of the vCPU that made the call, and the record that it was about; after every 16th call those of all vCPUs as well.
/// The turn counts the calls: it takes the place of chance. A load wakes nobody, so after it every line is asked for.
pub fn after(request: &Request, answer: &Answer, turn: u64, words: &[u32]) -> Vec<Question> {
    if matches!(request, Request::Load(_)) {
        let count = if answer.refusal == 0 {
            words[0].into()
        } else {
            0
        };
        return (0..count).map(|vcpu| Question::IrqLevel { vcpu }).collect();
    }
    let input = about(request, answer, turn);
    let vcpu = input.vcpu;
    let mut questions = vec![Question::IrqLevel { vcpu }, Question::Interrupt(input)];
    if let (&[count, limit, ..], 0) = (words, turn % 16) {
        let (count, limit, turn) = (count.min(8).into(), u64::from(limit), turn / 16);
        let one_of = |numbers: [u64; 4]| numbers[turn as usize % 4];
        let numbers = [
            turn % 32,
            limit.saturating_sub(1),
            limit,
            one_of(NO_NUMBERS),
        ];
        for vcpu in (0..=count).chain([one_of(STRANGERS)]) {
            let input = |number| Question::Interrupt(Input { vcpu, number });
            questions.push(Question::IrqLevel { vcpu });
            questions.extend(numbers.map(input));
        }
    }
    questions
}

/// Who made the call, and the interrupt that it took, ended or worked; another one each time where it tells none.
fn about(request: &Request, answer: &Answer, turn: u64) -> Input {
    let (vcpu, number) = match *request {
        Request::SetLevel(input, _) | Request::Pulse(input) => return input,
        Request::Setup { .. } | Request::Save { .. } | Request::Load(_) => (0, turn),
        Request::Read(at) if at.region == CpuInterface => (at.vcpu, answer.value),
        Request::Write(at, value) if at.region == CpuInterface => (at.vcpu, value),
        Request::Read(at) | Request::Write(at, _) => (at.vcpu, turn),
        // Nobody makes these.
        Request::ReadMessageFrame(at) => (turn % 8, at.window.first),
        Request::WriteMessageFrame(_, value) => (turn % 8, value),
    };
    let number = number % 1024;
    Input { vcpu, number }
}

impl fmt::Display for Question {
    fn fmt(&self, f: &mut fmt::Formatter) -> fmt::Result {
        match self {
            Self::IrqLevel { vcpu } => write!(f, "IRQ line of vCPU {vcpu}"),
            Self::Interrupt(Input { vcpu, number }) => {
                write!(f, "interrupt {number} of vCPU {vcpu}")
            }
        }
    }
}
