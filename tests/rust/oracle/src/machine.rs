//! Calls of the running files, answered by the documents' numbers.
use crate::{
    AccessWidth, GicV3Controller, GicVcpuId,
    RegisterRegion::{self, CpuInterface, Distributor},
    VgicError, VgicResult,
    message_frame::FrameAccess,
    register::{GICC_AIAR, GICC_IAR},
    words,
};
use std::{error::Error, fmt, sync::OnceLock};

#[cfg(test)]
mod tests;

pub const SPURIOUS: u32 = 1023;

/// Where a register is read or written, and by whom.
#[derive(Clone, Copy, Debug, PartialEq, Eq)]
pub struct Access {
    pub region: RegisterRegion,
    pub vcpu: u64,
    pub offset: u64,
    pub width: AccessWidth,
}

/// Which interrupt a device works, or is asked for; its vCPU matters to a private one.
#[derive(Clone, Copy, Debug, PartialEq, Eq)]
pub struct Input {
    pub vcpu: u64,
    pub number: u64,
}

#[derive(Clone, Copy, Debug, PartialEq, Eq)]
pub enum Call {
    Setup { count: u64, limit: u64 },
    Read(Access),
    Write(Access, u64),
    SetLevel(Input, bool),
    Pulse(Input),
    ReadMessageFrame(FrameAccess),
    WriteMessageFrame(FrameAccess, u64),
}

#[derive(Clone, Copy, Debug, PartialEq, Eq)]
pub struct Answer {
    pub refusal: u8,
    pub value: u64,
    pub wake: u8,
    pub retired: u32,
}

/// What the oracle found wrong with itself: its answers are not to be trusted.
#[derive(Debug)]
pub struct Fault(String);

#[derive(Default)]
pub struct Machine {
    controller: Option<GicV3Controller>,
}

impl Answer {
    const OK: Self = Self::refused(0);

    pub const fn refused(refusal: u8) -> Self {
        Self {
            refusal,
            value: 0,
            wake: 0,
            retired: SPURIOUS,
        }
    }
}

impl Call {
    fn is_read(&self) -> bool {
        matches!(self, Self::Read(_) | Self::ReadMessageFrame(_))
    }

    /// Of reads only an acknowledge that gives a number may change anything.
    fn may_change(&self, value: u64) -> bool {
        !self.is_read() || self.is_acknowledge() && value != u64::from(SPURIOUS)
    }

    /// What an acknowledge gave, if it gave a number.
    pub fn acknowledged(&self, answer: &Answer) -> Option<u64> {
        let given = answer.refusal == 0 && answer.value != u64::from(SPURIOUS);
        (self.is_acknowledge() && given).then_some(answer.value)
    }

    pub fn is_acknowledge(&self) -> bool {
        matches!(
            self,
            Self::Read(Access {
                region: CpuInterface,
                offset: GICC_IAR | GICC_AIAR,
                ..
            })
        )
    }
}

impl Machine {
    pub fn call(&mut self, call: &Call) -> Result<Answer, Fault> {
        if let Call::Setup { count, limit } = *call {
            return Ok(self.setup(count, limit));
        }
        let Some(gic) = &self.controller else {
            return Ok(Answer::refused(6));
        };
        let before = gic.clone();
        let outcome = perform(gic, call);
        settle(call, outcome, &before, gic)
    }

    /// A refused setup keeps the earlier state. The oracle lends its own state, which is never too short.
    fn setup(&mut self, count: u64, limit: u64) -> Answer {
        if !words::within_limits(count, limit) {
            return Answer::refused(4);
        }
        self.controller = Some(GicV3Controller::new(count as usize, limit as u32));
        Answer::OK
    }

    /// Whether a read of IAR by this vCPU would now give a number.
    pub fn irq_level(&self, vcpu: u64) -> Answer {
        match &self.controller {
            None => Answer::refused(6),
            Some(gic) if vcpu >= gic.vcpu_count() as u64 => Answer::refused(3),
            Some(gic) => Answer {
                value: ready(gic, vcpu as usize).into(),
                ..Answer::OK
            },
        }
    }

    /// An interrupt's record as its word; 0 from the limit up.
    pub fn interrupt(&self, input: Input) -> Answer {
        match &self.controller {
            None => Answer::refused(6),
            Some(gic) => match words::record(&gic.state(), input) {
                Err(_) => Answer::refused(3),
                Ok(word) => Answer {
                    value: word.into(),
                    ..Answer::OK
                },
            },
        }
    }

    pub fn controller(&self) -> Option<&GicV3Controller> {
        self.controller.as_ref()
    }

    /// A machine in the state that lent words mean; where they are no state, it answers 6.
    pub fn lent(words: &[u32]) -> Self {
        Self {
            controller: words::read(words),
        }
    }

    /// Its whole state as the words of docs/STATE.md; none before a setup.
    pub fn write_words(&self, into: &mut Vec<u32>) {
        into.clear();
        if let Some(gic) = &self.controller {
            words::write(&gic.state(), into);
        }
    }
}

/// The value read, 0 for all else.
fn perform(gic: &GicV3Controller, call: &Call) -> VgicResult<u64> {
    let id = |vcpu: u64| GicVcpuId::new(usize::try_from(vcpu).unwrap_or(usize::MAX));
    match *call {
        Call::Setup { .. } => unreachable!("a call of no controller"),
        Call::Read(at) => match at.region {
            Distributor => gic.read_v2_distributor(id(at.vcpu), at.offset, at.width),
            CpuInterface => gic.read_v2_cpu_interface(id(at.vcpu), at.offset, at.width),
        },
        Call::Write(at, value) => match at.region {
            Distributor => gic.write_v2_distributor(id(at.vcpu), at.offset, at.width, value),
            CpuInterface => gic.write_v2_cpu_interface(id(at.vcpu), at.offset, at.width, value),
        }
        .map(|()| 0),
        Call::SetLevel(input, asserted) => gic
            .set_level(id(input.vcpu), input.number, asserted)
            .map(|()| 0),
        Call::Pulse(input) => gic.pulse(id(input.vcpu), input.number).map(|()| 0),
        Call::ReadMessageFrame(at) => gic.read_message_frame(at),
        Call::WriteMessageFrame(at, value) => gic.write_message_frame(at, value).map(|()| 0),
    }
}

/// The answer, unless something has changed or retired that must not.
fn settle(
    call: &Call,
    outcome: VgicResult<u64>,
    before: &GicV3Controller,
    after: &GicV3Controller,
) -> Result<Answer, Fault> {
    let retired = after.take_retired();
    let may_change = outcome.as_ref().is_ok_and(|value| call.may_change(*value));
    let may_retire = may_change && !call.is_read();
    let changed = *after.state() != *before.state();
    if changed && !may_change || retired.is_some() && !may_retire {
        return Err(Fault(format!(
            "{call:?} has changed the state or retired {retired:?}, and was answered {outcome:?}"
        )));
    }
    Ok(match outcome {
        Err(error) => Answer::refused(refusal(&error)?),
        Ok(value) => Answer {
            value,
            // What has not changed gives what it gave.
            wake: if call.is_read() || !changed {
                0
            } else {
                wake_set(before, after)
            },
            retired: retired.map_or(SPURIOUS, |intid| intid.raw()),
            ..Answer::OK
        },
    })
}

/// Document 01's wake set: an IAR read would have given 1023 before, and gives another number now.
/// Few have a number after it, so this is asked first.
fn wake_set(before: &GicV3Controller, after: &GicV3Controller) -> u8 {
    let spurious = u64::from(SPURIOUS);
    (0..after.vcpu_count())
        .filter(|&vcpu| ready(after, vcpu))
        .filter(|&vcpu| try_acknowledge(before, vcpu) == Some(spurious))
        .fold(0, |set, vcpu| set | 1 << vcpu)
}

/// Whether an IAR read by this vCPU would give a number.
fn ready(gic: &GicV3Controller, vcpu: usize) -> bool {
    try_acknowledge(gic, vcpu).is_some_and(|number| number != u64::from(SPURIOUS))
}

/// What an IAR read by this vCPU would give, tried on a copy; no number where it would be refused (by 7).
fn try_acknowledge(gic: &GicV3Controller, vcpu: usize) -> Option<u64> {
    gic.clone()
        .read_v2_cpu_interface(GicVcpuId::new(vcpu), GICC_IAR, AccessWidth::Dword)
        .ok()
}

/// The documents' number of an error.
fn refusal(error: &VgicError) -> Result<u8, Fault> {
    match error {
        VgicError::InvalidAccess { detail, .. } if detail == outside_the_frame() => Ok(1),
        VgicError::OutsideMessageFrame(_) => Ok(1),
        VgicError::InvalidAccess { .. } | VgicError::Width => Ok(2),
        VgicError::NoVcpu(_) => Ok(3),
        VgicError::InvalidStateTransition { .. } => Ok(7),
        VgicError::NoInput(_) => Ok(8),
        VgicError::NoWindow(..) => Ok(11),
        VgicError::NoInterrupt(_) => Err(Fault(format!("{error:?} came through"))),
    }
}

/// What v2.rs says of an access outside the frame: by this its refusals by 1 are told from those by 2.
fn outside_the_frame() -> &'static str {
    static DETAIL: OnceLock<String> = OnceLock::new();
    DETAIL.get_or_init(|| {
        let (vcpu, width) = (GicVcpuId::new(0), AccessWidth::Dword);
        match GicV3Controller::new(1, 32).read_v2_cpu_interface(vcpu, 0x2000, width) {
            Err(VgicError::InvalidAccess { detail, .. }) => detail,
            other => panic!("an access outside the frame: {other:?}"),
        }
    })
}

impl fmt::Display for Fault {
    fn fmt(&self, f: &mut fmt::Formatter) -> fmt::Result {
        f.write_str(&self.0)
    }
}

impl Error for Fault {}
