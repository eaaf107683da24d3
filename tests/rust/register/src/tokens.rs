//! One token for each access: what v2.rs made of it, told by its answers and by what it asked of the stand-in.
use crate::{
    AccessWidth, GicVcpuId, RegisterRegion, VgicError, VgicResult,
    controller::{GicV3Controller, access},
    log::{self, Call},
    place, served,
};

/// The vCPU that makes every access.
pub const VCPU: u64 = 5;

/// What is written: byte k has bit k alone, so that each shows. By it SGIR sends SGI 1 to vCPU 2, and EOIR and DIR get number 513.
pub const VALUE: u64 = 0x8040_2010_0804_0201;

#[derive(Clone, Copy, Debug)]
pub struct Access {
    pub region: RegisterRegion,
    pub offset: u64,
    pub width: AccessWidth,
}

pub struct Token {
    pub text: String,
    /// v2.rs passed the access on, and the stand-in took the last part of the decision.
    pub passed_on: bool,
}

/// Where v2.rs takes an access: it serves it itself, or passes it on.
#[derive(PartialEq, Eq)]
enum Way {
    Own,
    Shared,
    Private,
}

impl Access {
    pub fn token(self) -> Token {
        let (gic, vcpu) = (GicV3Controller::new(), GicVcpuId::new(VCPU as usize));
        let (offset, width) = (self.offset, self.width);
        let read = match self.region {
            RegisterRegion::Distributor => gic.read_v2_distributor(vcpu, offset, width),
            RegisterRegion::CpuInterface => gic.read_v2_cpu_interface(vcpu, offset, width),
        };
        let read_calls = log::take();
        let write = match self.region {
            RegisterRegion::Distributor => gic.write_v2_distributor(vcpu, offset, width, VALUE),
            RegisterRegion::CpuInterface => gic.write_v2_cpu_interface(vcpu, offset, width, VALUE),
        };
        let write_calls = log::take();
        self.answer(&read, &write)
            .and_then(|answer| self.recognise(answer, &read_calls, &write_calls))
            .unwrap_or_else(|| {
                panic!(
                    "{self:?} is not known: \
                     read {read:?} by {read_calls:?}, write {write:?} by {write_calls:?}"
                )
            })
    }

    /// The value that was read, or the refusal on which read and write agree.
    fn answer(self, read: &VgicResult<u64>, write: &VgicResult) -> Option<Result<u64, u64>> {
        match (read, write) {
            (Ok(value), Ok(())) => Some(Ok(*value)),
            (Err(read), Err(write)) => {
                let number = self.refusal(read, "read")?;
                (self.refusal(write, "write")? == number).then_some(Err(number))
            }
            _ => None,
        }
    }

    fn refusal(self, error: &VgicError, operation: &'static str) -> Option<u64> {
        access::refusal(error, self.region, self.offset, self.width, operation)
    }

    fn recognise(self, answer: Result<u64, u64>, read: &[Call], write: &[Call]) -> Option<Token> {
        let way = self.way(read, write);
        if self.region == RegisterRegion::Distributor && answer != Err(1) {
            assert_eq!(
                access::is_private(self.offset),
                way == Way::Private,
                "{self:?}: is_private_register and the way taken, read by {read:?}, write by {write:?}"
            );
        }
        let text = match (&way, answer) {
            (Way::Own, Ok(value)) => served::name(self, value, read, write)?,
            (Way::Own, Err(_)) if !(read.is_empty() && write.is_empty()) => return None,
            (_, Ok(_)) => place::show(self.offset),
            (_, Err(number)) => number.to_string(),
        };
        let prefix = if way == Way::Private { "own:" } else { "" };
        Some(Token {
            text: format!("{prefix}{text}"),
            passed_on: way != Way::Own,
        })
    }

    /// An access is passed on where both its read and its write go on to the stand-in as they came.
    fn way(self, read: &[Call], write: &[Call]) -> Way {
        let here = [self.offset, self.width.size() as u64];
        match (&log::view(read)[..], &log::view(write)[..]) {
            ([("read_distributor", r)], [("write_distributor", [w @ .., VALUE])])
                if *r == here && *w == here =>
            {
                Way::Shared
            }
            (
                [
                    ("read GICv2 private Distributor register", [VCPU]),
                    ("read_private_register", r),
                ],
                [
                    ("write GICv2 private Distributor register", [VCPU]),
                    ("write_private_register", [w @ .., VALUE]),
                ],
            ) if *r == here && *w == here => Way::Private,
            _ => Way::Own,
        }
    }
}
