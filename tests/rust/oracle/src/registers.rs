//! The bit registers and priority bytes, which v2.rs passes on: document 01, "Distributor places".
use crate::{
    AccessWidth, GicVcpuId, IntId, InterruptRecord, Priority, TriggerMode, VgicError, VgicResult,
    access,
    register::{BitRegister, Place},
};
use std::{
    ops::{Deref, DerefMut, Range},
    rc::Rc,
};

/// A record with what document 01 has in place of a delivery slot: who serves it.
#[derive(Clone)]
pub(crate) struct Interrupt {
    pub record: InterruptRecord,
    pub owner: Option<GicVcpuId>,
}

impl Interrupt {
    pub fn new(intid: IntId) -> Self {
        let trigger = match intid {
            IntId::Sgi(_) => TriggerMode::Edge,
            _ => TriggerMode::Level,
        };
        Self {
            record: InterruptRecord::new(intid, trigger),
            owner: None,
        }
    }

    pub fn inflight(&self) -> bool {
        access::parts(&self.record).inflight
    }

    pub fn is_sgi(&self) -> bool {
        matches!(self.record.intid(), IntId::Sgi(_))
    }

    /// Enabled, pending, not active; the mask is its caller's to test. An SPI has a bit that says this (document 02, Five).
    pub fn ready(&self) -> bool {
        self.record.deliverable() && !self.record.active()
    }
}

impl PartialEq for Interrupt {
    fn eq(&self, other: &Self) -> bool {
        self.owner == other.owner && access::parts(&self.record) == access::parts(&other.record)
    }
}

/// Interrupts in a row. Every call is tried on copies of the state, and these share them until one is changed.
#[derive(Clone)]
pub(crate) struct Interrupts(Rc<[Interrupt]>);

impl Interrupts {
    /// Fresh ones, of these numbers.
    pub fn new(numbers: Range<u32>) -> Self {
        let intid = |raw| IntId::new(raw).expect("a limit of at most 1020");
        Self(numbers.map(|raw| Interrupt::new(intid(raw))).collect())
    }
}

impl Deref for Interrupts {
    type Target = [Interrupt];

    fn deref(&self) -> &[Interrupt] {
        &self.0
    }
}

impl DerefMut for Interrupts {
    fn deref_mut(&mut self) -> &mut [Interrupt] {
        Rc::make_mut(&mut self.0)
    }
}

impl PartialEq for Interrupts {
    fn eq(&self, other: &Self) -> bool {
        Rc::ptr_eq(&self.0, &other.0) || self.0 == other.0
    }
}

/// Interrupts by their number: the Distributor's SPIs, or a vCPU's own.
pub(crate) trait Bank {
    fn find(&self, number: u32) -> Option<&Interrupt>;
    /// Calls transitions of an interrupt that is in the bank, and stores what they leave, also where that is what was there.
    fn transit<T>(
        &mut self,
        number: u32,
        transitions: impl FnOnce(&mut Interrupt) -> T,
    ) -> Option<T>;
}

/// Numbers that are not in the bank read 0.
pub(crate) fn read(bank: &impl Bank, offset: u64, width: AccessWidth) -> VgicResult<u64> {
    match Place::at(offset) {
        Place::Bits(register, first) => {
            allow(width == AccessWidth::Dword)?;
            Ok((0..32).fold(0, |value, bit| {
                let number = first + bit / bits_each(register);
                let set = bank
                    .find(number)
                    .is_some_and(|it| read_bit(register, bit, &it.record));
                value | u64::from(set) << bit
            }))
        }
        Place::Priority(first) => {
            allow(width != AccessWidth::Qword)?;
            Ok((0..width.size() as u32).fold(0, |value, byte| {
                let priority = bank
                    .find(first + byte)
                    .map_or(0, |it| it.record.priority().raw());
                value | u64::from(priority) << (8 * byte)
            }))
        }
        Place::Other => Ok(0),
    }
}

/// Numbers that are not in the bank ignore writes.
pub(crate) fn write(
    bank: &mut impl Bank,
    offset: u64,
    width: AccessWidth,
    value: u64,
) -> VgicResult {
    match Place::at(offset) {
        Place::Bits(register, first) => {
            allow(width == AccessWidth::Dword)?;
            for bit in 0..32 {
                let number = first + bit / bits_each(register);
                let it = bank.find(number);
                let called = it.and_then(|it| called_by(register, bit, it, value >> bit & 1 == 1));
                if let Some(transitions) = called {
                    bank.transit(number, transitions);
                }
            }
        }
        Place::Priority(first) => {
            allow(width != AccessWidth::Qword)?;
            for byte in 0..width.size() as u32 {
                let priority = Priority((value >> (8 * byte)) as u8);
                bank.transit(first + byte, |it| it.record.set_priority(priority));
            }
        }
        Place::Other => {}
    }
    Ok(())
}

fn allow(width_is_right: bool) -> VgicResult {
    if width_is_right {
        Ok(())
    } else {
        Err(VgicError::Width)
    }
}

fn bits_each(register: BitRegister) -> u32 {
    if register == BitRegister::Icfgr { 2 } else { 1 }
}

fn read_bit(register: BitRegister, bit: u32, record: &InterruptRecord) -> bool {
    use BitRegister::*;
    match register {
        Igroupr => false,
        Isenabler | Icenabler => record.enabled(),
        Ispendr | Icpendr => record.pending(),
        Isactiver | Icactiver => record.active(),
        Icfgr => bit % 2 == 1 && record.trigger() == TriggerMode::Edge,
    }
}

/// The transitions that a bit of a bit register calls; none where it does nothing, and then nothing is stored.
fn called_by(
    register: BitRegister,
    bit: u32,
    it: &Interrupt,
    set: bool,
) -> Option<fn(&mut Interrupt)> {
    use BitRegister::*;
    let transitions: fn(&mut Interrupt) = match register {
        Icfgr if bit % 2 == 1 && !it.is_sgi() => {
            if set {
                |it| it.record.set_trigger(TriggerMode::Edge)
            } else {
                |it| it.record.set_trigger(TriggerMode::Level)
            }
        }
        Igroupr | Icfgr => return None,
        _ if !set => return None,
        Isenabler => |it| it.record.set_enabled(true),
        Icenabler => |it| it.record.set_enabled(false),
        Ispendr | Icpendr if it.is_sgi() => return None,
        Ispendr => |it| it.record.set_pending(true),
        Icpendr => |it| it.record.set_pending(false),
        Isactiver => |it| it.record.set_active(true),
        Icactiver => |it| {
            it.record.set_active(false);
            if it.inflight() {
                it.record.cancel_inflight();
                it.owner = None;
            }
        },
    };
    Some(transitions)
}
