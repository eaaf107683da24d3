//! The Distributor's registers.
use crate::{
    Width,
    gic::{Answer, Gic, IIDR, Refusal, Reply, value},
    record::Trigger,
};

const FRAME: u64 = 0x1000;

/// What stands at an offset; interrupts are named by the first that an access touches.
#[derive(Clone, Copy)]
enum Place {
    Ctlr,
    Typer,
    Iidr,
    Sgir,
    Bits(Bits, u16),
    Config(u16),
    /// Past the first byte of a word of bits.
    InsideWord,
    Priority(u16),
    Targets(u16),
    ClearSources(u16),
    SetSources(u16),
    Reserved,
}

#[derive(Clone, Copy)]
enum Bits {
    Group,
    SetEnable,
    ClearEnable,
    SetPending,
    ClearPending,
    SetActive,
    ClearActive,
}

/// Refusal 1.
pub fn check_span(offset: u64, width: Width, frame: u64) -> Result<(), Refusal> {
    let bytes = width.bytes();
    let end = offset.checked_add(bytes);
    if offset.is_multiple_of(bytes) && end.is_some_and(|end| end <= frame) {
        Ok(())
    } else {
        Err(Refusal::Access)
    }
}

fn place(offset: u64) -> Place {
    let bits = |kind: Bits| match offset % 4 {
        0 => Place::Bits(kind, (offset % 0x80 * 8) as u16),
        _ => Place::InsideWord,
    };
    match offset {
        0x000 => Place::Ctlr,
        0x004 => Place::Typer,
        0x008 => Place::Iidr,
        0x080..0x100 => bits(Bits::Group),
        0x100..0x180 => bits(Bits::SetEnable),
        0x180..0x200 => bits(Bits::ClearEnable),
        0x200..0x280 => bits(Bits::SetPending),
        0x280..0x300 => bits(Bits::ClearPending),
        0x300..0x380 => bits(Bits::SetActive),
        0x380..0x400 => bits(Bits::ClearActive),
        0x400..0x7fc => Place::Priority((offset - 0x400) as u16),
        0x800..0xbfc => Place::Targets((offset - 0x800) as u16),
        0xc00..0xd00 if offset % 4 == 0 => Place::Config(((offset - 0xc00) * 4) as u16),
        0xc00..0xd00 => Place::InsideWord,
        0xf00 => Place::Sgir,
        0xf10..0xf20 => Place::ClearSources((offset - 0xf10) as u16),
        0xf20..0xf30 => Place::SetSources((offset - 0xf20) as u16),
        _ => Place::Reserved,
    }
}

impl Gic {
    /// What stands there, and the vCPU where it is looked up.
    fn access(&self, vcpu: u64, offset: u64, width: Width) -> Result<(Place, usize), Refusal> {
        check_span(offset, width, FRAME)?;
        let place = place(offset);
        // At private registers a vCPU that there is not is refused before the width.
        let private = match place {
            Place::Bits(_, first) | Place::Config(first) | Place::Priority(first) => first < 32,
            _ => false,
        };
        let mut own = if private { self.vcpu(vcpu)? } else { 0 };
        let allowed = match place {
            Place::Ctlr | Place::Typer | Place::Iidr | Place::Sgir => width == Width::Dword,
            Place::Bits(..) | Place::Config(_) => width == Width::Dword,
            Place::Priority(_) | Place::Targets(_) => width != Width::Qword,
            Place::ClearSources(_) | Place::SetSources(_) => width != Width::Qword,
            Place::InsideWord => false,
            Place::Reserved => true,
        };
        if !allowed {
            return Err(Refusal::Width);
        }
        if matches!(place, Place::ClearSources(_) | Place::SetSources(_)) {
            own = self.vcpu(vcpu)?;
        }
        Ok((place, own))
    }

    pub fn read_distributor(&self, vcpu: u64, offset: u64, width: Width) -> Answer {
        let (place, own) = self.access(vcpu, offset, width)?;
        let bytes = width.bytes() as u16;
        Ok(value(match place {
            Place::Ctlr => self.enabled.into(),
            Place::Typer => self.typer(),
            Place::Iidr => IIDR,
            Place::Bits(kind, first) => self.read_bits(own, kind, first),
            Place::Config(first) => self.read_config(own, first),
            Place::Priority(first) => read_bytes(first, bytes, |id| {
                self.record(own, id).map_or(0, |record| record.priority)
            }),
            Place::Targets(first) => read_bytes(first, bytes, |id| self.target_byte(vcpu, id)),
            Place::ClearSources(first) | Place::SetSources(first) => {
                let sources = &self.vcpus[own].sources;
                read_bytes(first, bytes, |sgi| sources[usize::from(sgi)])
            }
            Place::Sgir | Place::InsideWord | Place::Reserved => 0,
        }))
    }

    fn typer(&self) -> u32 {
        let lines = u32::from(self.limit).div_ceil(32) - 1;
        lines | (self.vcpus.len() as u32 - 1) << 5
    }

    fn read_bits(&self, vcpu: usize, kind: Bits, first: u16) -> u32 {
        let mut bits = 0;
        for bit in 0..32 {
            let Some(record) = self.record(vcpu, first + bit) else {
                break;
            };
            let set = match kind {
                Bits::Group => false,
                Bits::SetEnable | Bits::ClearEnable => record.enabled,
                Bits::SetPending | Bits::ClearPending => record.pending,
                Bits::SetActive | Bits::ClearActive => record.active,
            };
            bits |= u32::from(set) << bit;
        }
        bits
    }

    fn read_config(&self, vcpu: usize, first: u16) -> u32 {
        let mut bits = 0;
        for place in 0..16 {
            let Some(record) = self.record(vcpu, first + place) else {
                break;
            };
            if record.trigger == Trigger::Edge {
                bits |= 2 << (2 * place);
            }
        }
        bits
    }

    /// A private number's target is whoever asks, whether it exists or not.
    fn target_byte(&self, vcpu: u64, id: u16) -> u8 {
        if id < 32 {
            return if vcpu < 8 { 1 << vcpu } else { 0 };
        }
        self.record(0, id)
            .and_then(|record| record.targets)
            .unwrap_or(0)
    }

    pub fn write_distributor(
        &mut self,
        vcpu: u64,
        offset: u64,
        width: Width,
        written: u64,
    ) -> Answer {
        let (place, own) = self.access(vcpu, offset, width)?;
        let word = written as u32;
        let filter = word >> 24 & 3;
        if matches!(place, Place::Sgir) && filter != 3 {
            self.vcpu(vcpu)?;
        }
        let quiet = self.quiet();
        let bytes = &word.to_le_bytes()[..(width.bytes() as usize).min(4)];
        match place {
            Place::Ctlr => self.enabled = word & 1 != 0,
            Place::Sgir => self.send(vcpu, filter, word),
            Place::Bits(kind, first) => self.write_bits(own, kind, first, word),
            Place::Config(first) => self.write_config(own, first, word),
            Place::Priority(first) => self.write_priorities(own, first, bytes),
            Place::Targets(first) => self.write_targets(first, bytes),
            Place::ClearSources(first) => self.write_sources(own, first, bytes, false),
            Place::SetSources(first) => self.write_sources(own, first, bytes, true),
            Place::Typer | Place::Iidr | Place::InsideWord | Place::Reserved => {}
        }
        Ok(Reply {
            wake: self.woken(quiet),
            ..Reply::default()
        })
    }

    fn write_bits(&mut self, vcpu: usize, kind: Bits, first: u16, word: u32) {
        for bit in (0..32).filter(|bit| word >> bit & 1 == 1) {
            let id = first + bit;
            let Some(record) = self.record_mut(vcpu, id) else {
                break;
            };
            match kind {
                Bits::Group => {}
                Bits::SetEnable => record.set_enabled(true),
                Bits::ClearEnable => record.set_enabled(false),
                // An SGI pends by its sources alone.
                Bits::SetPending | Bits::ClearPending if id < 16 => {}
                Bits::SetPending => record.set_pending(true),
                Bits::ClearPending => record.set_pending(false),
                Bits::SetActive => record.active = true,
                Bits::ClearActive => record.clear_active(),
            }
        }
    }

    fn write_config(&mut self, vcpu: usize, first: u16, word: u32) {
        for place in 0..16 {
            let id = first + place;
            let edge = word >> (2 * place + 1) & 1 == 1;
            let Some(record) = self.record_mut(vcpu, id) else {
                break;
            };
            if id >= 16 {
                record.trigger = if edge { Trigger::Edge } else { Trigger::Level };
            }
        }
    }

    fn write_priorities(&mut self, vcpu: usize, first: u16, bytes: &[u8]) {
        for (id, byte) in (first..).zip(bytes) {
            if let Some(record) = self.record_mut(vcpu, id) {
                record.priority = *byte;
            }
        }
    }

    /// Of an SPI the bits of vCPUs that exist; of a private number nothing.
    fn write_targets(&mut self, first: u16, bytes: &[u8]) {
        let existing = ((1u16 << self.vcpus.len()) - 1) as u8;
        for (id, byte) in (first..).zip(bytes).filter(|(id, _)| *id >= 32) {
            if let Some(record) = self.record_mut(0, id) {
                record.targets = Some(byte & existing);
            }
        }
    }

    fn write_sources(&mut self, vcpu: usize, first: u16, bytes: &[u8], set: bool) {
        let own = &mut self.vcpus[vcpu];
        for (sgi, byte) in (usize::from(first)..).zip(bytes) {
            if *byte == 0 {
                continue;
            }
            let sources = &mut own.sources[sgi];
            if set {
                *sources |= byte;
            } else {
                *sources &= !byte;
            }
            own.records[sgi].set_pending(*sources != 0);
        }
    }

    /// SGIR.
    fn send(&mut self, sender: u64, filter: u32, word: u32) {
        let sgi = (word & 15) as usize;
        for (vcpu, target) in self.vcpus.iter_mut().enumerate() {
            let sent = match filter {
                0 => word >> (16 + vcpu) & 1 == 1,
                1 => vcpu as u64 != sender,
                2 => vcpu as u64 == sender,
                _ => false,
            };
            if sent {
                target.sources[sgi] |= 1 << sender;
                target.records[sgi].set_pending(true);
            }
        }
    }
}

fn read_bytes(first: u16, bytes: u16, byte: impl Fn(u16) -> u8) -> u32 {
    (0..bytes).fold(0, |word, at| word | u32::from(byte(first + at)) << (8 * at))
}
