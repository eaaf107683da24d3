//! The registers of a CPU interface: acknowledge, end, deactivate.
use crate::{
    Width,
    gic::{Answer, Gic, IIDR, Refusal, Reply, SPURIOUS, value},
};

const FRAME: u64 = 0x2000;
/// From here up a number does not decode.
const NUMBERS: u16 = 1020;

fn check(offset: u64, width: Width) -> Result<(), Refusal> {
    crate::distributor::check_span(offset, width, FRAME)?;
    if width == Width::Dword {
        Ok(())
    } else {
        Err(Refusal::Width)
    }
}

impl Gic {
    pub fn read_cpu_interface(&mut self, vcpu: u64, offset: u64, width: Width) -> Answer {
        check(offset, width)?;
        match offset {
            0x00 => {
                let own = &self.vcpus[self.vcpu(vcpu)?];
                let (enabled, mode) = (u32::from(own.enabled), u32::from(own.eoi_mode));
                Ok(value(enabled | mode << 9))
            }
            0x04 => Ok(value(self.vcpus[self.vcpu(vcpu)?].mask.into())),
            0x08 | 0x1c => Ok(value(self.vcpus[self.vcpu(vcpu)?].binary_point.into())),
            0x0c | 0x20 => self.acknowledge(vcpu),
            0x14 => Ok(value(self.vcpus[self.vcpu(vcpu)?].running().into())),
            0x18 | 0x28 => {
                let best = self.highest_pending(self.vcpu(vcpu)?);
                Ok(value(best.map_or(SPURIOUS, |entry| entry.id.into())))
            }
            0xfc => Ok(value(IIDR)),
            _ => Ok(value(0)),
        }
    }

    fn acknowledge(&mut self, vcpu: u64) -> Answer {
        if !self.enabled {
            return Ok(value(SPURIOUS));
        }
        let vcpu = self.vcpu(vcpu)?;
        let Some(entry) = self.take(vcpu)? else {
            return Ok(value(SPURIOUS));
        };
        if let Some(record) = self.record_mut(vcpu, entry.id) {
            record.acknowledge(vcpu);
        }
        self.vcpus[vcpu].stack.push(entry);
        let source = if entry.id < 16 {
            self.take_source(vcpu, usize::from(entry.id))
        } else {
            0
        };
        Ok(value(u32::from(entry.id) | source << 10))
    }

    /// The lowest source of an SGI, 0 if there is none; it stays pending while others are left.
    fn take_source(&mut self, vcpu: usize, sgi: usize) -> u32 {
        let own = &mut self.vcpus[vcpu];
        let sources = &mut own.sources[sgi];
        if *sources == 0 {
            return 0;
        }
        let source = sources.trailing_zeros();
        *sources &= *sources - 1;
        if *sources != 0 {
            own.records[sgi].set_pending(true);
        }
        source
    }

    pub fn write_cpu_interface(
        &mut self,
        vcpu: u64,
        offset: u64,
        width: Width,
        written: u64,
    ) -> Answer {
        check(offset, width)?;
        let id = (written & 0x3ff) as u16;
        let looked_up = match offset {
            0x00 | 0x04 | 0x08 | 0x1c => true,
            0x10 | 0x24 | 0x1000 => id < NUMBERS,
            _ => false,
        };
        if !looked_up {
            return Ok(Reply::default());
        }
        let vcpu = self.vcpu(vcpu)?;
        let quiet = self.quiet();
        let own = &mut self.vcpus[vcpu];
        let mut retired = None;
        match offset {
            0x00 => (own.enabled, own.eoi_mode) = (written & 1 != 0, written & 0x200 != 0),
            0x04 => own.mask = written as u8,
            0x08 | 0x1c => own.binary_point = written as u8 & 7,
            0x10 | 0x24 => retired = self.end(vcpu, id),
            _ => retired = self.deactivate(vcpu, id),
        }
        Ok(Reply {
            wake: self.woken(quiet),
            retired,
            ..Reply::default()
        })
    }

    /// EOIR: only the newest is ended.
    fn end(&mut self, vcpu: usize, id: u16) -> Option<u16> {
        let own = &mut self.vcpus[vcpu];
        if own.stack.last()?.id != id {
            return None;
        }
        own.stack.pop();
        if own.eoi_mode {
            return None;
        }
        self.deactivate(vcpu, id)
    }

    fn deactivate(&mut self, vcpu: usize, id: u16) -> Option<u16> {
        let record = self.record_mut(vcpu, id)?;
        record.deactivate(vcpu).then_some(id)
    }
}
