//! The Distributor's registers.
use super::{Answer, Gic, IIDR, gives, refused};
use crate::{
    Priority,
    place::{Bit, Place, bad_span, cut, dist_place},
};

const DIST_FRAME: u64 = 0x1000;

impl Gic {
    /// Refusals 1, 2 and 3 of a Distributor access; 0 for none. The lookup of
    /// SGIR writes is at the write.
    fn dist_refusal(&self, v: u64, off: u64, width: u64) -> u64 {
        if bad_span(off, width, DIST_FRAME) {
            return 1;
        }
        let missing = v >= self.count;
        match dist_place(off) {
            Place::Ctlr | Place::Typer | Place::Iidr | Place::Sgir if width != 4 => 2,
            Place::InsideWord => 2,
            Place::Bits(_, first) | Place::Config(first) => {
                if first < 32 && missing {
                    3
                } else if width != 4 {
                    2
                } else {
                    0
                }
            }
            Place::Priority(first) if first < 32 && missing => 3,
            Place::Priority(_) | Place::Target(_) if width == 8 => 2,
            Place::ClearSgi(_) | Place::SetSgi(_) if width == 8 => 2,
            Place::ClearSgi(_) | Place::SetSgi(_) if missing => 3,
            _ => 0,
        }
    }

    pub fn dist_read(&self, v: u64, off: u64, width: u64) -> Answer {
        let no = self.dist_refusal(v, off, width);
        if no != 0 {
            return refused(no);
        }
        let place = dist_place(off);
        gives(match place {
            Place::Ctlr => self.on as u64,
            Place::Typer => (self.limit.div_ceil(32) - 1) + 32 * (self.count - 1),
            Place::Iidr => IIDR,
            Place::Bits(bit, first) => self.read_bits(v, bit, first),
            Place::Config(first) => self.read_config(v, first),
            Place::Priority(_) | Place::Target(_) | Place::ClearSgi(_) | Place::SetSgi(_) => {
                let mut value = 0;
                for i in 0..width {
                    value |= (self.read_byte(v, place, i) as u64) << (8 * i);
                }
                value
            }
            Place::Sgir | Place::InsideWord | Place::Other => 0,
        })
    }

    fn read_bits(&self, v: u64, bit: Bit, first: u64) -> u64 {
        let mut value = 0;
        for i in 0..32 {
            let id = first + i;
            if id >= self.limit {
                break;
            }
            let r = &self.records[self.slot(v, id)];
            let set = match bit {
                Bit::Group => false,
                Bit::SetEnable | Bit::ClearEnable => r.file.enabled(),
                Bit::SetPend | Bit::ClearPend => r.file.pending(),
                Bit::SetActive | Bit::ClearActive => r.file.active(),
            };
            value |= (set as u64) << i;
        }
        value
    }

    fn read_config(&self, v: u64, first: u64) -> u64 {
        let mut value = 0;
        for i in 0..16 {
            let id = first + i;
            if id < self.limit && self.records[self.slot(v, id)].is_edge() {
                value |= 1 << (2 * i + 1);
            }
        }
        value
    }

    /// Byte i of an access to a byte register.
    fn read_byte(&self, v: u64, place: Place, i: u64) -> u8 {
        match place {
            Place::Priority(first) => {
                let id = first + i;
                if id >= self.limit {
                    0
                } else {
                    self.records[self.slot(v, id)].priority()
                }
            }
            Place::Target(first) => {
                let id = first + i;
                if id < 32 {
                    if v < 8 { 1 << v } else { 0 }
                } else if id >= self.limit {
                    0
                } else {
                    self.records[self.slot(0, id)].mask()
                }
            }
            Place::ClearSgi(first) | Place::SetSgi(first) => {
                self.sources[self.source_slot(v, first + i)]
            }
            _ => 0,
        }
    }

    pub fn dist_write(&mut self, v: u64, off: u64, width: u64, value: u64) -> Answer {
        let no = self.dist_refusal(v, off, width);
        if no != 0 {
            return refused(no);
        }
        let value = cut(value, width);
        let place = dist_place(off);
        if let Place::Sgir = place {
            let filter = (value >> 24) & 3;
            if filter != 3 && v >= self.count {
                return refused(3);
            }
        }
        let before = self.outlooks();
        match place {
            Place::Ctlr => self.on = value & 1 == 1,
            Place::Sgir => self.write_sgir(v, value),
            Place::Bits(bit, first) => self.write_bits(v, bit, first, value),
            Place::Config(first) => self.write_config(v, first, value),
            Place::Priority(_) | Place::Target(_) | Place::ClearSgi(_) | Place::SetSgi(_) => {
                for i in 0..width {
                    self.write_byte(v, place, i, (value >> (8 * i)) as u8);
                }
            }
            Place::Typer | Place::Iidr | Place::InsideWord | Place::Other => {}
        }
        let mut answer = gives(0);
        answer.wake = self.woken(before);
        answer
    }

    fn write_bits(&mut self, v: u64, bit: Bit, first: u64, value: u64) {
        for i in 0..32 {
            let id = first + i;
            if (value >> i) & 1 == 0 || id >= self.limit {
                continue;
            }
            match bit {
                Bit::Group => {}
                Bit::SetEnable => self.change(v, id, |r| r.file.set_enabled(true)),
                Bit::ClearEnable => self.change(v, id, |r| r.file.set_enabled(false)),
                Bit::SetPend if id >= 16 => self.change(v, id, |r| r.set_pending(true)),
                Bit::ClearPend if id >= 16 => self.change(v, id, |r| r.set_pending(false)),
                Bit::SetPend | Bit::ClearPend => {}
                Bit::SetActive => self.change(v, id, |r| r.file.set_active(true)),
                Bit::ClearActive => self.change(v, id, |r| {
                    r.file.set_active(false);
                    if r.inflight() {
                        r.file.cancel_inflight();
                        r.owner = None;
                    }
                }),
            }
        }
    }

    fn write_config(&mut self, v: u64, first: u64, value: u64) {
        for i in 0..16 {
            let id = first + i;
            if id < 16 || id >= self.limit {
                continue;
            }
            let edge = (value >> (2 * i + 1)) & 1 == 1;
            self.change(v, id, |r| r.set_edge(edge)); // whichever it is, so all 16
        }
    }

    /// Byte i of a write to a byte register.
    fn write_byte(&mut self, v: u64, place: Place, i: u64, byte: u8) {
        match place {
            Place::Priority(first) => {
                let id = first + i;
                if id < self.limit {
                    self.change(v, id, |r| r.file.set_priority(Priority(byte)));
                }
            }
            Place::Target(first) => {
                let id = first + i;
                if id >= 32 && id < self.limit {
                    let existing = (1u64 << self.count) - 1;
                    let mask = byte & existing as u8;
                    self.change(0, id, |r| r.file.set_cpu_target_mask(mask));
                }
            }
            Place::ClearSgi(first) => {
                let left = self.sources[self.source_slot(v, first + i)] & !byte;
                self.write_sources(v, first + i, byte, left);
            }
            Place::SetSgi(first) => {
                let left = self.sources[self.source_slot(v, first + i)] | byte;
                self.write_sources(v, first + i, byte, left);
            }
            _ => {}
        }
    }

    fn write_sources(&mut self, v: u64, id: u64, byte: u8, left: u8) {
        if byte == 0 {
            return;
        }
        let at = self.source_slot(v, id);
        self.sources[at] = left;
        self.change(v, id, |r| r.set_pending(left != 0));
    }

    fn write_sgir(&mut self, sender: u64, value: u64) {
        let id = value & 15;
        let list = (value >> 16) & 0xFF;
        let filter = (value >> 24) & 3;
        for t in 0..self.count {
            let hit = match filter {
                0 => (list >> t) & 1 == 1,
                1 => t != sender,
                2 => t == sender,
                _ => false,
            };
            if hit {
                let at = self.source_slot(t, id);
                self.sources[at] |= 1 << sender;
                self.change(t, id, |r| r.set_pending(true));
            }
        }
    }
}
