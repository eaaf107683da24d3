//! The image of a controller: the numbers of IMAGE.md in their order, each in seven-bit groups; and request One's calls. Written from that
//! document and from document 02 alone; by request Two "9 refuses images of One with odd entries", which are not lawful.
use crate::{
    IntId, Priority, TriggerMode,
    gic::{Answer, Gic, STACK_MAX, gives, refused},
    record::Record,
    words,
};
use std::ops::RangeInclusive;
use types::Parts;

#[cfg(test)]
mod tests;

const UNSET: u64 = 256; // the mark of a mask that was never written

/// Saves what the words mean. Refused by 6, 9, 10; past the image the buffer stays.
pub fn save(words: &[u32], buffer: &mut [u8]) -> Answer {
    let Some(gic) = words::read(words) else {
        return refused(6);
    };
    let Some(image) = gic.image() else {
        return refused(9);
    };
    match buffer.get_mut(..image.len()) {
        None => refused(10),
        Some(room) => {
            room.copy_from_slice(&image);
            gives(image.len() as u64)
        }
    }
}

/// Refused by 9, then 5; past the state the words stay.
pub fn load(words: &mut [u32], image: &[u8]) -> Answer {
    let Some(gic) = Gic::of_image(image) else {
        return refused(9);
    };
    match words.get_mut(..words::size(gic.count, gic.limit)) {
        None => refused(5),
        Some(room) => {
            room.copy_from_slice(&words::write(&gic));
            gives(0)
        }
    }
}

/// The count and limit that come first, whatever follows. Refused by 9.
pub fn shape(image: &[u8]) -> Answer {
    match (Reader { rest: image }).shape() {
        None => refused(9),
        Some((count, limit)) => gives(count + 65536 * limit),
    }
}

/// Lowest group first, the top bit where more follow.
pub fn write_number(image: &mut Vec<u8>, mut number: u64) {
    while number >= 128 {
        image.push((128 + number % 128) as u8);
        number /= 128;
    }
    image.push(number as u8);
}

impl Gic {
    /// None if it is not lawful.
    pub fn image(&self) -> Option<Vec<u8>> {
        if !self.is_lawful() {
            return None;
        }
        let mut image = vec![];
        for number in self.numbers() {
            write_number(&mut image, number);
        }
        Some(image)
    }

    fn numbers(&self) -> Vec<u64> {
        let vcpus = 0..self.count as usize;
        let private = vcpus
            .clone()
            .flat_map(|v| (0..32).map(move |id| (v as u64, id)));
        let mut all = vec![self.count, self.limit, self.on.into()];
        all.extend(
            vcpus
                .clone()
                .flat_map(|v| [self.ctlr[v], self.pmr[v], self.bpr[v]]),
        );
        all.extend(vcpus.flat_map(|v| self.stack_numbers(v)));
        all.extend(private.flat_map(|(v, id)| self.private_numbers(v, id)));
        all.extend((32..self.limit).flat_map(|id| self.spi_numbers(id)));
        all
    }

    fn stack_numbers(&self, v: usize) -> Vec<u64> {
        let mut all = vec![self.stack[v].len() as u64];
        all.extend(
            self.stack[v]
                .iter()
                .flat_map(|entry| [entry.0, entry.1.into()]),
        );
        all
    }

    fn private_numbers(&self, v: u64, id: u64) -> Vec<u64> {
        let record = &self.records[self.slot(v, id)];
        let mut all = vec![flags(record), record.priority().into()];
        if id < 16 {
            all.push(self.sources[self.source_slot(v, id)].into());
        }
        all
    }

    fn spi_numbers(&self, id: u64) -> [u64; 4] {
        let record = &self.records[self.slot(0, id)];
        let owner = record.owner.map_or(0, |v| v + 1);
        let mask = record.parts().cpu_target_mask.map_or(UNSET, u64::from);
        [flags(record), record.priority().into(), owner, mask]
    }

    /// The one lawful controller that these bytes are the image of, if they are one.
    pub fn of_image(image: &[u8]) -> Option<Gic> {
        let mut from = Reader { rest: image };
        let (count, limit) = from.shape()?;
        let mut gic = Gic::new(count, limit);
        gic.on = from.number(0..=1)? == 1;
        for v in 0..count as usize {
            from.interface(&mut gic, v)?;
        }
        for v in 0..count as usize {
            gic.stack[v] = from.stack(limit)?;
        }
        for slot in 0..32 * count {
            from.private(&mut gic, slot / 32, slot % 32)?;
        }
        for id in 32..limit {
            let record = from.spi(id)?;
            gic.change(0, id, |r| *r = record); // "images don't carry the bits; loading makes them"
        }
        (from.rest.is_empty() && gic.is_lawful()).then_some(gic)
    }
}

fn flags(record: &Record) -> u64 {
    let parts = record.parts();
    u64::from(parts.enabled)
        + 2 * u64::from(parts.pending)
        + 4 * u64::from(parts.active)
        + 8 * u64::from(parts.inflight)
        + 16 * u64::from(parts.redelivery_pending)
        + 32 * u64::from(parts.line_asserted)
        + 64 * u64::from(record.is_edge())
}

/// What is left of an image.
struct Reader<'a> {
    rest: &'a [u8],
}

impl Reader<'_> {
    /// The next number, if it is in this range; one of more than 64 bits is in none.
    fn number(&mut self, range: RangeInclusive<u64>) -> Option<u64> {
        let (mut number, mut weight) = (0_u64, 1_u64);
        loop {
            let (&byte, rest) = self.rest.split_first()?;
            self.rest = rest;
            let group = u64::from(byte % 128);
            number = number.checked_add(group.checked_mul(weight)?)?;
            if byte < 128 {
                let shortest = group != 0 || weight == 1;
                return (shortest && range.contains(&number)).then_some(number);
            }
            weight = weight.checked_mul(128)?;
        }
    }

    fn shape(&mut self) -> Option<(u64, u64)> {
        Some((self.number(1..=8)?, self.number(32..=1020)?))
    }

    fn interface(&mut self, gic: &mut Gic, v: usize) -> Option<()> {
        gic.ctlr[v] = self.number(0..=0x201)?;
        gic.pmr[v] = self.number(0..=255)?;
        gic.bpr[v] = self.number(0..=7)?;
        (gic.ctlr[v] & !0x201 == 0).then_some(())
    }

    /// From the oldest on.
    fn stack(&mut self, limit: u64) -> Option<Vec<(u64, u8)>> {
        let depth = self.number(0..=STACK_MAX as u64)?;
        let mut stack = vec![];
        for _ in 0..depth {
            let id = self.number(0..=limit - 1)?;
            stack.push((id, self.number(0..=255)? as u8));
        }
        Some(stack)
    }

    /// In flight it is its own vCPU's.
    fn private(&mut self, gic: &mut Gic, v: u64, id: u64) -> Option<()> {
        let parts = self.flags_and_priority(id)?;
        let (slot, owner) = (gic.slot(v, id), parts.inflight.then_some(v));
        gic.records[slot] = Record::make(&parts, owner);
        if id < 16 {
            let slot = gic.source_slot(v, id);
            gic.sources[slot] = self.number(0..=255)? as u8;
        }
        Some(())
    }

    fn spi(&mut self, id: u64) -> Option<Record> {
        let mut parts = self.flags_and_priority(id)?;
        let owner = self.number(0..=8)?;
        let mask = self.number(0..=UNSET)?;
        parts.cpu_target_mask = (mask != UNSET).then_some(mask as u8);
        Some(Record::make(&parts, owner.checked_sub(1)))
    }

    fn flags_and_priority(&mut self, id: u64) -> Option<Parts> {
        let flags = self.number(0..=127)?;
        let flag = |value: u64| flags / value % 2 == 1;
        Some(Parts {
            intid: IntId::new(id as u32).expect("below the limit"),
            enabled: flag(1),
            pending: flag(2),
            active: flag(4),
            inflight: flag(8),
            redelivery_pending: flag(16),
            line_asserted: flag(32),
            trigger: if flag(64) {
                TriggerMode::Edge
            } else {
                TriggerMode::Level
            },
            priority: Priority(self.number(0..=255)? as u8),
            cpu_target_mask: None,
        })
    }
}
