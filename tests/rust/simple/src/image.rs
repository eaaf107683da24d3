//! A controller in the words of docs/STATE.md, saved into an image and loaded from one: docs/IMAGE.md in plain Rust, as one would write it
//! in a day. What is refused leaves buffer and words as they were, so each looks at everything first and writes in a second walk.
use crate::Refusal;
use std::slice;

/// The words in front, those of a vCPU, and those of its stack.
const HEADER: usize = 3;
const VCPU: usize = 52;
const STACK: usize = 128;

const ENABLED: u32 = 0x01;
const PENDING: u32 = 0x02;
const ACTIVE: u32 = 0x04;
const INFLIGHT: u32 = 0x08;
const REDELIVERY: u32 = 0x10;
const LINE: u32 = 0x20;
const EDGE: u32 = 0x40;
const TARGETED: u32 = 0x80;
const FLAGS: u32 = 0x7f;
/// The mask of an SPI whose targets were never written.
const UNSET: u32 = 256;
/// The bits of an interface's CTLR.
const CONTROL: u32 = 0x201;

#[derive(Clone, Copy)]
struct Shape {
    count: usize,
    limit: usize,
}

impl Shape {
    fn new(count: u32, limit: u32) -> Option<Self> {
        let in_range = (1..=8).contains(&count) && (32..=1020).contains(&limit);
        in_range.then_some(Self {
            count: count as usize,
            limit: limit as usize,
        })
    }

    fn spis(self) -> usize {
        HEADER + VCPU * self.count
    }

    /// The bits of the SPIs that are ready, 32 to a word.
    fn summary(self) -> usize {
        self.spis() + self.limit - 32
    }

    fn stacks(self) -> usize {
        self.summary() + (self.limit - 1) / 32
    }

    fn size(self) -> usize {
        self.stacks() + STACK * self.count
    }

    /// No image of this shape is longer.
    fn bound(self) -> usize {
        let vcpu = 5 + 2 + 4 * STACK + 16 * 5 + 16 * 3;
        4 + vcpu * self.count + 6 * (self.limit - 32)
    }
}

/// The length of the longest image of a shape, or more; none out of range.
pub fn room(count: u32, limit: u32) -> Option<usize> {
    Shape::new(count, limit).map(Shape::bound)
}

/// The count and limit that an image begins with.
pub fn shape(image: &[u8]) -> Result<(usize, usize), Refusal> {
    let shape = Reader::new(image).shape().ok_or(Refusal::Image)?;
    Ok((shape.count, shape.limit))
}

/// Writes the image of what the words mean, and tells its length.
pub fn save(words: &[u32], image: &mut [u8]) -> Result<usize, Refusal> {
    let state = State::new(words).ok_or(Refusal::NoState)?;
    if !state.is_lawful() {
        return Err(Refusal::Image);
    }
    if image.len() < state.shape.bound() && image.len() < state.length() {
        return Err(Refusal::Room);
    }
    let mut at = 0;
    state.numbers(|number| {
        if number >= 128 {
            image[at] = (number % 128 + 128) as u8;
            image[at + 1] = (number / 128) as u8;
            at += 2;
        } else {
            image[at] = number as u8;
            at += 1;
        }
    });
    Ok(at)
}

/// Makes the words the state that these bytes are the image of.
pub fn load(words: &mut [u32], image: &[u8]) -> Result<(), Refusal> {
    let shape = walk(image, |_, _| {}).ok_or(Refusal::Image)?;
    let words = words.get_mut(..shape.size()).ok_or(Refusal::ShortState)?;
    words[shape.stacks()..].fill(0);
    walk(image, |place, word| words[place] = word);
    let (records, rest) = words[shape.spis()..].split_at_mut(shape.limit - 32);
    for (records, bits) in records.chunks(32).zip(rest) {
        *bits = ready(records);
    }
    Ok(())
}

struct State<'a> {
    words: &'a [u32],
    shape: Shape,
}

impl<'a> State<'a> {
    fn new(words: &'a [u32]) -> Option<Self> {
        let shape = Shape::new(*words.first()?, *words.get(1)?)?;
        let state = Self {
            words: words.get(..shape.size())?,
            shape,
        };
        let too_deep = state.vcpus().any(|(own, _)| own[3] as usize > STACK);
        (!too_deep).then_some(state)
    }

    /// Each vCPU's values, source sets and records, and its stack.
    fn vcpus(&self) -> impl Iterator<Item = (&'a [u32], &'a [u32])> {
        let own = &self.words[HEADER..self.shape.spis()];
        let stacks = &self.words[self.shape.stacks()..];
        own.chunks_exact(VCPU).zip(stacks.chunks_exact(STACK))
    }

    fn spis(&self) -> &'a [u32] {
        &self.words[self.shape.spis()..self.shape.summary()]
    }

    /// The bit of each SPI is as its record has it; those from the limit up are nobody's.
    fn is_exact(&self) -> bool {
        let summary = &self.words[self.shape.summary()..self.shape.stacks()];
        let mut words = self.spis().chunks(32).zip(summary);
        words.all(|(records, bits)| (bits ^ ready(records)) << (32 - records.len()) == 0)
    }

    fn is_lawful(&self) -> bool {
        let Shape { count, limit } = self.shape;
        let lawful = |(vcpu, (own, stack)): (usize, (&[u32], &[u32]))| {
            is_lawful_stack(&stack[..own[3] as usize], limit as u32)
                && is_lawful_private(&own[4..20], &own[20..], vcpu as u32)
        };
        self.vcpus().enumerate().all(lawful)
            && self
                .spis()
                .iter()
                .all(|word| is_lawful_spi(*word, count as u32))
            && self.is_exact()
    }

    fn length(&self) -> usize {
        let mut length = 0;
        self.numbers(|number| length += if number >= 128 { 2 } else { 1 });
        length
    }

    /// Every number of the image, in its order.
    fn numbers(&self, mut put: impl FnMut(u32)) {
        put(self.shape.count as u32);
        put(self.shape.limit as u32);
        put(self.words[2] & 1);
        for (own, _) in self.vcpus() {
            put(own[0] & CONTROL);
            put(own[1] & 255);
            put(own[2] & 7);
        }
        for (own, stack) in self.vcpus() {
            put(own[3]);
            for entry in &stack[..own[3] as usize] {
                put(entry & 0x3ff);
                put(entry >> 10 & 255);
            }
        }
        for (own, _) in self.vcpus() {
            private_numbers(own, &mut put);
        }
        for word in self.spis() {
            put(word & FLAGS);
            put(word >> 8 & 255);
            put(word >> 24);
            put(mask(*word));
        }
    }
}

fn private_numbers(own: &[u32], put: &mut impl FnMut(u32)) {
    let (sources, records) = own[4..].split_at(16);
    for (number, word) in records.iter().enumerate() {
        put(word & FLAGS);
        put(word >> 8 & 255);
        if let Some(set) = sources.get(number) {
            put(set & 255);
        }
    }
}

/// A bit for each of at most 32 records: enabled, pending and not active.
fn ready(records: &[u32]) -> u32 {
    let bit = |word: &u32| u32::from(word & (ENABLED | PENDING | ACTIVE) == ENABLED | PENDING);
    records.iter().rfold(0, |bits, word| bits << 1 | bit(word))
}

fn mask(word: u32) -> u32 {
    if word & TARGETED != 0 {
        word >> 16 & 255
    } else {
        UNSET
    }
}

/// Priorities are even and fall, from below 255 on, and numbers are below the limit.
fn is_lawful_stack(stack: &[u32], limit: u32) -> bool {
    let mut above = 255;
    stack.iter().all(|entry| {
        let (number, priority) = (entry & 0x3ff, entry >> 10 & 255);
        let lawful = priority < above && priority % 2 == 0 && number < limit;
        above = priority;
        lawful
    })
}

fn is_lawful_private(sources: &[u32], records: &[u32], vcpu: u32) -> bool {
    let sgi = |(word, set): (&u32, &u32)| {
        word & (EDGE | LINE | REDELIVERY) == EDGE && (word & PENDING != 0) == (set & 255 != 0)
    };
    let private =
        |word: &u32| word & TARGETED == 0 && is_lawful_record(*word, |owner| owner == vcpu + 1);
    records.iter().zip(sources).all(sgi) && records.iter().all(private)
}

fn is_lawful_spi(word: u32, count: u32) -> bool {
    let exists = |owner| (1..=count).contains(&owner);
    is_lawful_record(word, exists) && (word & TARGETED == 0 || mask(word) < 1 << count)
}

/// In flight it is active and owned as it may be, else it is nobody's and has no redelivery noted.
fn is_lawful_record(word: u32, may_own: impl Fn(u32) -> bool) -> bool {
    if word & INFLIGHT != 0 {
        word & ACTIVE != 0 && may_own(word >> 24)
    } else {
        word & REDELIVERY == 0 && word >> 24 == 0
    }
}

/// An image from its next byte on.
struct Reader<'a> {
    bytes: slice::Iter<'a, u8>,
}

impl<'a> Reader<'a> {
    fn new(image: &'a [u8]) -> Self {
        Self {
            bytes: image.iter(),
        }
    }

    /// A number up to so many; none has more than two groups.
    fn number(&mut self, most: u32) -> Option<u32> {
        let low = u32::from(*self.bytes.next()?);
        let number = if low < 128 {
            low
        } else {
            let high = u32::from(*self.bytes.next()?);
            if high == 0 || high >= 128 {
                return None;
            }
            low - 128 + 128 * high
        };
        (number <= most).then_some(number)
    }

    fn shape(&mut self) -> Option<Shape> {
        Shape::new(self.number(8)?, self.number(1020)?)
    }

    /// CTLR, PMR and BPR.
    fn interface(&mut self) -> Option<[u32; 3]> {
        let control = self.number(CONTROL)?;
        (control & !CONTROL == 0).then_some([control, self.number(255)?, self.number(7)?])
    }

    /// The word of a private record, but for its owner, and its source set.
    fn private(&mut self, number: usize, vcpu: usize) -> Option<(u32, u32)> {
        let flags = self.number(FLAGS)?;
        let word = flags | self.number(255)? << 8;
        let sources = if number < 16 { self.number(255)? } else { 0 };
        let owner = if flags & INFLIGHT != 0 {
            vcpu as u32 + 1
        } else {
            0
        };
        Some((word | owner << 24, sources))
    }

    fn spi(&mut self) -> Option<u32> {
        let word = self.number(FLAGS)? | self.number(255)? << 8 | self.number(8)? << 24;
        let mask = self.number(UNSET)?;
        Some(if mask == UNSET {
            word
        } else {
            word | TARGETED | mask << 16
        })
    }
}

/// Reads an image to its end and gives every word with its place, the unused part of the stacks left out; none if it is no image.
fn walk(image: &[u8], mut store: impl FnMut(usize, u32)) -> Option<Shape> {
    let mut from = Reader::new(image);
    let shape = from.shape()?;
    store(0, shape.count as u32);
    store(1, shape.limit as u32);
    store(2, from.number(1)?);
    for vcpu in 0..shape.count {
        for (index, value) in from.interface()?.into_iter().enumerate() {
            store(HEADER + VCPU * vcpu + index, value);
        }
    }
    for vcpu in 0..shape.count {
        walk_stack(&mut from, shape, vcpu, &mut store)?;
    }
    for vcpu in 0..shape.count {
        walk_private(&mut from, vcpu, &mut store)?;
    }
    for place in shape.spis()..shape.summary() {
        let word = from.spi()?;
        if !is_lawful_spi(word, shape.count as u32) {
            return None;
        }
        store(place, word);
    }
    from.bytes.as_slice().is_empty().then_some(shape)
}

fn walk_stack(
    from: &mut Reader,
    shape: Shape,
    vcpu: usize,
    store: &mut impl FnMut(usize, u32),
) -> Option<()> {
    let depth = from.number(STACK as u32)?;
    let mut above = 255;
    store(HEADER + VCPU * vcpu + 3, depth);
    for index in 0..depth as usize {
        let (number, priority) = (from.number(shape.limit as u32 - 1)?, from.number(255)?);
        if priority >= above || priority % 2 != 0 {
            return None;
        }
        above = priority;
        store(
            shape.stacks() + STACK * vcpu + index,
            number | priority << 10,
        );
    }
    Some(())
}

fn walk_private(from: &mut Reader, vcpu: usize, store: &mut impl FnMut(usize, u32)) -> Option<()> {
    let own = HEADER + VCPU * vcpu;
    for number in 0..32 {
        let (word, sources) = from.private(number, vcpu)?;
        let lawful = if number < 16 {
            store(own + 4 + number, sources);
            is_lawful_private(&[sources], &[word], vcpu as u32)
        } else {
            is_lawful_private(&[], &[word], vcpu as u32)
        };
        if !lawful {
            return None;
        }
        store(own + 20 + number, word);
    }
    Some(())
}
