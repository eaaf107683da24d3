//! Changes of an image, after most of which it is none.
use crate::image::write_number;
use std::ops::Range;

/// So many bytes give way to others.
#[derive(Clone, Debug, PartialEq, Eq)]
pub struct Edit {
    pub at: usize,
    pub gone: usize,
    pub put: Vec<u8>,
}

impl Edit {
    pub fn of(&self, image: &[u8]) -> Vec<u8> {
        let rest = &image[self.at + self.gone..];
        [&image[..self.at], &self.put, rest].concat()
    }
}

fn edit(place: Range<usize>, put: &[u8]) -> Edit {
    Edit {
        at: place.start,
        gone: place.len(),
        put: put.to_vec(),
    }
}

/// Cut at every length.
pub fn cuts(image: &[u8]) -> Vec<Edit> {
    let end = image.len();
    (0..end).map(|at| edit(at..end, &[])).collect()
}

/// Each bit turned.
pub fn flips(image: &[u8]) -> Vec<Edit> {
    let bits = (0..image.len()).flat_map(|at| (0..8).map(move |bit| (at, bit)));
    bits.map(|(at, bit)| edit(at..at + 1, &[image[at] ^ 1 << bit]))
        .collect()
}

/// Each number in more groups than it needs.
pub fn longer(image: &[u8]) -> Vec<Edit> {
    let mut all = vec![];
    for place in numbers(image) {
        let last = place.end - 1..place.end;
        let group = image[last.start] | 0x80;
        all.push(edit(last.clone(), &[group, 0]));
        all.push(edit(last, &[group, 0x80, 0]));
    }
    all
}

/// At both sides of every range that a number may have.
const VALUES: [u64; 30] = [
    0,
    1,
    2,
    7,
    8,
    9,
    31,
    32,
    33,
    63,
    64,
    65,
    127,
    128,
    129,
    254,
    255,
    256,
    257,
    511,
    512,
    513,
    514,
    1019,
    1020,
    1021,
    1024,
    16383,
    16384,
    u64::MAX,
];

/// Each number by another: those values, its neighbours, and itself with a bit far above.
pub fn others(image: &[u8]) -> Vec<Edit> {
    let mut all = vec![];
    for place in numbers(image) {
        let number = value(&image[place.clone()]);
        let near = [
            number.wrapping_sub(1),
            number + 1,
            number ^ 64,
            number + (1 << 32),
        ];
        let values = VALUES.into_iter().chain(near).map(groups);
        let far = [2, 3, 4, 5, 9, 10, 18].map(|place| with_bit(number, place));
        all.extend(values.chain(far).map(|put| edit(place.clone(), &put)));
    }
    all
}

/// These numbers in the place of some.
pub fn instead(image: &[u8], gone: Range<usize>, put: &[u64]) -> Edit {
    let places = &numbers(image)[gone];
    let put: Vec<u8> = put.iter().copied().flat_map(groups).collect();
    edit(places[0].start..places[places.len() - 1].end, &put)
}

/// Something after the end, and the last number gone.
pub fn ends(image: &[u8]) -> Vec<Edit> {
    let end = image.len();
    let after = [
        &[0][..],
        &[1],
        &[0x80],
        &[0x80, 0],
        &[0x80, 1],
        &[0; 5],
        image,
    ];
    let mut all: Vec<Edit> = after.map(|put| edit(end..end, put)).into();
    all.extend(numbers(image).last().map(|place| edit(place.clone(), &[])));
    all
}

/// Where the numbers of an image stand.
pub fn numbers(image: &[u8]) -> Vec<Range<usize>> {
    let mut all = vec![];
    let mut start = 0;
    for (at, byte) in image.iter().enumerate() {
        if *byte < 128 {
            all.push(start..at + 1);
            start = at + 1;
        }
    }
    all
}

fn value(groups: &[u8]) -> u64 {
    let group = |number, byte: &u8| number * 128 + u64::from(byte % 128);
    groups.iter().rfold(0, group)
}

fn groups(number: u64) -> Vec<u8> {
    let mut all = vec![];
    write_number(&mut all, number);
    all
}

/// The number with a 1 in a further group, which may stand for more than 64 bits.
fn with_bit(number: u64, place: usize) -> Vec<u8> {
    let mut all = groups(number);
    all.resize(place.max(all.len()), 0);
    all.iter_mut().for_each(|byte| *byte |= 0x80);
    all.push(1);
    all
}

#[cfg(test)]
mod tests {
    use super::*;

    #[test]
    fn every_change_is_one() {
        let image = [0x02, 0xa2, 0x01, 0x00];
        assert_eq!(numbers(&image), [0..1, 1..3, 3..4]);
        assert_eq!(value(&image[1..3]), 162);
        let made = |edits: Vec<Edit>| edits.iter().map(|it| it.of(&image)).collect::<Vec<_>>();
        assert_eq!(made(cuts(&image))[2], [0x02, 0xa2]);
        assert_eq!(made(flips(&image))[9], [0x02, 0xa0, 0x01, 0x00]);
        assert_eq!(made(longer(&image))[0], [0x82, 0x00, 0xa2, 0x01, 0x00]);
        assert_eq!(
            made(longer(&image))[3],
            [0x02, 0xa2, 0x81, 0x80, 0x00, 0x00]
        );
        let instead = vec![instead(&image, 0..2, &[1, 2, 129])];
        assert_eq!(made(instead), [[0x01, 0x02, 0x81, 0x01, 0x00]]);
        assert_eq!(made(ends(&image))[0], [0x02, 0xa2, 0x01, 0x00, 0x00]);
        assert_eq!(made(ends(&image))[7], [0x02, 0xa2, 0x01]);
        assert!(made(others(&image)).contains(&vec![0x02, 0xa3, 0x01, 0x00]));
        assert!(made(others(&image)).contains(&vec![0x82, 0x80, 0x01, 0xa2, 0x01, 0x00]));
    }
}
