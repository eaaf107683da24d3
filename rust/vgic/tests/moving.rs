//! Moving a guest: saved here, loaded there, and what is refused on the way.
use vgic::{
    AccessWidth::{Byte, Dword},
    Gic, GicVcpuId, ImageShape, IntId, MAX_IMAGE_BYTES, Refusal, image_bytes, image_shape, offset,
    state_words,
};

const COUNT: u64 = 2;
const LIMIT: u64 = 40;
const WORDS: usize = state_words(COUNT, LIMIT).expect("in range");
const FIRST: GicVcpuId = GicVcpuId(0);
const SECOND: GicVcpuId = GicVcpuId(1);
const SPI: IntId = IntId(33);
/// The word before the stacks: a bit for each SPI that is ready.
const SUMMARY: usize = WORDS - 2 * 128 - 1;

/// Everything on; vCPU 1 serves SPI 33, whose line is held, and has SGI 5 waiting, which is more urgent.
fn busy() -> Vec<u32> {
    let mut words = vec![0; WORDS];
    let mut gic = Gic::lend(&mut words);
    gic.setup(COUNT, LIMIT).unwrap();
    for (offset, width, value) in [
        (offset::GICD_CTLR, Dword, 1),
        (offset::GICD_ITARGETSR + 33, Byte, 2),
        (offset::GICD_IPRIORITYR + 33, Byte, 160),
        (offset::GICD_ISENABLER + 4, Dword, 2),
    ] {
        let done = gic.write_v2_distributor(FIRST, offset, width, value);
        done.unwrap();
    }
    for (offset, value) in [(offset::GICC_CTLR, 1), (offset::GICC_PMR, 255)] {
        let done = gic.write_v2_cpu_interface(SECOND, offset, Dword, value);
        done.unwrap();
    }
    gic.set_level(FIRST, SPI, true).unwrap();
    assert_eq!(take(&mut gic, SECOND), 33);
    let sgi = 2 << 16 | 5;
    let sent = gic.write_v2_distributor(FIRST, offset::GICD_SGIR, Dword, sgi);
    assert!(sent.unwrap().wake.contains(SECOND));
    words
}

fn take(gic: &mut Gic, vcpu: GicVcpuId) -> u32 {
    let taken = gic.read_v2_cpu_interface(vcpu, offset::GICC_IAR, Dword);
    taken.unwrap().value
}

fn saved(words: &mut [u32]) -> Vec<u8> {
    let mut buffer = vec![0xee; MAX_IMAGE_BYTES];
    let before = words.to_vec();
    let length = Gic::lend(words).save(&mut buffer).unwrap();
    assert_eq!(words, before);
    assert!(buffer[length..].iter().all(|byte| *byte == 0xee));
    buffer.truncate(length);
    buffer
}

/// The call is refused so, and changes nothing.
fn refused(words: &mut [u32], image: &[u8], refusal: Refusal) {
    let before = words.to_vec();
    assert_eq!(Gic::lend(words).load(image), Err(refusal));
    assert_eq!(words, before);
}

#[test]
fn the_image_of_a_fresh_controller() {
    let mut words = vec![0; state_words(1, 33).unwrap()];
    Gic::lend(&mut words).setup(1, 33).unwrap();
    let expected = [
        &[1, 33, 0, 0, 0, 0, 0][..],
        &[0x41, 0, 0].repeat(16),
        &[0, 0].repeat(16),
        &[0, 0, 0, 0x80, 2],
    ];
    assert_eq!(saved(&mut words), expected.concat());
}

#[test]
fn a_guest_goes_on_where_it_was() {
    let mut words = busy();
    let image = saved(&mut words);
    for old in [0, u32::MAX] {
        let mut there = vec![old; WORDS + 3];
        let mut moved = Gic::lend(&mut there);
        moved.load(&image).unwrap();
        assert_eq!(moved.words()[..WORDS], words[..]);
        assert_eq!(moved.words()[WORDS..], [old; 3]);
        let lines = [FIRST, SECOND].map(|vcpu| moved.irq_level(vcpu));
        assert_eq!(lines, [Ok(false), Ok(true)]);
        assert_eq!(take(&mut moved, SECOND), 5);
        for (number, retired) in [(5, 5), (33, 33)] {
            let ended = moved.write_v2_cpu_interface(SECOND, offset::GICC_EOIR, Dword, number);
            assert_eq!(ended.unwrap().retired, Some(IntId(retired)));
        }
        assert_eq!(take(&mut moved, SECOND), 33); // its line was held all along
    }
}

#[test]
fn what_is_no_image() {
    let mut there = busy();
    let image = saved(&mut there);
    for end in 0..image.len() {
        refused(&mut there, &image[..end], Refusal::Image);
    }
    let longer = [&image[..], &[0]].concat();
    refused(&mut there, &longer, Refusal::Image);
    let stretched = [&[0x82, 0], &image[1..]].concat();
    refused(&mut there, &stretched, Refusal::Image);
    let mut odd = image.clone();
    assert_eq!(odd[11..15], [1, 33, 0xa0, 1]); // SPI 33 is served at 160
    odd[13] = 0xa1;
    refused(&mut there, &odd, Refusal::Image);
    refused(&mut [], &image, Refusal::ShortState);
    refused(&mut there[..WORDS - 1], &image, Refusal::ShortState);
    refused(&mut there[..WORDS - 1], &longer, Refusal::Image);
}

#[test]
fn what_is_not_saved() {
    let mut words = busy();
    let image = saved(&mut words);
    let refused = |words: &mut [u32], room: usize, refusal| {
        let mut buffer = vec![0xee; room];
        let before = words.to_vec();
        let gic = Gic::lend(words);
        assert_eq!(gic.save(&mut buffer), Err(refusal));
        assert_eq!(words, before);
        assert!(buffer.iter().all(|byte| *byte == 0xee));
    };
    for room in [0, 1, image.len() - 1] {
        refused(&mut words, room, Refusal::Room);
    }
    let mut exact = vec![0; image.len()];
    assert_eq!(Gic::lend(&mut words).save(&mut exact), Ok(image.len()));
    assert_eq!(exact, image);
    // An odd entry; SGI 0 pending without a source; a bit of the summary that is false; and words that are no state, which comes first.
    let mut odd = words.clone();
    odd[WORDS - 128] += 1 << 10;
    refused(&mut odd, MAX_IMAGE_BYTES, Refusal::Image);
    let mut pending = words.clone();
    pending[3 + 20] |= 2;
    refused(&mut pending, 0, Refusal::Image);
    for number in 32..40 {
        let mut untrue = words.clone();
        untrue[SUMMARY] ^= 1 << (number - 32);
        refused(&mut untrue, MAX_IMAGE_BYTES, Refusal::Image);
    }
    let mut past = words.clone();
    past[SUMMARY] |= 1 << 8; // no SPI's
    assert_eq!(saved(&mut past), image);
    refused(&mut pending[..WORDS - 1], 0, Refusal::BrokenState);
    refused(&mut [], 0, Refusal::BrokenState);
}

#[test]
fn how_long_an_image_may_be() {
    for count in 0..=10 {
        for limit in 0..=1100 {
            let bytes = image_bytes(count, limit);
            let in_range = state_words(count, limit).is_some();
            assert_eq!(bytes.is_some(), in_range, "{count} {limit}");
            assert!(bytes.unwrap_or(0) <= MAX_IMAGE_BYTES, "{count} {limit}");
        }
    }
    assert_eq!(image_bytes(8, 1020), Some(11_108));
    for large in [(1 << 16) + 40, (1 << 32) + 1, (1 << 32) + 40, u64::MAX] {
        for (count, limit) in [(large, 40), (1, large), (large, large)] {
            assert_eq!(image_bytes(count, limit), None, "{count} {limit}");
        }
    }
}

/// Every number as long as it may be: full stacks, sources of every vCPU, the highest priorities and the last vCPU.
fn longest(count: usize, limit: usize) -> Vec<u32> {
    let mut words = vec![count as u32, limit as u32, 1];
    for _ in 0..count {
        words.extend([0x201, 255, 7, 128]);
        words.extend([255; 16]);
        words.extend([0xff43; 16]);
        words.extend([0xff7f - 0x18; 16]);
    }
    let targets = (1 << count) - 1;
    words.resize(words.len() + limit - 32, 0xffe7 | targets << 16);
    words.resize(words.len() + (limit - 1) / 32, 0); // they are active, so none is ready
    for _ in 0..count {
        let even = (0..128).rev().map(|half| 2 * half);
        words.extend(even.map(|priority| priority << 10 | (limit as u32 - 1)));
    }
    words
}

#[test]
fn the_longest_images_have_room() {
    for count in 1..=8 {
        for limit in [32, 33, 127, 128, 129, 130, 600, 1019, 1020] {
            let mut words = longest(count, limit);
            let (shape_count, shape_limit) = (count as u64, limit as u64);
            let mut buffer = vec![0; image_bytes(shape_count, shape_limit).unwrap()];
            let length = Gic::lend(&mut words).save(&mut buffer).unwrap();
            let mut there = vec![u32::MAX; words.len()];
            Gic::lend(&mut there).load(&buffer[..length]).unwrap();
            assert_eq!(there, words, "{count} {limit}");
        }
    }
}

#[test]
fn what_an_image_begins_with() {
    let image = saved(&mut busy());
    let shape = ImageShape {
        count: COUNT,
        limit: LIMIT,
    };
    assert_eq!(image_shape(&image), Ok(shape));
    assert_eq!(image_shape(&[&image[..2], &[0xff]].concat()), Ok(shape));
    let largest = ImageShape {
        count: 8,
        limit: 1020,
    };
    assert_eq!(image_shape(&[8, 0xfc, 7]), Ok(largest));
    for none in [
        &[][..],
        &[2],
        &[0, 40],
        &[9, 40],
        &[0x82, 0, 40],
        &[2, 31],
        &[8, 0xfd, 7],
        &[2, 0xa8],
        &[2, 0xa8, 0],
        &[0x82, 0x80, 0x80, 0x80, 0x10, 40],
    ] {
        assert_eq!(image_shape(none), Err(Refusal::Image), "{none:x?}");
    }
}
