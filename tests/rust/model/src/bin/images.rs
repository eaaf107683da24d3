//! Prints the fixed list of images, tests/lists/images.rows: saves and loads, each with what the second writing says of it.
//!
//! A row is a line of the runner, which is accepted; or one of these, where numbers are decimal and bytes two digits each, `-` for none:
//! - `w PLACE WORD` gives a word of the state another value;
//! - `s ROOM: REFUSAL BYTES` saves into so many bytes; `=` is the image that was saved last;
//! - `e PLACE GONE PUT WORDS: REFUSAL SHAPE LINES SUM` changes the image that was saved last, so many bytes giving way to others, and loads it
//!   into so many words: the value of its shape or 0 and, if it is loaded, the vCPUs whose lines are up and the sum of the words (FNV-1a,
//!   hexadecimal).
use model::{
    edits::{self, Edit},
    gic::{Gic, STACK_MAX},
    image,
    lines::{parse, run},
    words,
};
use std::fmt::Write;

#[derive(Default)]
struct List {
    text: String,
    words: Vec<u32>,
    /// What was saved last.
    image: Vec<u8>,
}

fn main() {
    let mut list = List::default();
    list.fresh();
    list.busier();
    list.served();
    list.grouped();
    list.full();
    list.summary();
    list.largest();
    list.unlawful();
    print!("{}", list.text);
}

impl List {
    fn lines(&mut self, lines: &[&str]) {
        for line in lines {
            let call = parse(line.as_bytes()).expect("a line of the runner");
            let mut gic = words::read(&self.words);
            assert_eq!(run(&mut gic, call).refusal, 0, "{line}");
            self.words = words::write(&gic.expect("a controller"));
            writeln!(self.text, "{line}").unwrap();
        }
    }

    fn word(&mut self, place: usize, word: u32) {
        self.words[place] = word;
        writeln!(self.text, "w {place} {word}").unwrap();
    }

    fn save(&mut self, room: usize) {
        let mut buffer = vec![0; room];
        let answer = image::save(&self.words, &mut buffer);
        buffer.truncate(answer.value as usize);
        let bytes = if buffer == self.image {
            "=".into()
        } else {
            shown(&buffer)
        };
        writeln!(self.text, "s {room}: {} {bytes}", answer.refusal).unwrap();
        if answer.refusal == 0 {
            self.image = buffer;
        }
    }

    /// Into exactly enough, after one byte too few.
    fn save_exactly(&mut self) {
        let image = words::read(&self.words).and_then(|gic| gic.image());
        let length = image.expect("lawful").len();
        self.save(length - 1);
        self.save(length);
    }

    fn edit(&mut self, edit: &Edit, room: usize) {
        let image = edit.of(&self.image);
        let mut loaded = vec![0; room];
        let refusal = image::load(&mut loaded, &image).refusal;
        let shape = image::shape(&image).value;
        let Edit { at, gone, put } = edit;
        let put = shown(put);
        write!(self.text, "e {at} {gone} {put} {room}: {refusal} {shape}").unwrap();
        match Gic::of_image(&image) {
            Some(gic) if refusal == 0 => {
                let size = words::size(gic.count, gic.limit);
                let sum = sum(&loaded[..size]);
                writeln!(self.text, " {} {sum:08x}", lines(&gic)).unwrap();
            }
            _ => writeln!(self.text).unwrap(),
        }
    }

    /// Into as many words as the controller has.
    fn edits(&mut self, edits: impl IntoIterator<Item = Edit>) {
        for edit in edits {
            self.edit(&edit, self.words.len());
        }
    }

    /// The image as it is, into as many words as it takes, one fewer and so on.
    fn rooms(&mut self) {
        let (none, size) = (unchanged(), self.words.len());
        for room in [size, size + 3, size - 1, 2, 1, 0] {
            self.edit(&none, room);
        }
    }

    /// Other numbers in the place of these.
    fn others(&mut self, places: impl IntoIterator<Item = usize>) {
        let numbers = edits::numbers(&self.image);
        let starts: Vec<usize> = places.into_iter().map(|it| numbers[it].start).collect();
        let others = edits::others(&self.image).into_iter();
        self.edits(others.filter(|edit| starts.contains(&edit.at)));
    }

    /// docs/IMAGE.md's first example, and every change of it: other numbers in the header, the interface, the stack, the first SGI and PPI,
    /// and the SPI.
    fn fresh(&mut self) {
        self.lines(&["n 1 33"]);
        self.save_exactly();
        self.rooms();
        self.edits(edits::cuts(&self.image));
        self.edits(edits::flips(&self.image));
        self.edits(edits::longer(&self.image));
        self.edits(edits::ends(&self.image));
        self.others((0..10).chain([55, 56]).chain(87..91));
    }

    /// Its second.
    fn busier(&mut self) {
        self.lines(&[
            "n 2 34",
            "D 0 0 4 1",
            "C 0 0 4 513",
            "C 0 4 4 240",
            "C 0 8 4 2",
            "C 1 0 4 1",
            "C 1 4 4 255",
            "D 0 3840 4 16908293",
            "D 1 3840 4 65539",
            "D 0 1056 4 41120",
            "D 0 2080 4 515",
            "D 0 260 4 3",
            "l 0 33 1",
            "c 0 12 4",
            "c 0 12 4",
        ]);
        self.save_exactly();
        self.rooms();
        self.edits(edits::flips(&self.image));
        self.edits(edits::ends(&self.image));
    }

    /// Three under service, nested, one of them to come again; a PPI's line; a mask of 0 beside one that was never written.
    fn served(&mut self) {
        self.lines(&[
            "n 3 36",
            "D 0 0 4 1",
            "C 2 0 4 1",
            "C 2 4 4 255",
            "D 2 1044 1 160", // PPI 20
            "D 2 256 4 1048576",
            "D 0 1056 1 128", // SPI 32
            "D 0 2080 2 7",   // to all; 33 to nobody
            "D 0 260 4 3",
            "D 0 3080 4 2",
            "l 2 20 1",
            "c 2 12 4",
            "p 0 32",
            "c 2 12 4",
            "p 0 32",
            "D 1 3840 4 262151", // SGI 7 to vCPU 2
            "c 2 12 4",
            "D 0 3840 4 262151",
        ]);
        self.save_exactly();
        self.rooms();
        self.edits(edits::flips(&self.image));
        self.others(12..21);
    }

    /// Priority 70 is served as 68 and 127 as 0. Then 69, which was 68 too, becomes 64, and the line of vCPU 0 is up; 1 stays 0. Other
    /// binary points in the image move that line, and other entries do.
    fn grouped(&mut self) {
        self.lines(&[
            "n 2 36",
            "D 0 0 4 1",
            "C 0 0 4 1",
            "C 0 4 4 255",
            "C 0 8 4 1", // binary points
            "C 1 0 4 1",
            "C 1 4 4 255",
            "C 1 28 4 7",
            "D 0 1056 4 25118022", // priorities 70, 69, 127, 1
            "D 0 2080 4 33685761", // 32 and 33 to vCPU 0, 34 and 35 to vCPU 1
            "D 0 260 4 15",
            "l 0 32 1",
            "c 0 12 4",
            "l 0 33 1",
            "l 0 34 1",
            "c 1 12 4",
            "l 0 35 1",
            "C 0 8 4 2",
        ]);
        self.save_exactly();
        self.rooms();
        self.others(3..15);
        self.lines(&["c 0 12 4"]);
        self.save_exactly();
        self.others(9..14);
    }

    /// A full stack, with every even priority.
    fn full(&mut self) {
        self.lines(&["n 1 32"]);
        let (depth, stack) = (6, self.words.len() - STACK_MAX);
        self.word(depth, 128);
        for (index, priority) in (0..255).rev().step_by(2).enumerate() {
            self.word(stack + index, 31 + 1024 * priority);
        }
        self.save_exactly();
        self.rooms();
        self.others([6, 7, 8, 8 + 2 * 63, 7 + 2 * 127, 8 + 2 * 127]);
        self.odd(stack);
        self.deeper(depth);
    }

    /// Each entry of that stack with its priority one higher: in the image, and in the words.
    fn odd(&mut self, stack: usize) {
        for index in 0..128 {
            let place = 8 + 2 * index;
            let odd = 255 - 2 * index as u64;
            self.edits([edits::instead(&self.image, place..place + 1, &[odd])]);
        }
        for place in stack..stack + 128 {
            let word = self.words[place];
            self.word(place, word + 1024);
            self.save(16384);
            self.word(place, word);
        }
        self.save(16384);
    }

    /// One entry more than that stack holds, second, and the full stack of request One, whose priorities fall by one each. In words the
    /// depth alone counts.
    fn deeper(&mut self, depth: usize) {
        let one_more = edits::instead(&self.image, 6..9, &[129, 31, 254, 31, 253]);
        let of_one = (0..255).rev().flat_map(|priority| [31, priority]);
        let of_one: Vec<u64> = [255].into_iter().chain(of_one).collect();
        let of_one = edits::instead(&self.image, 6..9 + 2 * 127, &of_one);
        self.edits([one_more, of_one]);
        for entries in [127, 129, 255, 256, u32::MAX, 128] {
            self.word(depth, entries);
            self.save(16384);
        }
    }

    /// Two words of the summary of the ready: 63 and 64 are, 32 and 65 are not pending. A save is refused if a bit below the limit is turned;
    /// from there up none counts, and a load makes them 0.
    fn summary(&mut self) {
        self.lines(&[
            "n 2 66",
            "D 0 0 4 1",
            "C 0 0 4 1",
            "C 0 4 4 255",
            "C 1 0 4 1",
            "C 1 4 4 255",
            "D 0 2080 1 1", // 32, 63 and 64 to vCPU 0, 65 to vCPU 1
            "D 0 2111 1 1",
            "D 0 2112 2 513",
            "D 0 260 4 2147483649",
            "D 0 264 4 3",
            "l 0 63 1",
            "l 0 64 1",
        ]);
        self.save_exactly();
        self.rooms();
        let first = words::size(2, 66) - 2 * STACK_MAX - 2;
        self.each_bit(first);
        self.each_bit(first + 1);
        self.save(16384);
        let flags = [0, 31, 32, 33].map(|spi| 171 + 4 * spi); // 32, 63, 64, 65
        let flags = flags.map(|number| edits::numbers(&self.image)[number].start);
        let flips = edits::flips(&self.image).into_iter();
        self.edits(flips.filter(|edit| flags.contains(&edit.at)));
        self.strewn(first + 1);
    }

    /// The second word of that summary with every bit from the limit up, which stay; its others are false now and then, and are set anew
    /// with their records.
    fn strewn(&mut self, second: usize) {
        const PAST: u32 = !3;
        self.word(second, PAST + 1);
        self.save(16384);
        self.rooms();
        self.lines(&["c 0 12 4"]); // 63
        self.save(16384);
        self.rooms();
        self.word(second, PAST);
        self.save(16384);
        self.lines(&["C 0 16 4 64"]); // which is not served, and not stored
        self.save(16384);
        self.lines(&["D 0 1088 1 0"]); // the priority that 64 has
        self.save(16384);
        for line in ["D 0 264 4 2", "c 1 12 4"] {
            self.word(second, PAST + 3);
            self.save(16384);
            self.lines(&[line]); // 65 is enabled already; it is given
            self.save(16384);
            assert_eq!(self.words[second], PAST + 1);
        }
        self.rooms();
    }

    fn largest(&mut self) {
        self.lines(&["n 8 1020"]);
        self.save_exactly();
        self.rooms();
        self.edits(edits::ends(&self.image)[..2].to_vec());
        self.others([edits::numbers(&self.image).len() - 1]);
    }

    /// Each word in turn with one bit changed: some mean the same, some something else, and the rest are refused.
    fn unlawful(&mut self) {
        self.lines(&["n 2 33", "D 0 0 4 1", "C 1 0 4 1", "C 1 4 4 255"]);
        self.lines(&["D 0 260 4 1", "D 0 2080 1 2", "l 0 32 1", "c 1 12 4"]);
        let stacks = self.words.len() - 2 * STACK_MAX;
        let sgi = 3 + 20;
        let (spi, summary) = (stacks - 2, stacks - 1);
        let places = [0, 1, 2, 3, 4, 5, 6, 7, sgi, sgi + 16, 58, spi, summary];
        for place in places
            .into_iter()
            .chain([stacks, stacks + STACK_MAX, stacks + STACK_MAX + 1])
        {
            self.each_bit(place);
        }
    }

    fn each_bit(&mut self, place: usize) {
        let word = self.words[place];
        for bit in 0..32 {
            self.word(place, word ^ 1 << bit);
            self.save(16384);
        }
        self.word(place, word);
    }
}

fn unchanged() -> Edit {
    Edit {
        at: 0,
        gone: 0,
        put: vec![],
    }
}

fn shown(bytes: &[u8]) -> String {
    if bytes.is_empty() {
        return "-".into();
    }
    bytes.iter().map(|byte| format!("{byte:02x}")).collect()
}

/// A bit for each vCPU whose line is up.
fn lines(gic: &Gic) -> u64 {
    let up = (0..gic.count).filter(|v| gic.irq_level(*v));
    up.fold(0, |set, v| set | 1 << v)
}

fn sum(words: &[u32]) -> u32 {
    let bytes = words.iter().flat_map(|word| word.to_le_bytes());
    bytes.fold(2166136261, |sum, byte| {
        (sum ^ u32::from(byte)).wrapping_mul(16777619)
    })
}
