//! Images: saved in the midst of histories, and of words with a bit changed; offered as they are, and changed in every way; and histories that
//! go on with what was loaded.
use crate::{
    Difference, Library, Mix,
    histories::Scenes,
    pair::Pair,
    request::Request,
    slots::{places, summary},
};
use model::edits::{self, Edit};
use oracle::scripts::random::Random;

/// So many calls of histories, saves and loads.
pub fn play<L: Library>(
    pair: &mut Pair<L>,
    mix: Mix,
    seed: u64,
    calls: u64,
) -> Result<(), Difference> {
    let mut images = Images {
        scenes: Scenes::new(mix, seed.rotate_left(32)),
        random: Random::new(seed.rotate_left(16)),
        earlier: vec![],
    };
    let end = pair.tally.calls + calls;
    while pair.tally.calls < end {
        let steps = 1 + images.random.below(150);
        images.scenes.play(pair, steps)?;
        images.stop(pair)?;
    }
    Ok(())
}

/// At most so many changes of one kind are made in one image: all of them in that of one vCPU without SPIs.
const MANY: usize = 1000;

/// Kinds of changes, and how often each is chosen.
type Kind = fn(&[u8]) -> Vec<Edit>;
const KINDS: [(u64, Kind); 5] = [
    (2, edits::cuts),
    (6, edits::flips),
    (2, edits::longer),
    (6, edits::others),
    (1, edits::ends),
];

struct Images {
    scenes: Scenes,
    random: Random,
    /// The image of an earlier stop.
    earlier: Vec<u8>,
}

impl Images {
    /// The guest is stopped, and goes on elsewhere; in between much is tried.
    fn stop<L: Library>(&mut self, pair: &mut Pair<L>) -> Result<(), Difference> {
        let room = pair.room();
        if pair.call(&Request::Save { room })?.refusal != 0 {
            return Ok(());
        }
        let (image, words) = (pair.image.clone(), pair.words().to_vec());
        self.save_into(pair, image.len())?;
        self.save_changed(pair, &words)?;
        pair.lend(self.scenes.words(words.len()));
        self.offer_changed(pair, &image)?;
        self.offer_mixed(pair, &image)?;
        self.offer_bytes(pair)?;
        self.offer_too_few(pair, &image, words.len())?;
        pair.lend(words);
        self.scenes.load(pair, image.as_slice().into())?;
        self.earlier = image;
        Ok(())
    }

    /// Into as many bytes as it takes, some fewer and some more.
    fn save_into<L: Library>(
        &mut self,
        pair: &mut Pair<L>,
        length: usize,
    ) -> Result<(), Difference> {
        let fewer = self.random.below(length as u64) as usize;
        for room in [length, 1, length - 1, length + 9, fewer, 0] {
            pair.call(&Request::Save { room })?;
        }
        Ok(())
    }

    /// Words with a few bits changed: what counts for nothing is saved as before, and what is not lawful is refused.
    fn save_changed<L: Library>(
        &mut self,
        pair: &mut Pair<L>,
        words: &[u32],
    ) -> Result<(), Difference> {
        let (stacks, served) = (places(words, 0).1 as u64, served(words));
        let summary: Vec<usize> = summary(words).collect();
        for _ in 0..40 {
            let mut changed = words.to_vec();
            for _ in 0..self.random.pick(&[1, 1, 1, 2]) {
                if self.random.percent(20) && !served.is_empty() {
                    changed[self.random.pick(&served)] ^= 1 << self.random.below(18);
                    continue;
                }
                if self.random.percent(10) && !summary.is_empty() {
                    changed[self.random.pick(&summary)] ^= 1 << self.random.below(32);
                    continue;
                }
                let places = self.random.pick(&[stacks, stacks, words.len() as u64]);
                changed[self.random.below(places) as usize] ^= 1 << self.random.below(32);
            }
            pair.lend(changed);
            let room = self.random.pick(&[16 << 10, 16 << 10, 50]);
            pair.call(&Request::Save { room })?;
        }
        Ok(())
    }

    /// Every change of one kind, or as many as are made.
    fn offer_changed<L: Library>(
        &mut self,
        pair: &mut Pair<L>,
        image: &[u8],
    ) -> Result<(), Difference> {
        let mut changes = self.random.weighed(&KINDS)(image);
        while changes.len() > MANY {
            let left_out = self.random.below(changes.len() as u64);
            changes.swap_remove(left_out as usize);
        }
        for change in changes {
            offer(pair, &change.of(image))?;
        }
        Ok(())
    }

    /// Several changes in one image, and the front of one before the back of another.
    fn offer_mixed<L: Library>(
        &mut self,
        pair: &mut Pair<L>,
        image: &[u8],
    ) -> Result<(), Difference> {
        for _ in 0..20 {
            let mut mixed = image.to_vec();
            for _ in 0..2 + self.random.below(3) {
                mixed = self.changed_number(&mixed);
            }
            offer(pair, &mixed)?;
        }
        for _ in 0..5 {
            let front = self.random.below(image.len() as u64) as usize;
            let back = self.random.below(self.earlier.len() as u64 + 1) as usize;
            let back = self.random.pick(&[back, front.min(self.earlier.len())]);
            offer(pair, &[&image[..front], &self.earlier[back..]].concat())?;
        }
        Ok(())
    }

    /// With another number in the place of one; a small one, which is often a lawful one.
    fn changed_number(&mut self, image: &[u8]) -> Vec<u8> {
        let places = edits::numbers(image);
        let place = &places[self.random.below(places.len() as u64) as usize];
        let change = Edit {
            at: place.start,
            gone: place.len(),
            put: vec![self.random.below(128) as u8],
        };
        change.of(image)
    }

    fn offer_bytes<L: Library>(&mut self, pair: &mut Pair<L>) -> Result<(), Difference> {
        for _ in 0..10 {
            offer(pair, &bytes(&mut self.random))?;
        }
        Ok(())
    }

    /// To words that are too few: 9 comes before 5.
    fn offer_too_few<L: Library>(
        &mut self,
        pair: &mut Pair<L>,
        image: &[u8],
        enough: usize,
    ) -> Result<(), Difference> {
        let few = self.random.below(enough as u64) as usize;
        pair.lend(self.scenes.words(few));
        offer(pair, image)?;
        offer(pair, &image[1..])?;
        offer(pair, &[image, &[0]].concat())
    }
}

/// Where the entries stand that are on a stack.
fn served(words: &[u32]) -> Vec<usize> {
    let vcpus = (0..words[0].into()).map(|vcpu| places(words, vcpu));
    vcpus
        .flat_map(|(own, stack)| stack..stack + words[own + 3] as usize)
        .collect()
}

fn offer<L: Library>(pair: &mut Pair<L>, image: &[u8]) -> Result<(), Difference> {
    pair.call(&Request::Load(image.into()))?;
    Ok(())
}

/// Any bytes; at times such as an image begins with, and small ones.
pub fn bytes(random: &mut Random) -> Vec<u8> {
    let mask = random.pick(&[0xff, 0x7f, 0x41, 0]);
    let length = random.pick(&[0, 1, 5, 87, 100, 400]);
    let mut bytes: Vec<u8> = (0..length).map(|_| random.number() as u8 & mask).collect();
    if random.percent(70) {
        let front = [1 + random.below(8) as u8, 32 + random.below(96) as u8];
        bytes.splice(..0, front);
    }
    bytes
}
