//! The card's first story: what it rings for while its SPI is in flight is given after the end, once, to whoever reads.
use crate::{
    Random, SPURIOUS, Tally, Window, any_spi, expect, note, states::Kind, told, unwind, walk,
};
use model::{TriggerMode, gic::Gic};
use types::register::*;

/// A card with one SPI of its window, after any history.
struct Card {
    gic: Gic,
    window: Window,
    spi: u64,
}

impl Card {
    /// Everything is on, all lines are low, and everything under service is ended. The SPI goes to everybody, and nothing of it is left.
    fn new(random: &mut Random, gic: &Gic, spi: u64) -> Card {
        let window = Window::around(random, gic.limit, spi, spi);
        let mut gic = gic.clone();
        gic.dist_write(0, GICD_CTLR, 4, 1);
        for vcpu in 0..gic.count {
            gic.cpu_write(vcpu, GICC_CTLR, 4, random.pick(&[1, 0x201]));
            gic.cpu_write(vcpu, GICC_PMR, 4, 255);
            unwind(&mut gic, vcpu);
            for ppi in 16..32 {
                gic.input(vcpu, ppi, Some(false));
            }
        }
        for spi in 32..gic.limit {
            gic.input(0, spi, Some(false));
        }
        let (word, bit) = (spi / 32 * 4, 1 << (spi % 32));
        for register in [GICD_ICACTIVER, GICD_ICPENDR, GICD_ISENABLER] {
            gic.dist_write(0, register + word, 4, bit);
        }
        gic.dist_write(0, GICD_ITARGETSR + spi, 1, 255);
        gic.dist_write(0, GICD_ICFGR + spi / 16 * 4, 4, random.number());
        let priority = random.pick(&[0, 1, 0x40, 0x80, 254]);
        gic.dist_write(0, GICD_IPRIORITYR + spi, 1, priority);
        Card { gic, window, spi }
    }

    /// Gives the wake set.
    fn ring(&mut self) -> u64 {
        let [refusal, value, wake, retired] = self.window.ring(&mut self.gic, self.spi);
        assert_eq!([refusal, value, retired], [0, 0, SPURIOUS]);
        wake
    }

    fn in_eoi_mode(&self, vcpu: u64) -> bool {
        self.gic.ctlr[vcpu as usize] & 0x200 != 0
    }

    /// Ends it, in EOI mode by two writes, between which something may happen; gives who is woken, and what is retired.
    fn end(&mut self, vcpu: u64, number: u64, between: impl FnOnce(&mut Card)) -> (u64, u64) {
        let [_, _, wake, retired] = told(self.gic.cpu_write(vcpu, GICC_EOIR, 4, number));
        if !self.in_eoi_mode(vcpu) {
            return (wake, retired);
        }
        assert_eq!(retired, SPURIOUS);
        between(self);
        let [_, _, later, retired] = told(self.gic.cpu_write(vcpu, GICC_DIR, 4, number));
        (wake | later, retired)
    }

    /// A vCPU takes the next, and ends it at once if it is not the card's, which it says; None if nothing is left.
    fn take(&mut self, vcpu: u64) -> Option<bool> {
        let given = told(self.gic.cpu_read(vcpu, GICC_IAR, 4))[1];
        let own = given == self.spi;
        if !own && given != SPURIOUS {
            self.end(vcpu, given % 1024, |_| {});
        }
        (given != SPURIOUS).then_some(own)
    }

    /// How many others a vCPU takes before the card's SPI; None if it is not given this at all.
    fn others_before(&mut self, vcpu: u64) -> Option<u64> {
        let mut others = 0;
        while !self.take(vcpu)? {
            others += 1;
        }
        Some(others)
    }

    /// How often a vCPU is given the card's SPI until nothing is left.
    fn served(&mut self, vcpu: u64) -> u64 {
        let mut times = 0;
        while self.others_before(vcpu).is_some() {
            times += 1;
            assert_eq!(self.end(vcpu, self.spi, |_| {}).1, self.spi);
        }
        times
    }

    /// Those whom IAR would give a number.
    fn awake(&self) -> u64 {
        (0..self.gic.count).fold(0, |all, v| all | u64::from(self.gic.irq_level(v)) << v)
    }

    fn everybody(&self) -> u64 {
        (1 << self.gic.count) - 1
    }

    fn is_edge(&self) -> bool {
        let record = &self.gic.records[self.gic.slot(0, self.spi)];
        record.parts().trigger == TriggerMode::Edge
    }

    /// Pending, active, in flight, noted.
    fn flags(&self) -> [bool; 4] {
        let parts = self.gic.records[self.gic.slot(0, self.spi)].parts();
        [
            parts.pending,
            parts.active,
            parts.inflight,
            parts.redelivery_pending,
        ]
    }
}

#[test]
fn a_message_in_flight_is_given_after_the_end() {
    let mut tally = Tally::default();
    walk(70, 250, |random, cast, kind, gic| {
        if cast.limit > 32 && kind == Kind::Reached {
            let spi = any_spi(random, cast);
            let card = Card::new(random, gic, spi);
            see_card(&mut tally, random, card);
        }
    });
    tally.print();
    let least = [
        ("given again", 300),
        ("not rung again", 150),
        ("several messages", 150),
        ("only between the ends", 60),
        ("by another vCPU", 150),
        ("others before it", 60),
        ("edge", 100),
        ("level", 100),
    ];
    expect(&tally, "a card", Kind::Reached, &least);
}

fn see_card(tally: &mut Tally, random: &mut Random, mut card: Card) {
    let (vcpu, next) = (random.below(card.gic.count), random.below(card.gic.count));
    let asleep = card.everybody() & !card.awake();
    assert_eq!(card.flags(), [false; 4]);
    assert_eq!(card.ring(), asleep);
    let others = card.others_before(vcpu).expect("the card is heard");
    assert_eq!(card.flags(), [false, true, true, false]);

    // In flight it is given to nobody, however often it is rung for.
    let early = random.pick(&[0, 0, 1, 2]);
    let late = if card.in_eoi_mode(vcpu) {
        random.below(3)
    } else {
        0
    };
    (0..early).for_each(|_| assert_eq!(card.ring(), 0));
    assert_eq!(card.flags(), [early > 0, true, true, early > 0]);
    assert!((0..card.gic.count).all(|it| card.served(it) == 0));
    assert_eq!(card.awake(), 0);

    // Its end wakes everybody if it was rung for, and else nobody but for what waited behind it.
    let ring_late = |card: &mut Card| (0..late).for_each(|_| assert_eq!(card.ring(), 0));
    let (wake, retired) = card.end(vcpu, card.spi, ring_late);
    let again = early + late > 0;
    assert_eq!(retired, card.spi);
    assert_eq!(card.flags(), [again, false, false, false]);
    let woken = if again {
        card.everybody()
    } else {
        wake & 1 << vcpu
    };
    assert_eq!((wake, card.awake()), (woken, woken));
    assert_eq!(card.served(next), u64::from(again));
    assert_eq!(card.flags(), [false; 4]);
    assert!(card.gic.is_lawful());

    let facts = [
        ("given again", again),
        ("not rung again", !again),
        ("several messages", early + late > 1),
        ("only between the ends", early == 0 && late > 0),
        ("by another vCPU", again && next != vcpu),
        ("others before it", others > 0),
        ("edge", again && card.is_edge()),
        ("level", again && !card.is_edge()),
    ];
    note(tally, "a card", Kind::Reached, &facts);
}
