//! Histories with messages and other accesses to the frame in them.
use crate::{
    Cast, Gic, Kind, Random, SPURIOUS, Scene, Tally, access::Access, attend, expect, note, pulsed,
    woken,
};
use model::words;

/// "Demand 3's sequences include these calls": refused ones too, which leave every word.
#[test]
fn histories_with_messages_are_lawful() {
    let mut tally = Tally::default();
    let mut random = Random::new(7777);
    for _ in 0..250 {
        let mut scene = Scene::new(&mut random, Cast::new);
        for _ in 0..6 {
            scene.play(&mut random);
            if random.percent(60) {
                attend(&mut random, &mut scene);
            }
            for _ in 0..6 {
                let access = Access::any(&mut random, &scene.cast);
                see_access(&mut tally, &mut scene.gic, access);
            }
        }
    }
    tally.print();
    let least = [
        ("refused by 11", 1000),
        ("refused by 1", 700),
        ("refused by 2", 700),
        ("rang", 3000),
        ("woke", 500),
        ("did nothing", 700),
        ("read TYPER", 50),
    ];
    expect(&tally, "an access", Kind::Reached, &least);
}

fn see_access(tally: &mut Tally, gic: &mut Gic, access: Access) {
    let before = gic.clone();
    let answer = access.run(gic);
    let refusal = access.refusal(gic.limit);
    let rings = (refusal == 0).then(|| access.rings()).flatten();
    let value = if refusal == 0 { access.value_read() } else { 0 };
    let expected = [refusal, value, woken(&before, gic), SPURIOUS];
    assert_eq!(answer, expected, "{access:x?}");
    let words = rings.map_or_else(|| words::write(&before), |spi| pulsed(&before, spi));
    assert_eq!(words::write(gic), words, "{access:x?}");
    assert!(gic.is_lawful());
    let what = match refusal {
        0 if rings.is_some() => "rang",
        0 if value != 0 => "read TYPER",
        0 => "did nothing",
        1 => "refused by 1",
        2 => "refused by 2",
        _ => "refused by 11",
    };
    let facts = [(what, true), ("woke", answer[2] != 0)];
    note(tally, "an access", Kind::Reached, &facts);
}
