//! That the three that are measured give the same answers on every workload.
use bench::{
    Controller, Library, Oracle, Plain, Sum,
    measure::{Figure, time},
    moves,
    programs::Measured,
    workloads::{self, Shape},
};

fn answers<C: Controller>(shape: Shape, turns: u64) -> Vec<Sum> {
    let all = workloads::all::<C>();
    all.iter()
        .map(|workload| time(workload, shape, turns).1)
        .collect()
}

#[test]
fn the_same_answers() {
    for (count, limit) in [(2, 1020), (2, 64), (8, 1020), (8, 64), (8, 200)] {
        let shape = Shape { count, limit };
        let ours = answers::<Library>(shape, 100);
        assert_eq!(ours, answers::<Plain>(shape, 100), "{shape:?}");
        assert_eq!(ours, answers::<Oracle>(shape, 100), "{shape:?}");
        assert!(ours.iter().all(|sum| *sum != Sum::default()), "{shape:?}");
    }
}

#[test]
fn the_same_answers_by_a_program() {
    const TURNS: &str = env!("CARGO_BIN_EXE_turns");
    let shape = Shape {
        count: 2,
        limit: 64,
    };
    let time = |program, controller, index| {
        let measured = Measured {
            name: controller,
            program,
            controller,
        };
        measured.time(index, shape, 10)
    };
    for (index, expected) in answers::<Library>(shape, 10).iter().enumerate() {
        for controller in [Library::NAME, Plain::NAME, Oracle::NAME] {
            let (each, gave) = time(TURNS, controller, index).expect("turns taken");
            assert!(each > 0.0, "{controller}");
            assert_eq!(gave, expected.to_string(), "{controller}");
        }
    }
    assert!(time(TURNS, "another", 0).is_err());
    let end = workloads::all::<Library>().len();
    for index in end..end + moves::NAMES.len() {
        let [ours, plain] = [Library::NAME, Plain::NAME].map(|it| time(TURNS, it, index));
        assert_eq!(ours.expect("turns taken").1, plain.expect("turns taken").1);
        assert!(time(TURNS, Oracle::NAME, index).is_err());
    }
    let none = end + moves::NAMES.len();
    assert!(time(TURNS, Library::NAME, none).is_err());
    assert!(time("true", Library::NAME, 0).is_err());
}

#[test]
fn the_same_images_and_the_same_words() {
    for (count, limit) in [(8, 1020), (2, 64)] {
        let shape = Shape { count, limit };
        for index in 0..moves::NAMES.len() {
            let ours = moves::time::<Library>(index, shape, 2).map(|it| it.1);
            let plain = moves::time::<Plain>(index, shape, 2).map(|it| it.1);
            assert!(ours.is_some() && ours == plain, "{shape:?}");
        }
    }
}

/// It is no fresh controller that is saved and loaded.
#[test]
fn the_busy_one_is_busy() {
    let words = moves::busy(Shape {
        count: 8,
        limit: 1020,
    });
    let records = &words[3 + 52 * 8..][..988];
    let of = |flags: u32| records.iter().filter(|word| *word & flags != 0).count();
    assert!(of(2) > 300 && of(8) == 32, "{} {}", of(2), of(8));
    assert!((0..8).all(|vcpu| words[3 + 52 * vcpu + 3] == 4));
}

#[test]
fn a_median_and_its_spread() {
    let figure = Figure::of(vec![8.0, 12.0, 10.0]);
    assert_eq!((figure.median, figure.spread()), (10.0, 20.0));
    assert_eq!(Figure::of(vec![1.0, 3.0]).median, 2.0);
}
