//! Random histories, without messages and with them, and every place of both frames and of the message frame in the midst of them: answered as
//! the oracle answers.
use oracle::{
    lines,
    scripts::{Histories, random::Random},
};

/// Lines that both answer.
struct Both {
    ours: simple::lines::Machine,
    oracle: oracle::machine::Machine,
    parse: (simple::lines::Parse, lines::Parse),
    histories: Histories,
    /// Large scenes are slow, and most of them are passed over.
    passed_over: bool,
    random: Random,
    /// How many lines both have answered.
    compared: u64,
}

/// The limit from which a scene is large.
const LARGE: u64 = 200;

impl Both {
    fn new(seed: u64) -> Self {
        Self {
            ours: Default::default(),
            oracle: Default::default(),
            parse: (simple::lines::parse, lines::parse),
            histories: Histories::new(seed),
            passed_over: false,
            random: Random::new(!seed),
            compared: 0,
        }
    }

    fn with_messages(seed: u64) -> Self {
        Self {
            parse: (
                simple::lines::parse_with_messages,
                lines::parse_with_messages,
            ),
            histories: Histories::with_messages(seed),
            ..Self::new(seed)
        }
    }

    /// The oracle's answer, if it is a call and both give the same.
    fn line(&mut self, line: &[u8]) -> Option<oracle::machine::Answer> {
        let (ours, oracle) = self.parse;
        let (call, ours) = (oracle(line), ours(line));
        let shown = String::from_utf8_lossy(line);
        assert_eq!(call.is_some(), ours.is_some(), "{shown}");
        let expected = self.oracle.call(&call?).expect("a sound oracle");
        let given = match self.ours.call(ours?) {
            Ok(reply) => {
                let retired = reply.retired.map_or(1023, u32::from);
                format!("0 {} {} {retired}", reply.value, reply.wake)
            }
            Err(refusal) => format!("{} 0 0 1023", refusal as u8),
        };
        assert_eq!(given, expected.to_string(), "{shown}");
        self.compared += 1;
        Some(expected)
    }

    fn step(&mut self) {
        let line = self.histories.line();
        if let Some(oracle::machine::Call::Setup { limit, .. }) = lines::parse(&line) {
            self.passed_over = limit >= LARGE && self.random.percent(75);
        }
        if self.passed_over {
            return;
        }
        if let Some(answer) = self.line(&line) {
            let call = self.parse.1(&line).expect("it was answered");
            self.histories.see(&call, &answer);
        }
    }
}

#[test]
fn histories() {
    for seed in 1..=4 {
        play(Both::new(seed));
    }
}

#[test]
fn histories_with_messages() {
    for seed in 1..=4 {
        play(Both::with_messages(seed));
    }
}

fn play(mut both: Both) {
    while both.compared < 200_000 {
        both.step();
    }
}

#[test]
fn every_place() {
    places(Both::new(5));
}

#[test]
fn every_place_among_messages() {
    places(Both::with_messages(5));
}

fn places(mut both: Both) {
    for (letters, end) in [(["d", "D"], 0x1010), (["c", "C"], 0x2010)] {
        for offset in 0..end {
            for width in [1, 2, 4, 8] {
                let vcpu = both.random.pick(&[0, 1, 2, 3, 7, 8, u64::MAX]);
                let value = both.random.number() & both.random.number();
                let at = format!("{vcpu} {offset} {width}");
                both.line(format!("{} {at} {value}", letters[1]).as_bytes());
                both.line(format!("{} {at}", letters[0]).as_bytes());
                both.step();
                both.step();
            }
        }
    }
}

/// Windows in and out of the limits of most scenes, and numbers of them.
#[test]
fn every_place_of_the_message_frame() {
    let mut both = Both::with_messages(6);
    let windows = [
        "32 1",
        "33 1",
        "32 8",
        "32 988",
        "31 2",
        "33 0",
        "1019 1",
        "33 18446744073709551615",
    ];
    for offset in (0..0x1010).chain(u64::MAX - 8..=u64::MAX) {
        for width in [1, 2, 4, 8] {
            let window = both.random.pick(&windows);
            let value = both.random.pick(&[32, 33, 39, 65569, 4294967329, u64::MAX]);
            let at = format!("{window} {offset} {width}");
            both.line(format!("M {at} {value}").as_bytes());
            both.line(format!("M {window} 64 4 {value}").as_bytes());
            both.line(format!("m {at}").as_bytes());
            both.step();
            both.step();
        }
    }
}
