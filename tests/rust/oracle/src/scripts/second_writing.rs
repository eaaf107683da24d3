//! The second writing of document 01's rules (`model`) beside the oracle: the same answer and the same whole state after every line,
//! from setup on and from any state at all.
use super::{
    Scripts,
    random::Random,
    scene::Scene,
    spoil, steps,
    tests::{LINES, SEEDS},
};
use crate::{
    GicV3Controller, GicVcpuId, IntId, Priority, TriggerMode, access,
    controller::state::State,
    distributor::DistributorState,
    invariants, lines,
    machine::{Call, Machine},
    redistributor::RedistributorState,
    registers::Bank,
    words,
};
use model::{
    gic::Gic,
    lines::{answer_line, answer_line_or_message},
    record::Record,
};
use types::Parts;

fn number(vcpu: GicVcpuId) -> u64 {
    vcpu.raw() as u64
}

fn assert_same_state(gic: &GicV3Controller, second: &Gic) {
    let state = gic.state();
    assert_eq!(state.distributor.enabled(), second.on);
    assert_eq!(state.redistributors.len() as u64, second.count);
    let private = state
        .redistributors
        .iter()
        .flat_map(|(_, own)| own.private.iter());
    let all = private.chain(state.distributor.spis.iter());
    let shown = all.map(|it| (access::parts(&it.record), it.owner.map(number)));
    assert!(shown.eq(second.records.iter().map(|r| (r.parts(), r.owner))));
    assert_eq!(state.distributor.summary, second.summary);
    for (vcpu, (_, own)) in state.redistributors.iter().enumerate() {
        assert_same_interface(own, second, vcpu);
    }
}

fn assert_same_interface(own: &RedistributorState, second: &Gic, vcpu: usize) {
    let cpu = own.cpu_interface();
    assert_eq!(u64::from(cpu.v2_control()), second.ctlr[vcpu]);
    assert_eq!(u64::from(cpu.v2_priority_mask().raw()), second.pmr[vcpu]);
    assert_eq!(u64::from(cpu.v2_binary_point()), second.bpr[vcpu]);
    let stack = cpu.active().iter();
    let stack = stack.map(|(number, priority)| (u64::from(*number), priority.raw()));
    assert!(stack.eq(second.stack[vcpu].iter().copied()));
    assert_eq!(own.sources, second.sources[16 * vcpu..][..16]);
}

/// The same words, which mean the same again, and the same verdict whether the state is lawful.
fn assert_same_words(gic: &GicV3Controller, second: &Gic) {
    let mut expected = vec![];
    words::write(&gic.state(), &mut expected);
    assert_eq!(model::words::write(second), expected);
    let read = model::words::read(&expected).expect("a state");
    assert_same_state(gic, &read);
    assert_eq!(second.is_lawful(), invariants::broken(gic).is_none());
}

/// By whom the second writing answers: `answer_line` or `answer_line_or_message`.
type Answers = fn(&mut Option<Gic>, &[u8], &mut Vec<u8>);

/// What the second writing answers.
fn second_answer(by: Answers, second: &mut Option<Gic>, line: &[u8]) -> String {
    let mut answer = vec![];
    by(second, line, &mut answer);
    String::from_utf8(answer).unwrap().trim_end().into()
}

#[test]
fn the_second_writing_has_the_same_answer_and_state_after_every_line() {
    both_play(Scripts::new, answer_line);
}

#[test]
fn the_second_writing_has_the_same_messages() {
    both_play(Scripts::with_messages, answer_line_or_message);
}

fn both_play(scripts: fn(u64) -> Scripts, by: Answers) {
    for seed in SEEDS {
        let (mut scripts, mut second) = (scripts(seed), None);
        for turn in 0..LINES {
            let (line, answered) = scripts.play();
            let answer = answered.map_or("?".into(), |(_, answer)| answer.to_string());
            let shown = String::from_utf8_lossy(&line);
            assert_eq!(second_answer(by, &mut second, &line), answer, "{shown}");
            match (scripts.machine.controller(), &second) {
                (Some(gic), Some(second)) if turn % 8 == 0 => assert_same_words(gic, second),
                (Some(gic), Some(second)) => assert_same_state(gic, second),
                (gic, second) => assert_eq!(gic.is_some(), second.is_some()),
            }
        }
    }
}

/// Any record at all, also such as no history reaches, and any owner.
fn any_record(random: &mut Random, intid: IntId) -> (Parts, Option<u64>) {
    let bits = random.number();
    let set = |place: u32| bits >> place & 1 == 1;
    let priority = random.pick(&[0, 1, 0x7f, 0x80, 0xfe, 0xff, (bits >> 16) as u8]);
    let parts = Parts {
        intid,
        enabled: set(0),
        pending: set(1),
        active: set(2),
        inflight: set(3),
        redelivery_pending: set(4),
        line_asserted: set(5),
        priority: Priority(priority),
        trigger: random.pick(&[TriggerMode::Level, TriggerMode::Edge]),
        cpu_target_mask: random.percent(70).then_some((bits >> 8) as u8),
    };
    (parts, random.percent(70).then_some(random.below(9)))
}

/// Puts both into one state, whatever it is.
fn scramble(random: &mut Random, state: &mut State, second: &mut Gic) {
    second.on = random.percent(90);
    state.distributor.set_enabled(second.on);
    let vcpus = state.redistributors.iter_mut();
    let private = vcpus.flat_map(|(_, own)| own.private.iter_mut());
    let all = private.chain(state.distributor.spis.iter_mut());
    for (it, record) in all.zip(&mut second.records) {
        let (parts, owner) = any_record(random, it.record.intid());
        it.record = access::make(&parts);
        it.owner = owner.map(|vcpu| GicVcpuId::new(vcpu as usize));
        *record = Record::make(&parts, owner);
    }
    scramble_summary(random, &mut state.distributor);
    second.summary.clone_from(&state.distributor.summary);
    for (vcpu, (_, own)) in state.redistributors.iter_mut().enumerate() {
        scramble_interface(random, own, second, vcpu);
    }
}

/// Bits as the records have them, all but a few so, or any at all; and from the limit up any.
fn scramble_summary(random: &mut Random, distributor: &mut DistributorState) {
    let few = random.pick(&[0, 5, 100]);
    let any = distributor.summary.iter().map(|_| random.number() as u32);
    distributor.summary = any.collect();
    for (index, it) in distributor.spis.iter().enumerate() {
        if !random.percent(few) {
            let (word, bit) = (&mut distributor.summary[index / 32], 1 << (index % 32));
            *word = if it.ready() {
                *word | bit
            } else {
                *word & !bit
            };
        }
    }
}

fn scramble_interface(
    random: &mut Random,
    own: &mut RedistributorState,
    second: &mut Gic,
    vcpu: usize,
) {
    let control = random.pick(&[1, 1, 0x201, 0x201, 0]);
    let (mask, point) = (random.pick(&[255, 255, 0x80, 0]), random.below(8) as u8);
    let cpu = own.cpu_interface_mut();
    cpu.set_v2_control(control);
    cpu.set_v2_priority_mask(mask);
    cpu.set_v2_binary_point(point);
    second.ctlr[vcpu] = control.into();
    second.pmr[vcpu] = mask.into();
    second.bpr[vcpu] = point.into();
    // Odd entries too, which no history makes: they are compared as they are stored.
    for _ in 0..random.pick(&[0, 0, 1, 3, 127, 128]) {
        let (raw, priority) = (random.below(1020), random.below(256) as u8);
        cpu.push_v2_active(IntId::new(raw as u32).unwrap(), Priority(priority));
        second.stack[vcpu].push((raw, priority));
    }
    for sgi in 0..16 {
        let sources = (random.number() & random.number()) as u8;
        own.sources[sgi] = sources;
        second.sources[16 * vcpu + sgi] = sources;
    }
}

/// Both in one state, whatever it is, and the lines of a few steps to take from there, perhaps with messages among them.
fn any_start(random: &mut Random, messages: bool) -> (Machine, Option<Gic>, Vec<Vec<u8>>) {
    let mut scene = Scene::new(random);
    if messages {
        scene.open_window(random);
    }
    let (count, limit) = (scene.count, scene.limit);
    let setup = Call::Setup { count, limit };
    let (mut machine, mut second) = (Machine::default(), None);
    machine.call(&setup).unwrap();
    second_answer(answer_line, &mut second, setup.to_string().as_bytes());
    let gic = machine.controller().unwrap();
    scramble(random, &mut gic.state(), second.as_mut().unwrap());
    let mut lines = vec![];
    for _ in 0..20 {
        for call in steps::next(&mut scene, random) {
            lines.extend(spoil::lines(random, &scene, call));
        }
    }
    (machine, second, lines)
}

#[test]
fn from_any_state_too() {
    from_any_state(false, lines::parse, answer_line);
}

#[test]
fn from_any_state_with_messages_too() {
    let rung = from_any_state(true, lines::parse_with_messages, answer_line_or_message);
    assert!(rung > 1000, "{rung}");
}

/// How many messages changed something.
fn from_any_state(messages: bool, parse: lines::Parse, by: Answers) -> usize {
    let mut random = Random::new(0);
    let (mut refused_by_7, mut false_bits, mut rung) = (0, 0, 0);
    for _ in 0..2000 {
        let (mut machine, mut second, lines) = any_start(&mut random, messages);
        assert_same_words(machine.controller().unwrap(), second.as_ref().unwrap());
        for line in lines {
            let before = machine.controller().unwrap().clone();
            let answer = lines::answer(&mut machine, parse(&line)).unwrap();
            let shown = String::from_utf8_lossy(&line);
            assert_eq!(second_answer(by, &mut second, &line), answer, "{shown}");
            assert_same_state(machine.controller().unwrap(), second.as_ref().unwrap());
            refused_by_7 += usize::from(answer.starts_with('7'));
            false_bits += usize::from(gave_unready(&before, &line, &answer));
            let changed = *machine.controller().unwrap().state() != *before.state();
            rung += usize::from(line.starts_with(b"M ") && changed);
        }
    }
    assert!(refused_by_7 > 100, "{refused_by_7}");
    assert!(false_bits > 100, "{false_bits}");
    rung
}

/// Whether an acknowledge gave an SPI that was not ready by its record.
fn gave_unready(before: &GicV3Controller, line: &[u8], answer: &str) -> bool {
    let number = answer.split(' ').nth(1).and_then(|it| it.parse().ok());
    let spi = number.and_then(|number| before.state().distributor.find(number).cloned());
    let call = lines::parse(line).filter(|call| call.is_acknowledge());
    call.is_some() && spi.is_some_and(|it| !it.ready())
}
