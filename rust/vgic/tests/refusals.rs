//! Every refusal through the safe face, and that each leaves every word as it was.
use vgic::{
    AccessWidth::{Byte, Dword, Qword},
    Gic, GicVcpuId, IntId, Refusal, Reply, offset, state_words,
};

const FIRST: GicVcpuId = GicVcpuId(0);

/// One vCPU, everything on, SGI 1 pending.
fn ready() -> Vec<u32> {
    let mut words = vec![0; state_words(1, 40).unwrap()];
    let mut gic = Gic::lend(&mut words);
    gic.setup(1, 40).unwrap();
    gic.write_v2_distributor(FIRST, offset::GICD_CTLR, Dword, 1)
        .unwrap();
    gic.write_v2_cpu_interface(FIRST, offset::GICC_CTLR, Dword, 1)
        .unwrap();
    gic.write_v2_cpu_interface(FIRST, offset::GICC_PMR, Dword, 255)
        .unwrap();
    let sgi = 2 << 24 | 1;
    let sent = gic.write_v2_distributor(FIRST, offset::GICD_SGIR, Dword, sgi);
    assert!(sent.unwrap().wake.contains(FIRST));
    words
}

/// The call is refused so, and changes nothing.
fn refused(
    words: &mut [u32],
    refusal: Refusal,
    call: impl FnOnce(&mut Gic) -> Result<Reply, Refusal>,
) {
    let before = words.to_vec();
    assert_eq!(call(&mut Gic::lend(words)), Err(refusal));
    assert_eq!(words, before);
}

#[test]
fn a_guest_and_a_device() {
    let mut words = ready();
    refused(&mut words, Refusal::Access, |gic| {
        gic.read_v2_distributor(FIRST, u64::MAX, Byte)
    });
    refused(&mut words, Refusal::Width, |gic| {
        gic.write_v2_distributor(FIRST, offset::GICD_ITARGETSR, Qword, 1)
    });
    refused(&mut words, Refusal::Vcpu, |gic| {
        gic.write_v2_cpu_interface(GicVcpuId(1), offset::GICC_PMR, Dword, 1)
    });
    refused(&mut words, Refusal::Input, |gic| {
        gic.pulse(FIRST, IntId(15))
    });
    refused(&mut words, Refusal::Input, |gic| {
        gic.set_level(FIRST, IntId(40), true)
    });
}

#[test]
fn setup() {
    let mut words = ready();
    let fresh =
        |count, limit| move |gic: &mut Gic| gic.setup(count, limit).map(|()| Reply::default());
    refused(&mut words, Refusal::Limits, fresh(0, 40));
    refused(&mut words, Refusal::Limits, fresh(1, 1021));
    refused(&mut words, Refusal::ShortState, fresh(2, 40));
    refused(&mut words[..191], Refusal::ShortState, fresh(1, 40));
    assert_eq!((state_words(1, 40), state_words(9, 40)), (Some(192), None));
}

#[test]
fn words_that_are_no_state() {
    for mut words in [
        vec![],
        vec![1],
        vec![1, 40],
        vec![u32::MAX; 192],
        ready()[..191].to_vec(),
    ] {
        refused(&mut words, Refusal::BrokenState, |gic| {
            gic.read_v2_cpu_interface(FIRST, offset::GICC_IAR, Dword)
        });
    }
    let mut deep = ready();
    deep[3 + 3] = 129;
    refused(&mut deep, Refusal::BrokenState, |gic| {
        gic.pulse(FIRST, IntId(33))
    });
}

#[test]
fn a_full_stack() {
    let mut full = ready();
    let stack = full.len() - 128;
    full[3 + 3] = 128;
    full[stack + 127] = 5 | 128 << 10; // SGI 5, at a priority that SGI 1 is above
    refused(&mut full, Refusal::FullStack, |gic| {
        gic.read_v2_cpu_interface(FIRST, offset::GICC_IAR, Dword)
    });
    let mut gic = Gic::lend(&mut full);
    let pending = gic.read_v2_cpu_interface(FIRST, offset::GICC_HPPIR, Dword);
    assert_eq!(pending.unwrap().value, 1);
}
