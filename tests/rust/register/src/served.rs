//! The registers that v2.rs serves itself, told by the value that it read and by the calls of its read and its write.
use crate::{
    RegisterRegion,
    log::{Call, call, view},
    tokens::{Access, VCPU},
};

pub fn name(access: Access, value: u64, read: &[Call], write: &[Call]) -> Option<String> {
    match access.region {
        RegisterRegion::Distributor => distributor(value, read, write)
            .map(str::to_string)
            .or_else(|| low_targets(access, value, read, write))
            .or_else(|| byte_register(access, value, read, write)),
        RegisterRegion::CpuInterface => cpu_interface(value, read, write).map(str::to_string),
    }
}

fn distributor(value: u64, read: &[Call], write: &[Call]) -> Option<&'static str> {
    match (value, &view(read)[..], &view(write)[..]) {
        (1, [("enabled", [])], [("write_distributor", [0, 4, 2])]) => Some("ctlr"),
        (0xff, [], []) => Some("typer"),
        (0x0002_043b, [], []) => Some("iidr"),
        (0, [], [("send_sgi", [VCPU, 1, 0b100])]) => Some("sgir"),
        _ => None,
    }
}

/// Target bytes 0 to 31, for which nothing is asked: each reads the vCPU's bit, and only the offset tells the first number.
fn low_targets(access: Access, value: u64, read: &[Call], write: &[Call]) -> Option<String> {
    let size = access.width.size() as u64;
    let bits: u64 = (0..size).map(|byte| 1 << VCPU << (8 * byte)).sum();
    let first = access.offset.checked_sub(0x800)?;
    (value == bits && read.is_empty() && write.is_empty() && first + size <= 32)
        .then(|| format!("itargetsr{first}"))
}

/// A byte register whose numbers are asked for: the first of them, and with each further byte the next.
fn byte_register(access: Access, value: u64, read: &[Call], write: &[Call]) -> Option<String> {
    let first = match (value, &view(read)[..]) {
        (0, [("cpu_target_mask", [spi]), ..]) => *spi,
        (0, [_, ("sgi_sources", [sgi]), ..]) => *sgi,
        _ => return None,
    };
    let bytes = |calls: &dyn Fn(u64, u64) -> Vec<Call>| -> Vec<Call> {
        (0..access.width.size() as u64)
            .flat_map(|byte| calls(byte, first + byte))
            .collect()
    };
    let targets_read = bytes(&|_, spi| vec![call("cpu_target_mask", [spi])]);
    let targets_written = bytes(&|byte, spi| {
        vec![
            call("set_cpu_target_mask", [spi, 1 << byte]),
            call("has_software_backing", [spi]),
            call("queue_spi_if_deliverable", [spi]),
        ]
    });
    let mut sources_read = vec![call("read SGI source-pending register", [VCPU])];
    sources_read.extend(bytes(&|_, sgi| vec![call("sgi_sources", [sgi])]));
    let sources_cleared = bytes(&|byte, sgi| {
        vec![
            call("clear SGI source-pending register", [VCPU]),
            call("clear_sgi_sources", [sgi, 1 << byte]),
        ]
    });
    let sources_set = bytes(&|byte, sgi| {
        vec![
            call("set SGI source-pending register", [VCPU]),
            call("pend_sgi", [byte, sgi]),
            call("queue_local_if_deliverable", [VCPU, sgi]),
        ]
    });
    let name = if read == targets_read && write == targets_written {
        "itargetsr"
    } else if read == sources_read && write == sources_cleared {
        "cpendsgir"
    } else if read == sources_read && write == sources_set {
        "spendsgir"
    } else {
        return None;
    };
    Some(format!("{name}{first}"))
}

fn cpu_interface(value: u64, read: &[Call], write: &[Call]) -> Option<&'static str> {
    match (value, &view(read)[..], &view(write)[..]) {
        (
            0,
            [("read GICC_CTLR", [VCPU]), ("v2_control", [])],
            [
                ("write GICC_CTLR", [VCPU]),
                ("set_v2_control", [0x0804_0201]),
            ],
        ) => Some("ctlr"),
        (
            0,
            [("read GICC_PMR", [VCPU]), ("v2_priority_mask", [])],
            [("write GICC_PMR", [VCPU]), ("set_v2_priority_mask", [1])],
        ) => Some("pmr"),
        (
            0,
            [("read GICC_BPR", [VCPU]), ("v2_binary_point", [])],
            [("write GICC_BPR", [VCPU]), ("set_v2_binary_point", [1])],
        ) => Some("bpr"),
        (
            1023,
            [
                ("enabled", []),
                ("read GICC_IAR", [VCPU]),
                ("v2_enabled", []),
                ("v2_priority_mask", []),
                ("read GICC_IAR", [VCPU]),
                ("highest_pending", []),
            ],
            [],
        ) => Some("iar"),
        (
            0,
            [],
            [
                ("write GICC_EOIR", [VCPU]),
                ("drop_v2_priority", [513]),
                ("v2_eoi_mode", []),
                ("deactivate_interrupt", [VCPU, 513]),
            ],
        ) => Some("eoir"),
        (0, [("read GICC_RPR", [VCPU]), ("v2_running_priority", [])], []) => Some("rpr"),
        (
            1023,
            [
                ("read GICC_HPPIR", [VCPU]),
                ("enabled", []),
                ("v2_enabled", []),
                ("read GICC_HPPIR", [VCPU]),
                ("v2_priority_mask", []),
                ("highest_pending", []),
            ],
            [],
        ) => Some("hppir"),
        (0x0002_043b, [], []) => Some("iidr"),
        (0, [], [("deactivate_interrupt", [VCPU, 513])]) => Some("dir"),
        (0, [], []) => Some("-"),
        _ => None,
    }
}
