//! Document 01's rules for the Distributor places that v2.rs passes on without deciding: which widths they allow, how they are shown.
use crate::{
    AccessWidth, VgicResult,
    controller::access,
    register::{GICD_IPRIORITYR, Place},
};

/// Past a word's first byte only narrower accesses are aligned, so the word's test refuses all of these too.
pub fn test(offset: u64, width: AccessWidth, operation: &'static str) -> VgicResult {
    match Place::at(offset) {
        Place::Bits(..) => access::test_word(offset, width, operation),
        Place::Priority(_) => access::test_bytes(GICD_IPRIORITYR, 1020, offset, width, operation),
        Place::Other => Ok(()),
    }
}

pub fn show(offset: u64) -> String {
    match Place::at(offset) {
        Place::Bits(register, first) => format!("{register:?}{first}").to_lowercase(),
        Place::Priority(number) => format!("ipriorityr{number}"),
        Place::Other => "-".into(),
    }
}
