//! Below v2.rs: lends its private tests of an access to the rest of the program.
use crate::{AccessWidth, RegisterRegion, VgicError, VgicResult};

pub(crate) fn is_private(offset: u64) -> bool {
    super::is_private_register(offset)
}

pub(crate) fn test_word(offset: u64, width: AccessWidth, operation: &'static str) -> VgicResult {
    super::require_width(RegisterRegion::Distributor, offset, width, operation)
}

pub(crate) fn test_bytes(
    base: u64,
    length: u64,
    offset: u64,
    width: AccessWidth,
    operation: &'static str,
) -> VgicResult {
    super::validate_byte_array_access(
        RegisterRegion::Distributor,
        offset,
        width,
        base,
        length,
        operation,
    )
}

/// Document 01's number of an error: that of the test of v2.rs which says exactly this of the access.
pub(crate) fn refusal(
    error: &VgicError,
    region: RegisterRegion,
    offset: u64,
    width: AccessWidth,
    operation: &'static str,
) -> Option<u64> {
    // A frame and an array of no bytes: these two tests refuse every access.
    let frame = super::validate_frame_access(region, 0, offset, width, operation);
    let array = super::validate_byte_array_access(region, offset, width, 0, 0, operation);
    let word = super::require_width(region, offset, width, operation);
    let says = |test: VgicResult| test.as_ref() == Err(error);
    if says(frame) {
        Some(1)
    } else if says(array) || says(word) {
        Some(2)
    } else {
        None
    }
}
