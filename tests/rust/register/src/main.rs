//! Prints what v2.rs decides about every access to the two register frames, by offset and width, as `register_accesses` prints what
//! the Rattle decides.
//!
//! A line has the frame's letter, the offset of four bytes, and the tokens of the widths 1, 2, 4 and 8 at each of these bytes.
extern crate alloc;
extern crate self as axvm_types;

mod controller;
mod log;
mod place;
mod served;
mod tokens;

// What v2.rs takes from its crate's root.
pub use controller::{CpuInterfaceState, backend_result};
pub use types::{
    AccessWidth, GicAffinity, GicVcpuId, IntId, InterruptState, Priority, RegisterRegion, SgiId,
    SgiTarget, SpiId, VgicError, VgicResult, register,
};

use std::io::{self, BufWriter, Write};
use tokens::Access;

fn main() -> io::Result<()> {
    let mut out = BufWriter::new(io::stdout().lock());
    let mut accesses = [0; 2];
    for (letter, region, size) in [
        ('d', RegisterRegion::Distributor, 0x1000),
        ('c', RegisterRegion::CpuInterface, 0x2000),
    ] {
        // The frame and what follows it, the offsets that 32 bits would take for its first, and the last ones.
        let runs = [
            0..=size + 63,
            (1 << 32) - 16..=(1 << 32) + 63,
            u64::MAX - 63..=u64::MAX,
        ];
        for place in runs.into_iter().flat_map(|run| run.step_by(4)) {
            write!(out, "{letter} {place}")?;
            for offset in place..=place + 3 {
                for width in AccessWidth::ALL {
                    let token = Access {
                        region,
                        offset,
                        width,
                    }
                    .token();
                    write!(out, " {}", token.text)?;
                    accesses[usize::from(token.passed_on)] += 2; // a read and a write
                }
            }
            writeln!(out)?;
        }
    }
    out.flush()?;
    let [alone, with_stand_in] = accesses;
    eprintln!("v2.rs alone: {alone}; with the stand-in: {with_stand_in}");
    Ok(())
}
