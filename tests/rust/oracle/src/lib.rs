//! The oracle: v2.rs and interrupt.rs, running over a stand-in for what they call without containing it.
//!
//! `controller`, `cpu_interface`, `distributor`, `redistributor` and `registers` are the stand-in, by document 01's rules and under the
//! names that the two files use; `message_frame` is a frame that they do not have. `machine` makes calls of the running files and answers by
//! the documents' numbers; `lines` is the runner's protocol over it; `scripts` makes histories; `words` is the state as docs/STATE.md lays it
//! out.
extern crate alloc;
extern crate self as axvm_types;

mod controller;
mod cpu_interface;
mod distributor;
#[cfg(test)]
mod invariants;
mod redistributor;
mod registers;

pub mod lines;
pub mod machine;
pub mod scripts;
pub mod words;

pub use controller::message_frame;

// What the two files take from their crate's root.
pub use controller::{GicV3Controller, backend_result};
pub use cpu_interface::CpuInterfaceState;
pub use types::{
    AccessWidth, GicAffinity, GicVcpuId, IntId, InterruptState, Priority, RegisterRegion, SgiId,
    SgiTarget, SpiId, TriggerMode, VgicError, VgicResult, register,
};

#[allow(dead_code)] // routes, and what only other files of arm_vgic call
mod file {
    include!(concat!(env!("OUT_DIR"), "/interrupt_root.rs"));
    pub(crate) use interrupt::{InterruptRecord, access};
}
pub(crate) use file::{InterruptRecord, access};
