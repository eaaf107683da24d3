//! Makes interrupt.rs a module of this crate, as it lies: document 01 has the record's transitions "exactly as the Rust". By request Four
//! `set_pending` alone departs, and src/record.rs has it.
fn main() {
    source::interrupt_module();
}
