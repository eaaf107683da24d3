//! Makes interrupt.rs, with its one patch, a module of this program. Its fields are private, and some states that it can hold are reached by
//! no method.
fn main() {
    source::patched_interrupt_module();
}
