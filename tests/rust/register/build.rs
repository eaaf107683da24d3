//! Makes v2.rs a module of this program: its text as it is, and our `access` below it, since its tests of an access are private.
use std::path::Path;

fn main() {
    let below = Path::new(env!("CARGO_MANIFEST_DIR")).join("src/access.rs");
    let text = source::read("src/controller/v2.rs");
    source::module("v2", &source::with_access(&text, &below));
}
