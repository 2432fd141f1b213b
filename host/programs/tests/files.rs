//! The stored scene files are the generator's.

use std::fs;
use std::path::Path;

#[test]
fn the_crates_hold_what_the_generator_writes() {
    let folder = Path::new(env!("CARGO_MANIFEST_DIR")).join("../../crates");
    for (place, bytes) in programs::files() {
        let stored = fs::read(folder.join(place)).expect(place);
        assert!(stored == bytes, "{place}: make it again with `cargo run --bin program-scenes ../crates`");
    }
}
