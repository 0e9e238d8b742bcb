//! Writes the example files: `cargo run --bin write_samples`.

use tests::samples;

fn main() {
    for (name, bytes) in samples::files() {
        std::fs::write(samples::folder().join(name), bytes).expect("the folder can be written");
    }
}
