//! Writes the sample deck and its listing to the folder `samples` of the repository.

use std::fs::write;
use std::path::Path;

fn main() -> std::io::Result<()> {
    let samples = Path::new(env!("CARGO_MANIFEST_DIR")).join("../samples");
    let (deck, listing) = comparison::sample::sample();
    write(samples.join("night.deck"), deck)?;
    write(samples.join("night.listing"), listing)
}
