//! Lists the deck on standard input.

use reference::listing::{listing, GREATEST_DECK_LENGTH};
use std::io::{self, Read, Write};

fn main() -> io::Result<()> {
    let mut deck = Vec::new();
    // One octet more than a deck may have tells that it is too long.
    let most = GREATEST_DECK_LENGTH as u64 + 1;
    io::stdin().lock().take(most).read_to_end(&mut deck)?;
    io::stdout().lock().write_all(&listing(&deck))
}
