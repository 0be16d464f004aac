//! How many cases a run takes. The gate takes the amounts written in the tests; `DLO_CASES` asks
//! for more.

/// The amount that the gate takes, or the one that the environment asks for if that is more.
pub fn cases(in_the_gate: usize) -> usize {
    match std::env::var("DLO_CASES") {
        Ok(text) => {
            let asked: usize = text.parse().unwrap_or_else(|_| panic!("DLO_CASES is no number: {text}"));
            asked.max(in_the_gate)
        }
        Err(_) => in_the_gate,
    }
}

/// Says how many cases of a kind were compared. It shows under `cargo test -- --nocapture`.
pub fn say(kind: &str, count: usize) {
    println!("compared: {count:>9}  {kind}");
}
