//! How often document 01's exp and ln fall from one f64 to the next one up, among arguments drawn from a range. The true functions
//! never do. Takes a minute or two. Run as `cargo run --release --bin monotone`.

use reference::compare::hex;
use reference::splitmix::SplitMix64;
use reference::standins;

const DRAWS: u32 = 200_000_000;

/// Prints how many of the arguments drawn have a higher value than their next one up, how many of these lie below zero, and the first.
fn measure(name: &str, lo: f64, hi: f64, function: fn(f64) -> f64) {
    let mut rng = SplitMix64::new(112);
    let (mut falls, mut below, mut first) = (0_u32, 0_u32, None);
    for _ in 0..DRAWS {
        let x = rng.uniform(lo, hi);
        if function(x) > function(x.next_up()) {
            falls += 1;
            below += u32::from(x < 0.0);
            first.get_or_insert(x);
        }
    }
    let first = first.map_or("none".to_string(), |x| hex(&[x]));
    println!(
        "{name} in [{lo},{hi}]: falls at {falls} of {DRAWS}, {below} of them below zero; first {first}"
    );
}

fn main() {
    measure("exp", -1.0, 1.0, standins::exp);
    measure("ln", 0.5, 2.0, standins::ln);
}
