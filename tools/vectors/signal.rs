
// ---- Samples and sums, as crates/scripts/src/signal.rt and sums.rt make them.

#[path = "../../tests/signals.rs"]
mod signals;

use signals::levels::{signal, NOISE, PATTERNS, SILENCE, SQUARE, TRIANGLE, TWO_VOICES, VOICE};
use signals::Congruential;

/// A sum with one word more.
fn sum(values: impl Iterator<Item = f32>) -> u64 {
    values.fold(1, |sum, x| (sum * 16_777_619 + bits(x)) % (1 << 32))
}
