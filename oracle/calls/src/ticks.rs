//! Ticks and metres: one tick is 2^-38 m. Both ways are exact or panic.

/// 2^38 ticks are one metre.
pub const TICKS_PER_METRE: f64 = 274_877_906_944.0;

pub fn metres(ticks: i64) -> f64 {
    let whole = ticks as f64;
    assert_eq!(whole as i128, ticks as i128, "{ticks} ticks fit a binary64");
    whole / TICKS_PER_METRE
}

pub fn ticks(metres: f64) -> i64 {
    let whole = metres * TICKS_PER_METRE;
    assert_eq!(whole.fract(), 0.0, "{metres} m are a whole number of ticks");
    assert!(whole.abs() < 9e15, "{metres} m are exact in ticks");
    whole as i64
}

#[cfg(test)]
mod tests {
    use super::*;

    #[test]
    fn there_and_back() {
        for n in [0, 1, -1, 3, 1 << 36, -(1 << 36), (1 << 36) - 1, (1 << 37) + 1] {
            assert_eq!(ticks(metres(n)), n);
        }
        assert_eq!(metres(1).to_bits(), 0x3d90_0000_0000_0000);
    }

    #[test]
    #[should_panic(expected = "fit a binary64")]
    fn a_number_past_53_bits_is_not_rounded() {
        metres((1 << 53) + 1);
    }

    #[test]
    #[should_panic(expected = "whole number of ticks")]
    fn half_a_tick_is_not_rounded() {
        ticks(metres(1) / 2.0);
    }
}
