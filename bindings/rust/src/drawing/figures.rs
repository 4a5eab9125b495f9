//! Numbers as a picture says them: three significant digits.

use crate::TICK;

/// The nearest number of so many significant digits.
fn rounded(value: f64, digits: usize) -> f64 {
    let near = format!("{value:.*e}", digits - 1);
    let near = near.parse().unwrap_or(value);
    // Without the sign of a zero.
    near + 0.0
}

/// Three digits, by a power of ten where there would be many zeros.
pub fn figures(value: f64) -> String {
    let near = rounded(value, 3);
    match near.abs() {
        size if size == 0.0 || (1e-3..1e4).contains(&size) => near.to_string(),
        size if size.is_finite() => format!("{near:e}"),
        _ => near.to_string(),
    }
}

/// From which size on a unit has a prefix, what that stands for, and the prefix. A tenth of the unit itself has none.
const PREFIXES: [(f64, f64, &str); 7] = [
    (1e6, 1e6, "M"),
    (1e3, 1e3, "k"),
    (1e-1, 1.0, ""),
    (1e-4, 1e-3, "m"),
    (1e-7, 1e-6, "u"),
    (1e-10, 1e-9, "n"),
    (0.0, 1e-12, "p"),
];

/// Three digits and a unit: 12.3 mV, 0.5 A.
pub fn with_unit(value: f64, unit: &str) -> String {
    let size = rounded(value.abs(), 3);
    let own = PREFIXES.iter().find(|(least, ..)| size >= *least);
    match own {
        Some((_, scale, prefix)) if size > 0.0 => {
            format!("{} {prefix}{unit}", figures(value / scale))
        }
        _ => format!("{} {unit}", figures(value)),
    }
}

/// 1, 2 or 5 times a power of ten, at most `most`.
fn round_below(most: f64) -> f64 {
    let ten = 10_f64.powi(most.log10().floor() as i32);
    let times = [5.0, 2.0, 1.0]
        .into_iter()
        .find(|times| times * ten <= most);
    times.unwrap_or(1.0) * ten
}

/// A round length of at most `most` ticks: in ticks, and in words.
pub fn round_length(most: f64) -> (f64, String) {
    let metres = most * TICK;
    if metres < 1e-9 {
        let ticks = round_below(most.max(1.0));
        return (ticks, format!("{ticks} ticks"));
    }
    let length = round_below(metres);
    let units = [(1.0, "m"), (1e-3, "mm"), (1e-6, "um"), (1e-9, "nm")];
    let (unit, name) = units
        .into_iter()
        .find(|(unit, _)| length >= 0.999 * unit)
        .unwrap_or((1e-9, "nm"));
    (length / TICK, format!("{} {name}", (length / unit).round()))
}

#[cfg(test)]
mod tests {
    use super::*;

    #[test]
    fn three_digits_say_a_number() {
        for (value, words) in [
            (0.0, "0"),
            (-0.0, "0"),
            (0.123_456, "0.123"),
            (1.0, "1"),
            (14.96, "15"),
            (9_996.0, "1e4"),
            (1_234.5, "1230"),
            (0.001, "0.001"),
            (0.000_999_9, "0.001"),
            (0.000_123_4, "1.23e-4"),
            (-5.678e-20, "-5.68e-20"),
            (1e300, "1e300"),
            (f64::NAN, "NaN"),
            (f64::INFINITY, "inf"),
        ] {
            assert_eq!(figures(value), words);
        }
    }

    #[test]
    fn a_unit_has_the_prefix_that_spares_zeros() {
        for (value, words) in [
            (0.0, "0 V"),
            (-0.0, "0 V"),
            (0.012_34, "12.3 mV"),
            (-0.012_34, "-12.3 mV"),
            (0.1, "0.1 V"),
            (0.099_96, "0.1 V"),
            (0.099, "99 mV"),
            (10.0, "10 V"),
            (999.6, "1 kV"),
            (123_456.0, "123 kV"),
            (1e-4, "0.1 mV"),
            (5e-7, "0.5 uV"),
            (2.5e-11, "25 pV"),
            (1e-30, "1e-18 pV"),
        ] {
            assert_eq!(with_unit(value, "V"), words);
        }
    }
}
