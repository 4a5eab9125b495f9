//! Numbers for people: six figures.

/// Without zeros that say nothing; very small and very large numbers by their power of ten.
pub fn digits(value: f64) -> String {
    if value == 0.0 || !value.is_finite() {
        return format!("{}", value.abs());
    }
    // How many places the first figure is in front of the point, once the number is rounded.
    let rounded = format!("{value:.5e}");
    let (figures, power) = rounded.split_once('e').expect("a power of ten");
    let power: i32 = power.parse().expect("a whole number");
    if (-4..7).contains(&power) {
        let behind = (5 - power).max(0) as usize;
        return without_zeros(&format!("{value:.behind$}")).to_string();
    }
    format!("{}e{power}", without_zeros(figures))
}

fn without_zeros(number: &str) -> &str {
    if number.contains('.') {
        number.trim_end_matches('0').trim_end_matches('.')
    } else {
        number
    }
}

#[cfg(test)]
mod tests {
    use super::digits;

    #[test]
    fn six_figures() {
        for (value, words) in [
            (0.0, "0"),
            (-0.0, "0"),
            (10.0, "10"),
            (-9.999_999_999, "-10"),
            (0.022_233_149, "0.0222331"),
            (0.000_1, "0.0001"),
            (0.000_099_999_999, "0.0001"),
            (0.000_012_345_67, "1.23457e-5"),
            (1_234_567.0, "1234567"),
            (9_999_999.5, "1e7"),
            (-12_345_678.0, "-1.23457e7"),
            (f64::NAN, "NaN"),
        ] {
            assert_eq!(digits(value), words);
        }
    }
}
