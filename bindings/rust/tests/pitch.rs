//! Millimetres to ticks and back, and what doesn't fit.

use leafmesh::{Pitch, Why, COORDINATE, MAX_LEVEL};

#[test]
fn a_pitch_can_be_split_to_its_level() {
    for max_level in 0..=MAX_LEVEL {
        let pitch = Pitch::new(0.1, max_level).expect("a pitch");
        assert_eq!(pitch.target() % (2 << max_level), 0);
        assert!((pitch.scale() - 1.0).abs() < 2e-4, "{}", pitch.scale());
        for times in -2000..=2000 {
            let ticks = pitch.ticks(f64::from(times) * 0.1).expect("a multiple");
            assert_eq!(ticks, i64::from(times) * pitch.target() as i64);
            assert!((pitch.millimetres(ticks) - f64::from(times) * 0.1).abs() < 1e-9);
        }
    }
}

#[test]
fn what_does_not_fit_is_told_with_the_nearest_that_does() {
    let pitch = Pitch::new(0.2, 3).expect("a pitch");
    for (given, nearest) in [(0.29, 0.2), (0.31, 0.4), (-1.05, -1.0), (1.0 + 1e-5, 1.0)] {
        let misfit = pitch.ticks(given).expect_err("off the pitch");
        assert_eq!(misfit.why, Why::OffPitch { pitch: 0.2 });
        assert!((misfit.nearest - nearest).abs() < 1e-12, "{misfit}");
        assert!(pitch.ticks(misfit.nearest).is_ok());
    }
    for given in [250.2, -1e9, f64::INFINITY, f64::NAN] {
        let misfit = pitch.ticks(given).expect_err("too far");
        assert_eq!(misfit.why, Why::TooFar, "{given}");
        assert!(pitch.ticks(misfit.nearest).expect("in range").abs() <= COORDINATE);
    }
}

#[test]
fn no_pitch_is_told_with_the_nearest_pitch() {
    for given in [0.0, -1.0, 1e-9, 251.0, f64::NAN, f64::INFINITY] {
        let misfit = Pitch::new(given, 12).expect_err("no pitch");
        assert_eq!(misfit.why, Why::NoPitch { max_level: 12 });
        assert!(Pitch::new(misfit.nearest, 12).is_ok(), "{misfit}");
    }
    assert!(Pitch::new(1.0, 13).is_err());
}
