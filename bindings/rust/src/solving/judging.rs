//! Whether currents at terminals are what they must be, as far as numbers of 53 bits go.

use super::{Applied, Drive, Held};

/// Currents that are off by no more than this share of the largest are good enough.
const SHARE: f64 = 1e-6;
/// What iteration and rounding leave, as a share of what the largest potential drives through the best-joined node.
const LEFT: f64 = 1e-11;

/// By which share of the largest current those at the terminals are off: together they are none, and each that is
/// driven is its drive. None where it is little enough; `most` is what the largest potential that is held, above or
/// below the level of its copper, drives through the best-joined node.
pub(super) fn off_by(held: &[Held], applied: &[Applied], most: f64) -> Option<f64> {
    let largest = |all: &mut dyn Iterator<Item = f64>| all.map(f64::abs).fold(0.0, f64::max);
    let all: f64 = applied.iter().map(|one| one.amperes).sum();
    let strays = held
        .iter()
        .zip(applied)
        .map(|(held, one)| match held.drive {
            Drive::Amperes(amperes) => one.amperes - amperes,
            Drive::Volts(_) => 0.0,
        });
    let off = largest(&mut strays.chain([all]));
    let amperes = largest(&mut applied.iter().map(|one| one.amperes));
    let is_off = off > (SHARE * amperes).max(LEFT * most);
    is_off.then(|| off / amperes)
}

#[cfg(test)]
mod tests {
    use super::*;

    /// By how much the currents at two terminals are off, on copper whose best-joined node has 1,000 siemens, at 1 V or
    /// at the level itself.
    fn off(drives: [Drive; 2], amperes: [f64; 2]) -> Option<f64> {
        let held = drives.map(|drive| Held {
            terminal: String::new(),
            nodes: Vec::new(),
            drive,
        });
        let applied = amperes.map(|amperes| Applied {
            terminal: String::new(),
            volts: 0.0,
            amperes,
        });
        let volts = |one: &Held| match one.drive {
            Drive::Volts(volts) => volts,
            Drive::Amperes(_) => 0.0,
        };
        off_by(&held, &applied, 1e3 * held.iter().map(volts).sum::<f64>())
    }

    #[test]
    fn currents_that_do_not_come_out_are_told() {
        let driven = [Drive::Amperes(2.0), Drive::Volts(0.0)];
        assert_eq!(off(driven, [2.0, -2.0]), None);
        assert_eq!(off(driven, [2.0, -2.000_001]), None);
        assert_eq!(off(driven, [2.0, -2.5]), Some(0.2));
        // They add up to none, and the one that is driven isn't its drive.
        assert_eq!(off(driven, [1.0, -1.0]), Some(1.0));
        // A billionth of an ampere at a volt is what rounding leaves, and at none it is not.
        let held = [Drive::Volts(1.0), Drive::Volts(0.0)];
        assert_eq!(off(held, [1e-9, 0.0]), None);
        assert_eq!(off(held, [1e-3, 0.0]), Some(1.0));
        let billionth = [Drive::Amperes(1e-9), Drive::Volts(0.0)];
        assert_eq!(off(billionth, [1e-9, 0.0]), Some(1.0));
    }
}
