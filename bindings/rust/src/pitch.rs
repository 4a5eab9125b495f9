//! Millimetres to ticks and back.
//!
//! A tick is 2^-38 m, and a millimetre is no whole number of them. A board in millimetres is put on a pitch: a
//! length in millimetres, taken as the nearest multiple of 2^(max_level+1) ticks. Where all coordinates are
//! multiples of the pitch, the pitch is the target, and no strip is longer than [`Settings::cap`](crate::Settings)
//! pitches (256 at most), every base cell is a square of one pitch, bands meet corner to corner, and every cell can be
//! split max_level times. A longer strip gets cells of more than one pitch, which need not meet its neighbours' nor be
//! whole multiples of 2^(max_level+1) ticks; a pitch can't see that, and [`Mesh`](crate::Mesh) does.

use crate::{Point, COORDINATE, MAX_LEVEL, TICK};
use std::error::Error;
use std::fmt;

/// How far from a multiple of the pitch a length may lie, in pitches: what decimal fractions lose.
const SLACK: f64 = 1e-6;

/// A length in millimetres, and how many ticks stand for it.
///
/// ```
/// use leafmesh::{Pitch, Settings};
///
/// let pitch = Pitch::new(0.25, 3)?;
/// let settings = Settings { max_level: 3, cap: 256, target: pitch.target() };
/// assert_eq!(settings.target, 68_719_472);
/// assert_eq!(pitch.ticks(1.5)?, 6 * 68_719_472);
/// assert_eq!(pitch.millimetres(6 * 68_719_472), 1.5);
///
/// let misfit = pitch.ticks(1.6).unwrap_err();
/// assert_eq!(misfit.to_string(), "1.6 mm is no multiple of the pitch of 0.25 mm; the nearest is 1.5 mm");
/// # Ok::<(), leafmesh::Misfit>(())
/// ```
#[derive(Clone, Copy, Debug, PartialEq)]
pub struct Pitch {
    millimetres: f64,
    ticks: i64,
}

/// A length that doesn't fit, and the nearest that does.
#[derive(Clone, Copy, Debug, PartialEq)]
pub struct Misfit {
    /// In millimetres, as all lengths here.
    pub given: f64,
    /// The nearest length that fits.
    pub nearest: f64,
    /// What it doesn't fit.
    pub why: Why,
}

/// Why a length doesn't fit.
#[derive(Clone, Copy, Debug, PartialEq)]
#[non_exhaustive]
pub enum Why {
    /// A pitch below 2^(max_level+1) ticks, above 2^36 ticks, or no number.
    NoPitch {
        /// The deepest level that was asked for.
        max_level: u64,
    },
    /// Past the 2^36 ticks that a coordinate may have.
    TooFar,
    /// No multiple of the pitch.
    OffPitch {
        /// The pitch, in millimetres.
        pitch: f64,
    },
}

impl Pitch {
    /// The nearest multiple of 2^(max_level+1) ticks to a length in millimetres.
    ///
    /// # Errors
    ///
    /// [`Why::NoPitch`] where there is none from 2^(max_level+1) to 2^36 ticks.
    pub fn new(millimetres: f64, max_level: u64) -> Result<Self, Misfit> {
        let step = (2_i64 << max_level.min(MAX_LEVEL)) as f64;
        let steps = (millimetres / in_millimetres(1.0) / step).round();
        let most = COORDINATE as f64 / step;
        if max_level <= MAX_LEVEL && (1.0..=most).contains(&steps) {
            let ticks = (steps * step) as i64;
            return Ok(Pitch { millimetres, ticks });
        }
        Err(Misfit {
            given: millimetres,
            nearest: in_millimetres(steps.max(1.0).min(most) * step),
            why: Why::NoPitch { max_level },
        })
    }

    /// One pitch in ticks, for [`Settings::target`](crate::Settings).
    pub fn target(self) -> u64 {
        self.ticks as u64
    }

    /// How long one millimetre of the board is in the mesh, in true millimetres: 1, but for the rounding of
    /// the pitch to whole steps of ticks.
    pub fn scale(self) -> f64 {
        in_millimetres(self.ticks as f64) / self.millimetres
    }

    /// A coordinate in ticks.
    ///
    /// # Errors
    ///
    /// [`Why::OffPitch`] for a length that is no multiple of the pitch, [`Why::TooFar`] for one past 2^36
    /// ticks (a quarter of a metre).
    pub fn ticks(self, millimetres: f64) -> Result<i64, Misfit> {
        let pitch = self.millimetres;
        let pitches = millimetres / pitch;
        let most = (COORDINATE / self.ticks) as f64;
        let whole = pitches.round().max(-most).min(most);
        if (pitches - whole).abs() <= SLACK {
            return Ok(whole as i64 * self.ticks);
        }
        let far = pitches.abs() > most || !pitches.is_finite();
        Err(Misfit {
            given: millimetres,
            nearest: whole * pitch,
            why: if far {
                Why::TooFar
            } else {
                Why::OffPitch { pitch }
            },
        })
    }

    /// Both coordinates of a point in ticks.
    ///
    /// # Errors
    ///
    /// Those of [`Pitch::ticks`].
    pub fn point(self, [x, y]: [f64; 2]) -> Result<Point, Misfit> {
        Ok([self.ticks(x)?, self.ticks(y)?])
    }

    /// All points of a ring in ticks.
    ///
    /// # Errors
    ///
    /// Those of [`Pitch::ticks`].
    pub fn ring(self, points: &[[f64; 2]]) -> Result<Vec<Point>, Misfit> {
        points.iter().map(|&at| self.point(at)).collect()
    }

    /// The nearest tick to a length that needn't be a multiple of the pitch, as that of a link.
    ///
    /// # Errors
    ///
    /// [`Why::TooFar`] for one past 2^36 ticks, or no number.
    pub fn nearest_tick(self, millimetres: f64) -> Result<i64, Misfit> {
        let ticks = (millimetres / self.millimetres * self.ticks as f64).round();
        let most = COORDINATE as f64;
        if (-most..=most).contains(&ticks) {
            return Ok(ticks as i64);
        }
        Err(Misfit {
            given: millimetres,
            nearest: self.millimetres(ticks.max(-most).min(most) as i64),
            why: Why::TooFar,
        })
    }

    /// Ticks in millimetres of the board; of a split cell's corner fractions of a pitch.
    pub fn millimetres(self, ticks: i64) -> f64 {
        ticks as f64 / self.ticks as f64 * self.millimetres
    }

    /// The same for words: with the fewest decimals whose nearest tick it is.
    pub(crate) fn short(self, ticks: i64) -> f64 {
        let millimetres = self.millimetres(ticks);
        let with_decimals = |count: i32| {
            let unit = 10_f64.powi(count);
            (millimetres * unit).round() / unit
        };
        let means_it = |shown: &f64| self.nearest_tick(*shown) == Ok(ticks);
        let found = (0..=MOST_DECIMALS).map(with_decimals).find(means_it);
        found.unwrap_or(millimetres)
    }
}

/// With so many decimals of a millimetre every tick is met.
const MOST_DECIMALS: i32 = 9;

fn in_millimetres(ticks: f64) -> f64 {
    ticks * TICK * 1e3
}

/// Without the digits that decimal fractions leave behind.
fn rounded(millimetres: f64) -> f64 {
    (millimetres * 1e9).round() / 1e9
}

/// As other lengths; what is far below a micrometre by its power of ten.
fn in_figures(millimetres: f64) -> String {
    if millimetres < 1e-6 {
        format!("{millimetres:e}")
    } else {
        rounded(millimetres).to_string()
    }
}

impl fmt::Display for Misfit {
    fn fmt(&self, f: &mut fmt::Formatter<'_>) -> fmt::Result {
        let Misfit {
            given,
            nearest,
            why,
        } = *self;
        match why {
            Why::NoPitch { max_level } => write!(
                f,
                "{given} mm is no pitch at level {max_level}; the nearest is {} mm",
                in_figures(nearest)
            ),
            Why::TooFar => write!(
                f,
                "{given} mm is past the range of a coordinate; the nearest is {} mm",
                rounded(nearest)
            ),
            Why::OffPitch { pitch } => write!(
                f,
                "{given} mm is no multiple of the pitch of {pitch} mm; the nearest is {} mm",
                rounded(nearest)
            ),
        }
    }
}

impl Error for Misfit {}
