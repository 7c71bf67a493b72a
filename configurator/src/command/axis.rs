//! An axis of a drawing, in per cent of the column that it stands in: so letters have their own size on
//! every screen.

use std::fmt::Write;

/// How much of its column an axis takes, in per cent; the rest is for its last number.
pub const AXIS: f64 = 96.0;

/// An axis from 0 on, with at most six numbers: that many stand beside each other on a phone.
pub struct Axis {
    step: u64,
    end: u64,
}

impl Axis {
    /// The axis that ends at `end`.
    #[must_use]
    pub fn new(end: u64) -> Self {
        Axis::of(5, end)
    }

    /// The axis that ends at `end`, with at most so many numbers behind the 0.
    #[must_use]
    pub fn of(most: u64, end: u64) -> Self {
        let steps = (0..19).flat_map(|zeros| [1, 2, 5].map(|digit| digit * 10_u64.pow(zeros)));
        let step = steps.into_iter().find(|step| end / step <= most);
        let step = step.unwrap_or(end.max(1));
        Axis {
            step,
            end: end.max(1),
        }
    }

    /// Where it ends, at 1 or later.
    #[must_use]
    pub fn end(&self) -> u64 {
        self.end
    }

    /// Where a length stands, in per cent; one beyond the axis stands at its end.
    #[must_use]
    pub fn at(&self, length: u64) -> f64 {
        share(length.min(self.end), self.end) * AXIS
    }

    /// Its numbers, and where they stand.
    pub fn numbers(&self) -> impl Iterator<Item = (u64, f64)> + '_ {
        let numbers = (0..=self.end / self.step).map(move |place| place * self.step);
        numbers.map(move |number| (number, self.at(number)))
    }

    /// The numbers, each above a short line.
    #[must_use]
    pub fn drawn(&self) -> String {
        let mut svg = "<svg class=\"axis\" aria-hidden=\"true\">".to_owned();
        for (number, x) in self.numbers() {
            let _ = write!(
                svg,
                "<text x=\"{x:.3}%\" y=\"12\">{number}</text>\
                 <line x1=\"{x:.3}%\" x2=\"{x:.3}%\" y1=\"16\" y2=\"22\"/>"
            );
        }
        svg + "</svg>"
    }
}

/// A part of a whole, from 0 to 1.
///
/// ```
/// use configurator::command::axis::share;
///
/// assert_eq!((share(0, 7), share(3, 4), share(7, 7)), (0.0, 0.75, 1.0));
/// ```
#[must_use]
pub fn share(part: u64, whole: u64) -> f64 {
    const FINE: u32 = 1 << 30;
    let of = u128::from(part) * u128::from(FINE) / u128::from(whole);
    f64::from(u32::try_from(of).unwrap_or(FINE)) / f64::from(FINE)
}
