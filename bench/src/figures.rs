//! Medians and quartiles.

/// Of some numbers: the lower quartile, the median and the upper quartile.
#[derive(Clone, Copy, Debug, PartialEq)]
pub struct Figures {
    pub lower: f64,
    pub median: f64,
    pub upper: f64,
}

/// The figures of these numbers, of which there must be one.
pub fn figures(mut numbers: Vec<f64>) -> Figures {
    numbers.sort_by(f64::total_cmp);
    Figures {
        lower: part(&numbers, 0.25),
        median: part(&numbers, 0.5),
        upper: part(&numbers, 0.75),
    }
}

/// The number at this part of the way through the sorted ones, between two neighbours if need be.
fn part(sorted: &[f64], way: f64) -> f64 {
    let at = way * (sorted.len() - 1) as f64;
    let (below, above) = (sorted[at.floor() as usize], sorted[at.ceil() as usize]);
    below + (above - below) * at.fract()
}
