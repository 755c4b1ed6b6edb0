//! One figure in all rounds of a series.

/// The figure of each round, from the least to the most.
#[derive(Clone, Debug, PartialEq)]
pub struct Figure(Vec<f64>);

impl FromIterator<f64> for Figure {
    fn from_iter<T: IntoIterator<Item = f64>>(rounds: T) -> Self {
        let mut rounds: Vec<f64> = rounds.into_iter().collect();
        assert!(!rounds.is_empty(), "a series has a round");
        rounds.sort_by(f64::total_cmp);
        Self(rounds)
    }
}

impl Figure {
    pub fn median(&self) -> f64 {
        self.0[self.0.len() / 2]
    }

    /// The least and the most of them, where there are several.
    pub fn range(&self) -> Option<(f64, f64)> {
        match self.0[..] {
            [least, .., most] => Some((least, most)),
            _ => None,
        }
    }

    /// Whether the median is as it should be, and in how many rounds the figure is.
    pub fn verdict(&self, is_good: impl Fn(f64) -> bool) -> String {
        let word = if is_good(self.median()) { "yes" } else { "no" };
        let good = self.0.iter().filter(|&&round| is_good(round)).count();
        match self.0.len() {
            1 => word.to_owned(),
            rounds if good == rounds => format!("{word}, in all {rounds}"),
            _ if good == 0 => format!("{word}, in none"),
            rounds => format!("{word}, in {good} of {rounds}"),
        }
    }
}

#[cfg(test)]
mod tests {
    use super::*;

    #[test]
    fn the_median_and_the_range() {
        let figure = Figure::from_iter([5.0, 1.0, 4.0, 2.0, 30.0]);
        assert_eq!(figure.median(), 4.0);
        assert_eq!(figure.range(), Some((1.0, 30.0)));
        assert_eq!(Figure::from_iter([7.0]).range(), None);
    }

    #[test]
    fn the_median_decides_and_the_rounds_are_counted() {
        let figure = Figure::from_iter([5.0, 1.0, 4.0, 2.0, 3.0]);
        let cases = [
            (5.0, "yes, in all 5"),
            (4.0, "yes, in 4 of 5"),
            (3.0, "yes, in 3 of 5"),
            (2.0, "no, in 2 of 5"),
            (0.0, "no, in none"),
        ];
        for (most, text) in cases {
            assert_eq!(figure.verdict(|round| round <= most), text);
        }
        assert_eq!(Figure::from_iter([7.0]).verdict(|_| true), "yes");
        assert_eq!(Figure::from_iter([7.0]).verdict(|_| false), "no");
    }
}
