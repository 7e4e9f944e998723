//! Ticks as places in the picture, and which of them are labelled.

/// As wide as a round is drawn at most, and as a tick is.
const WIDEST: f64 = 880.0;
const WIDEST_TICK: f64 = 72.0;

/// Labels and marks stand at least so far apart.
const LABELS_APART: f64 = 46.0;
const MARKS_APART: f64 = 9.0;

pub struct Scale {
    left: f64,
    tick: f64,
    horizon: usize,
}

impl Scale {
    /// So wide as it is asked for, or as a picture of its ticks is.
    pub fn new(left: f64, horizon: usize, width: Option<f64>) -> Scale {
        let ticks = horizon.max(1) as f64;
        let tick = match width {
            Some(width) => width / ticks,
            None => (WIDEST / ticks).min(WIDEST_TICK),
        };
        Scale {
            left,
            tick,
            horizon,
        }
    }

    /// Where a tick begins.
    pub fn x(&self, tick: usize) -> f64 {
        self.left + self.width(tick)
    }

    /// How wide so many ticks are.
    pub fn width(&self, ticks: usize) -> f64 {
        self.tick * ticks as f64
    }

    pub fn right(&self) -> f64 {
        self.x(self.horizon)
    }

    /// The least of 1, 2, 5, 10, 20, .. ticks that are at least so wide.
    fn step(&self, width: f64) -> usize {
        let mut power = 1;
        loop {
            for step in [power, 2 * power, 5 * power] {
                if self.width(step) >= width || step > self.horizon {
                    return step;
                }
            }
            power *= 10;
        }
    }

    fn every(&self, step: usize) -> impl Iterator<Item = usize> {
        (0..=self.horizon).step_by(step.max(1))
    }

    /// The ticks with a label: round ones, and the end of the round.
    pub fn labels(&self) -> Vec<usize> {
        let mut labels: Vec<usize> = self.every(self.step(LABELS_APART)).collect();
        let too_near =
            |last: &usize| *last != 0 && self.x(self.horizon) - self.x(*last) < LABELS_APART;
        if labels.last().is_some_and(too_near) {
            labels.pop();
        }
        if labels.last() != Some(&self.horizon) {
            labels.push(self.horizon);
        }
        labels
    }

    /// The ticks with a mark.
    pub fn marks(&self) -> Vec<usize> {
        self.every(self.step(MARKS_APART)).collect()
    }
}

#[cfg(test)]
mod tests {
    use super::*;

    fn labels(horizon: usize) -> Vec<usize> {
        Scale::new(0.0, horizon, None).labels()
    }

    #[test]
    fn labels_are_round_and_end_with_the_round() {
        assert_eq!(labels(1), [0, 1]);
        assert_eq!(labels(5), [0, 1, 2, 3, 4, 5]);
        assert_eq!(labels(45), [0, 5, 10, 15, 20, 25, 30, 35, 40, 45]);
        let long = [0, 500, 1000, 1500, 2000, 2500, 3000, 3500, 4096];
        assert_eq!(labels(4096), long);
    }

    #[test]
    fn labels_stay_apart_and_few_at_every_horizon() {
        for horizon in 1..=4096 {
            let scale = Scale::new(0.0, horizon, None);
            let labels = scale.labels();
            assert!(labels.len() <= 20, "{horizon}");
            assert_eq!((labels[0], labels[labels.len() - 1]), (0, horizon));
            for pair in labels.windows(2) {
                let apart = scale.x(pair[1]) - scale.x(pair[0]);
                assert!(apart >= LABELS_APART, "{horizon}: {pair:?}");
            }
            assert!(scale.marks().len() <= 1 + (WIDEST / MARKS_APART) as usize);
        }
    }
}
