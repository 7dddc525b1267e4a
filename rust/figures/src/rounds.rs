//! Works timed in rounds: in each round every work has its turn, right after
//! the others, so that a slow moment of the machine meets all of them.

use std::time::Duration;

use bench::{least_time, median, timed};

pub type Done = Result<(), String>;

/// What is to be timed: so many units of it at a time.
pub struct Work<'a> {
    act: Box<dyn FnMut(u64) -> Done + 'a>,
}

impl<'a> Work<'a> {
    pub fn new(act: impl FnMut(u64) -> Done + 'a) -> Self {
        Work { act: Box::new(act) }
    }

    /// Units that take about so long.
    fn amount(&mut self, wanted: Duration) -> Result<u64, String> {
        let mut amount = 1;
        loop {
            let took = least_time(|| (self.act)(amount))?;
            if took * 10 >= wanted || amount >= 1 << 31 {
                let scale = wanted.as_secs_f64() / took.as_secs_f64().max(1e-9);
                let scaled = (amount as f64 * scale) as u64;
                return Ok(scaled.clamp(1, (1 << 32) - 1));
            }
            amount *= 4;
        }
    }
}

/// How often, and how long each work is to take in one round.
#[derive(Clone, Copy)]
pub struct Pace {
    pub rounds: usize,
    pub wanted: Duration,
}

/// Seconds for one unit, by work and round.
pub struct Costs(Vec<Vec<f64>>);

impl Costs {
    pub fn of(mut works: Vec<Work>, pace: Pace) -> Result<Self, String> {
        let mut amounts = Vec::new();
        for work in &mut works {
            amounts.push(work.amount(pace.wanted)?);
        }
        let count = works.len();
        let mut costs = vec![Vec::new(); count];
        // The first round only warms up.
        for round in 0..=pace.rounds {
            for turn in 0..count {
                let at = (turn + round) % count;
                let (done, took) = timed(|| (works[at].act)(amounts[at]));
                done?;
                if round > 0 {
                    costs[at].push(took.as_secs_f64() / amounts[at] as f64);
                }
            }
        }
        Ok(Costs(costs))
    }

    /// Seconds for one unit: the median of the rounds.
    pub fn cost(&self, work: usize) -> f64 {
        median(self.0[work].clone())
    }

    /// How many times the other's cost: the median of the rounds' ratios.
    pub fn ratio(&self, work: usize, other: usize) -> f64 {
        let pairs = self.0[work].iter().zip(&self.0[other]);
        median(pairs.map(|(own, other)| own / other).collect())
    }
}

#[cfg(test)]
mod tests {
    use super::*;
    use std::hint::black_box;

    fn spin(times: u64) -> Done {
        for number in 0..times {
            black_box(number);
        }
        Ok(())
    }

    const PACE: Pace = Pace {
        rounds: 5,
        wanted: Duration::from_millis(2),
    };

    #[test]
    fn more_work_costs_more() {
        let works = vec![Work::new(spin), Work::new(|times| spin(40 * times))];
        let costs = Costs::of(works, PACE).expect("costs");
        assert!(costs.ratio(1, 0) > 10.0, "{}", costs.ratio(1, 0));
        assert!(costs.cost(1) > costs.cost(0));
    }

    #[test]
    fn a_work_that_fails_ends_it() {
        let works = vec![Work::new(|_| Err("no".to_string()))];
        assert_eq!(Costs::of(works, PACE).err(), Some("no".to_string()));
    }
}
