//! What the network does with a datagram: it goes on, is lost, comes twice, or is held back and so overtaken.

use crate::random::Random;

/// The faults of a run; chances in percent, times in milliseconds.
#[derive(Clone, Default)]
pub struct Faults {
    pub loss: u64,
    pub doubles: u64,
    pub held: u64,
    /// Each way, for every datagram.
    pub delay: u64,
    /// From when on, after the first datagram, nothing goes through, and for how long.
    pub outage_at: u64,
    pub outage: u64,
}

#[derive(Debug, PartialEq, Clone)]
pub enum Fate {
    Lost,
    /// Comes once, after so many milliseconds.
    Once(u64),
    Held(u64),
    Twice(u64, u64),
}

impl Fate {
    pub fn word(&self) -> &'static str {
        match self {
            Fate::Lost => "lost",
            Fate::Once(_) => "once",
            Fate::Held(_) => "held",
            Fate::Twice(..) => "twice",
        }
    }

    pub fn delays(&self) -> Vec<u64> {
        match *self {
            Fate::Lost => vec![],
            Fate::Once(delay) | Fate::Held(delay) => vec![delay],
            Fate::Twice(first, second) => vec![first, second],
        }
    }
}

impl Faults {
    /// `at` is the time since the first datagram.
    pub fn fate(&self, random: &mut Random, at: u64) -> Fate {
        let out = self.outage > 0 && (self.outage_at..self.outage_at + self.outage).contains(&at);
        // drawn always, so that an outage does not shift the rest
        let (loss, doubled, held) =
            (random.percent(self.loss), random.percent(self.doubles), random.percent(self.held));
        let (late, later) = (5 + random.below(36), 1 + random.below(20));
        if out || loss {
            Fate::Lost
        } else if doubled {
            Fate::Twice(self.delay, self.delay + later)
        } else if held {
            Fate::Held(self.delay + late)
        } else {
            Fate::Once(self.delay)
        }
    }
}

#[cfg(test)]
mod tests {
    use super::*;

    fn fates(faults: Faults) -> Vec<Fate> {
        let mut random = Random::new(3);
        (1..=1000).map(|at| faults.fate(&mut random, at)).collect()
    }

    fn share(faults: Faults, word: &str) -> usize {
        fates(faults).iter().filter(|fate| fate.word() == word).count()
    }

    #[test]
    fn without_faults_all_go_through() {
        assert!(fates(Faults::default()).iter().all(|fate| *fate == Fate::Once(0)));
    }

    #[test]
    fn chances_are_about_kept() {
        assert!((70..130).contains(&share(Faults { loss: 10, ..Faults::default() }, "lost")));
        assert!((160..240).contains(&share(Faults { doubles: 20, ..Faults::default() }, "twice")));
        assert!((250..350).contains(&share(Faults { held: 30, ..Faults::default() }, "held")));
    }

    #[test]
    fn an_outage_lasts_its_time() {
        let fates = fates(Faults { outage_at: 100, outage: 50, ..Faults::default() });
        let lost: Vec<usize> =
            (1..=1000).filter(|number| fates[number - 1] == Fate::Lost).collect();
        assert_eq!(lost, (100..150).collect::<Vec<_>>());
    }
}
