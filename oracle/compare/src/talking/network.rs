//! The network between the two: what is put in comes out later, if at all, perhaps twice and in another order.

use crate::random::Random;

/// How much goes wrong on the way.
#[derive(Clone, Copy, Debug, PartialEq, Eq)]
pub enum Mood {
    Orderly,
    Lossy,
}

impl Mood {
    /// Odd seeds are orderly.
    pub fn of(seed: u64) -> Self {
        match seed % 2 {
            1 => Mood::Orderly,
            _ => Mood::Lossy,
        }
    }

    /// One in so many is lost.
    fn lost(self) -> u64 {
        match self {
            Mood::Orderly => 50,
            Mood::Lossy => 4,
        }
    }

    /// One in so many comes twice.
    fn doubled(self) -> u64 {
        match self {
            Mood::Orderly => 40,
            Mood::Lossy => 5,
        }
    }

    /// One in so many times nothing comes through for a while.
    pub fn dark(self) -> u64 {
        match self {
            Mood::Orderly => 1_200,
            Mood::Lossy => 700,
        }
    }

    /// The time on the way, by which what was sent later may overtake.
    fn delay(self, random: &mut Random) -> u64 {
        match self {
            Mood::Orderly if random.once_in(24) => 20 + random.below(200),
            Mood::Orderly => 20 + random.below(4),
            Mood::Lossy if random.once_in(12) => random.below(4_000),
            Mood::Lossy => 10 + random.below(250),
        }
    }
}

/// What is under way in one direction, each with the time at which it comes out.
pub struct Way<T>(Vec<(u64, T)>);

impl<T: Clone> Way<T> {
    pub fn new() -> Self {
        Way(Vec::new())
    }

    pub fn put(&mut self, random: &mut Random, mood: Mood, now: u64, item: T) {
        if random.once_in(mood.lost()) {
            return;
        }
        let times = if random.once_in(mood.doubled()) { 2 } else { 1 };
        for _ in 0..times {
            self.0.push((now + mood.delay(random), item.clone()));
        }
    }

    /// The first of all that came out until now.
    pub fn take(&mut self, now: u64) -> Option<T> {
        let out = self.0.iter().enumerate().filter(|(_, (time, _))| *time <= now);
        let (place, _) = out.min_by_key(|(_, (time, _))| *time)?;
        Some(self.0.remove(place).1)
    }

    pub fn count(&self) -> usize {
        self.0.len()
    }

    /// Loses all but so many.
    pub fn keep(&mut self, count: usize) {
        self.0.truncate(count);
    }
}

#[cfg(test)]
mod tests {
    use super::*;

    /// What comes out of a thousand, in its order.
    fn out(mood: Mood) -> Vec<u64> {
        let (mut random, mut way) = (Random::new(1), Way::new());
        for item in 0..1_000 {
            way.put(&mut random, mood, 3 * item, item);
        }
        assert!(way.take(0).is_none());
        std::iter::from_fn(|| way.take(u64::MAX)).collect()
    }

    #[test]
    fn some_is_lost_some_doubled_some_overtaken() {
        for (mood, most) in [(Mood::Orderly, 100), (Mood::Lossy, 500)] {
            let out = out(mood);
            let lost = (0..1_000).filter(|item| !out.contains(item)).count();
            let doubled = out.len() + lost - 1_000;
            let overtaken = out.windows(2).filter(|two| two[0] > two[1]).count();
            for count in [lost, doubled, overtaken] {
                assert!((1..=most).contains(&count), "{lost} {doubled} {overtaken}");
            }
        }
    }
}
