//! A list of slot numbers.

/// As many cells as its pool has slots, and a length, which in a damaged list is above that.
#[derive(Clone, Debug, PartialEq, Eq)]
pub struct List {
    pub length: u16,
    pub cells: Vec<u16>,
}

impl List {
    /// The empty list over a pool of so many slots.
    pub fn new(pool: usize) -> Self {
        List { length: 0, cells: vec![0; pool] }
    }

    /// Takes a slot in at the end, where there is room.
    pub fn push(&mut self, slot: usize) {
        self.cells[usize::from(self.length)] = slot as u16;
        self.length += 1;
    }

    /// Takes a slot in before what stands at this place, where there is room.
    pub fn insert(&mut self, place: usize, slot: usize) {
        self.cells.copy_within(place..usize::from(self.length), place + 1);
        self.cells[place] = slot as u16;
        self.length += 1;
    }

    /// Takes the head out of a list no longer than its pool; the cells past the new length stay.
    pub fn take(&mut self) -> Option<usize> {
        let slot = *self.items().first()?;
        self.cells.copy_within(1..usize::from(self.length), 0);
        self.length -= 1;
        Some(slot.into())
    }

    /// Takes a slot out of a list no longer than its pool, wherever it stands; the cells past the new length stay.
    pub fn leave(&mut self, slot: usize) {
        if let Some(place) = self.items().iter().position(|there| usize::from(*there) == slot) {
            self.cells.copy_within(place + 1..usize::from(self.length), place);
            self.length -= 1;
        }
    }

    /// The cells that count: all there are, if the length is above the pool.
    pub fn items(&self) -> &[u16] {
        &self.cells[..self.cells.len().min(self.length.into())]
    }

    /// The slots named that exist.
    pub fn slots(&self) -> impl Iterator<Item = usize> + '_ {
        self.items().iter().map(|&slot| slot.into()).filter(|&slot| slot < self.cells.len())
    }
}
