// A ring of entries, each a start and a value, the starts rising.
const CAPACITY: usize = 4096;

// `head` and `tail` only ever count; the place of an entry is its count modulo the capacity.
pub struct Ring<T> {
    entries: Box<[(u32, T); CAPACITY]>,
    head: usize,
    tail: usize,
}

impl<T: Copy + Default> Ring<T> {
    pub fn new() -> Self {
        Ring { entries: Box::new([(0, T::default()); CAPACITY]), head: 0, tail: 0 }
    }

    fn at(&self, i: usize) -> (u32, T) {
        self.entries[i % CAPACITY]
    }

    pub fn push(&mut self, start: u32, value: T) {
        self.entries[self.tail % CAPACITY] = (start, value);
        self.tail += 1;
    }

    pub fn back(&self) -> Option<(u32, T)> {
        if self.head < self.tail {
            Some(self.at(self.tail - 1))
        } else {
            None
        }
    }

    pub fn pop_back(&mut self) {
        self.tail -= 1
    }

    // Drops the oldest entries that start before the horizon.
    pub fn evict(&mut self, horizon: u32) {
        while self.head < self.tail && self.at(self.head).0 < horizon {
            self.head += 1
        }
    }

    // The value of the first entry that starts at `from` or later, by binary search. A due query's window always has
    // one.
    pub fn first_from(&self, from: u32) -> T {
        let (mut low, mut high) = (self.head, self.tail);
        while low < high {
            let middle = low + (high - low) / 2;
            if self.at(middle).0 < from {
                low = middle + 1
            } else {
                high = middle
            }
        }
        self.at(low).1
    }
}
