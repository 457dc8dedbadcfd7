//! Places for subscribers, which are reused, and found by ids in constant time.

/// The id of one item of a slab. No two items of one slab ever have the same number.
#[derive(Clone, Copy, Debug)]
pub struct Id {
    key: usize,
    number: u64,
}

pub struct Slab<T> {
    entries: Vec<Option<(u64, T)>>,
    free: Vec<usize>,
}

impl<T> Slab<T> {
    pub fn new() -> Self {
        Slab {
            entries: Vec::new(),
            free: Vec::new(),
        }
    }

    pub fn len(&self) -> usize {
        self.entries.len() - self.free.len()
    }

    pub fn is_empty(&self) -> bool {
        self.len() == 0
    }

    /// Adds an item under a number that no other item had.
    pub fn insert(&mut self, number: u64, item: T) -> Id {
        let entry = Some((number, item));
        let key = match self.free.pop() {
            Some(key) => {
                self.entries[key] = entry;
                key
            }
            None => {
                self.entries.push(entry);
                self.entries.len() - 1
            }
        };
        Id { key, number }
    }

    pub fn get_mut(&mut self, id: Id) -> Option<&mut T> {
        match self.entries.get_mut(id.key) {
            Some(Some((number, item))) if *number == id.number => Some(item),
            _ => None,
        }
    }

    pub fn remove(&mut self, id: Id) -> Option<T> {
        self.get_mut(id)?;
        let (_number, item) = self.entries[id.key].take()?;
        self.free.push(id.key);
        Some(item)
    }
}
