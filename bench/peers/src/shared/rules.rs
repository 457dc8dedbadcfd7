//! The rules of a shared flow: when it is blocked, which values it keeps, and what happens when room is made.
use super::{Exhausted, SharedFlow, Slot};

impl<T: Clone> SharedFlow<T> {
    pub(super) fn issue(&mut self) -> Option<u64> {
        if self.issued == self.config.limit {
            return None;
        }
        self.issued += 1;
        Some(self.issued)
    }

    /// Returns the position of the first value that is kept.
    pub(super) fn start(&self) -> u64 {
        self.emitted - self.slots.len() as u64
    }

    pub(super) fn cache_start(&self) -> u64 {
        let kept = self.emitted.saturating_sub(u64::from(self.config.replay));
        kept.max(self.reset_mark)
    }

    /// Returns whether some subscriber lags by a whole window.
    pub(super) fn is_blocked(&self) -> bool {
        self.slots.len() == self.window && self.slots[0].readers > 0
    }

    /// Returns whether a value is accepted without a wait.
    pub(super) fn is_open(&self) -> bool {
        self.subscribers.is_empty() || (self.config.capacity() > 0 && !self.is_blocked())
    }

    /// Returns whether the last value is offered: without a buffer, until every subscriber has received it.
    pub(super) fn is_offering(&self) -> bool {
        self.config.capacity() == 0 && self.is_blocked()
    }

    pub(super) fn is_offered(&self, number: u64) -> bool {
        self.newest == number && self.is_offering()
    }

    pub(super) fn place_in_queue(&self, number: u64) -> Option<usize> {
        self.queue
            .binary_search_by_key(&number, |queued| queued.number)
            .ok()
    }

    pub(super) fn readers_at(&mut self, position: u64) -> &mut usize {
        let place = (position - self.start()) as usize;
        match self.slots.get_mut(place) {
            Some(slot) => &mut slot.readers,
            None => &mut self.caught_up,
        }
    }

    pub(super) fn push(&mut self, value: T, number: u64) {
        let readers = std::mem::take(&mut self.caught_up);
        self.slots.push_back(Slot { value, readers });
        self.emitted += 1;
        self.newest = number;
    }

    pub(super) fn append(&mut self, value: T, number: u64) {
        self.push(value, number);
        self.trim();
    }

    /// Emits a value, and moves every subscriber that is a full buffer behind to the next value.
    pub(super) fn append_dropping(&mut self, value: T) -> Result<(), Exhausted<T>> {
        let number = match self.issue() {
            Some(number) => number,
            None => return Err(Exhausted(value)),
        };
        let behind = self.slots.pop_front().map_or(0, |oldest| oldest.readers);
        self.push(value, number);
        self.slots[0].readers += behind;
        self.floor = self.start();
        Ok(())
    }

    pub(super) fn withdraw_offer(&mut self) {
        if let Some(slot) = self.slots.pop_back() {
            self.caught_up += slot.readers;
        }
        self.floor = self.emitted;
    }

    /// Returns whether every subscriber has received the oldest value that is kept.
    fn is_oldest_read(&self) -> bool {
        self.slots
            .front()
            .map_or(false, |oldest| oldest.readers == 0)
    }

    /// Drops the values that no subscriber may receive any more.
    #[inline]
    pub(super) fn trim(&mut self) {
        while self.is_oldest_read() && self.start() < self.cache_start() {
            self.slots.pop_front();
        }
    }

    /// Emits queued values until the flow is blocked.
    #[inline]
    pub(super) fn settle(&mut self) {
        self.trim();
        while !self.queue.is_empty() && !self.is_blocked() {
            if let Some(queued) = self.queue.pop_front() {
                self.append(queued.value, queued.number);
            }
        }
    }
}
