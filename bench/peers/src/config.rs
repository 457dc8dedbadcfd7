//! The configuration of a shared flow: what it keeps, and what an emission does without room.

/// What an emission does if some subscriber is a full buffer behind (`BufferOverflow`).
#[derive(Clone, Copy, Debug, PartialEq, Eq)]
pub enum Overflow {
    Suspend,
    DropOldest,
    DropLatest,
}

#[derive(Clone, Copy, Debug)]
pub struct Config {
    pub replay: u32,
    pub extra: u32,
    pub overflow: Overflow,
    /// The most numbers that are issued to subscribers and emissions.
    pub limit: u64,
}

#[derive(Clone, Copy, Debug, PartialEq, Eq)]
pub enum ConfigError {
    TooLarge,
    NeedsBuffer,
}

const LARGEST_CAPACITY: u64 = 65_536;

impl Config {
    pub fn new(replay: u32, extra: u32, overflow: Overflow) -> Self {
        Config {
            replay,
            extra,
            overflow,
            limit: u64::MAX,
        }
    }

    pub fn capacity(&self) -> usize {
        self.replay as usize + self.extra as usize
    }

    /// The most values that a subscriber may still have to receive.
    pub fn window(&self) -> usize {
        self.capacity().max(1)
    }

    pub fn check(&self) -> Result<(), ConfigError> {
        if self.capacity() as u64 > LARGEST_CAPACITY {
            Err(ConfigError::TooLarge)
        } else if self.capacity() == 0 && self.overflow != Overflow::Suspend {
            Err(ConfigError::NeedsBuffer)
        } else {
            Ok(())
        }
    }
}
