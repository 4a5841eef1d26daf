//! Bytes lent to the proved code among noise, none of which may be altered.

use crate::random::Random;

/// Bytes kept after those lent.
const MARGIN: usize = 64;

/// Over a buffer that is used again.
pub struct LentBytes {
    noise: Vec<u8>,
    buffer: Vec<u8>,
    first: usize,
    end: usize,
}

impl Default for LentBytes {
    fn default() -> Self {
        let mut random = Random::new(1);
        Self {
            noise: (0..MARGIN).map(|_| random.byte()).collect(),
            buffer: Vec::new(),
            first: 0,
            end: 0,
        }
    }
}

impl LentBytes {
    /// Sets the bytes to be lent, after so many bytes of noise: up to 8, for addresses of every
    /// alignment.
    pub fn set(&mut self, bytes: &[u8], before: usize) {
        self.first = before % 8;
        self.end = self.first + bytes.len();
        self.buffer.clear();
        self.buffer.extend_from_slice(&self.noise[..self.first]);
        self.buffer.extend_from_slice(bytes);
        self.buffer.extend_from_slice(&self.noise);
    }

    pub fn lend(&mut self) -> &mut [u8] {
        &mut self.buffer[self.first..self.end]
    }

    /// Whether these bytes and the noise around them are as they were set.
    pub fn is_kept(&self, bytes: &[u8]) -> bool {
        self.buffer[..self.first] == self.noise[..self.first]
            && self.buffer[self.first..self.end] == *bytes
            && self.buffer[self.end..] == *self.noise
    }
}
