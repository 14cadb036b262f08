//! The text of rows.

/// A buffer that is kept and filled again.
#[derive(Default)]
pub struct Text {
    buffer: Vec<u8>,
    len: usize,
}

impl Text {
    pub fn octets(&self) -> &[u8] {
        &self.buffer[..self.len]
    }

    pub fn clear(&mut self) {
        self.len = 0;
    }

    /// Ensures that there is room for `count` more bytes, and returns it.
    pub fn room(&mut self, count: usize) -> &mut [u8] {
        let wanted = self.len + count;
        if self.buffer.len() < wanted {
            self.buffer.resize(wanted.max(2 * self.buffer.len()), 0);
        }
        &mut self.buffer[self.len..]
    }

    /// Tells that `count` bytes of the room were filled.
    pub fn advance(&mut self, count: usize) {
        self.len += count;
    }

    pub fn push(&mut self, octets: &[u8]) {
        self.room(octets.len())[..octets.len()].copy_from_slice(octets);
        self.len += octets.len();
    }
}
