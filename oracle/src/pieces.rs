//! A rule in the making: pieces of text, mostly tokens, and how they are set one after another.

use crate::random::Random;

/// A list of byte strings in one buffer.
#[derive(Default)]
pub struct Pieces {
    bytes: Vec<u8>,
    ends: Vec<usize>,
}

impl Pieces {
    pub fn clear(&mut self) {
        self.bytes.clear();
        self.ends.clear();
    }

    pub fn len(&self) -> usize {
        self.ends.len()
    }

    pub fn push(&mut self, piece: &str) {
        self.extend(piece);
        self.close();
    }

    /// Adds to the piece that `close` ends.
    pub fn extend(&mut self, text: &str) {
        self.bytes.extend_from_slice(text.as_bytes());
    }

    pub fn close(&mut self) {
        self.ends.push(self.bytes.len());
    }

    fn piece(&self, index: usize) -> &[u8] {
        let first = if index == 0 { 0 } else { self.ends[index - 1] };
        &self.bytes[first..self.ends[index]]
    }

    /// Sets the pieces of the given indices one after another at the end of `rule`.
    pub fn join(
        &self,
        order: impl Iterator<Item = usize>,
        spacing: Spacing,
        random: &mut Random,
        rule: &mut Vec<u8>,
    ) {
        for index in order {
            let piece = self.piece(index);
            spacing.put(piece, random, rule);
            rule.extend_from_slice(piece);
        }
        spacing.put(b"", random, rule);
    }

    /// Sets all pieces one after another, with one dropped, doubled or swapped with the next.
    pub fn join_with_slip(&self, random: &mut Random, rule: &mut Vec<u8>) {
        let length = self.len();
        let at = random.below(length);
        let spacing = Spacing::draw(true, random);
        match random.below(3) {
            0 => {
                let dropped = (0..length).filter(|&index| index != at);
                self.join(dropped, spacing, random, rule);
            }
            1 => {
                let doubled = (0..=at).chain(at..length);
                self.join(doubled, spacing, random, rule);
            }
            _ => {
                let next = (at + 1).min(length - 1);
                let swap = |index| match index {
                    _ if index == at => next,
                    _ if index == next => at,
                    _ => index,
                };
                let swapped = (0..length).map(swap);
                self.join(swapped, spacing, random, rule);
            }
        }
    }
}

/// What stands between the pieces.
#[derive(Clone, Copy)]
pub struct Spacing {
    /// Of eight places, how many get a blank.
    pub blanks: usize,
    /// Whether words that would grow together are kept apart.
    pub apart: bool,
}

impl Spacing {
    /// From no blanks at all to blanks everywhere.
    pub fn draw(apart: bool, random: &mut Random) -> Self {
        let blanks = random.pick(&[0, 1, 4, 8]);
        Self { blanks, apart }
    }

    /// Adds what stands before the piece. Rarely a form feed begins a token, which is an error.
    fn put(self, piece: &[u8], random: &mut Random, rule: &mut Vec<u8>) {
        let grow = self.apart && is_word(rule.last()) && is_word(piece.first());
        if grow || random.below(8) < self.blanks {
            blank(random, rule);
        }
        if self.blanks > 0 && random.once_in(100) {
            rule.push(b'\x0c');
        }
    }
}

fn is_word(byte: Option<&u8>) -> bool {
    byte.is_some_and(|byte| byte.is_ascii_alphanumeric() || *byte == b'_')
}

/// A run of blanks; a form feed may stand anywhere in it but first.
pub fn blank(random: &mut Random, rule: &mut Vec<u8>) {
    rule.push(random.pick(b"     \t\n\r"));
    while random.once_in(3) {
        rule.push(random.pick(b"  \t\n\r\x0c\x0c"));
    }
}
