//! The messages of errors: what the proved code writes beside what the Rust says.

use crate::case::ERROR_ROW;
use crate::proved;
use crate::random::Random;

/// Bytes kept after the room for a message, which no call may alter.
const MARGIN: usize = 16;

/// Room for messages, full of noise before each call.
#[derive(Default)]
pub struct Messages {
    found: Vec<u8>,
    bytes: Vec<u8>,
    /// How many messages agreed.
    pub agreed: usize,
}

/// An error of a rule and what the Rust says of it.
pub struct Said<'a> {
    pub rule: &'a [u8],
    pub error: [u32; ERROR_ROW],
    pub message: &'a [u8],
}

impl Messages {
    /// Asks for a message with room just enough, with a byte too few, and at times with more. On a
    /// difference it tells both sides.
    pub fn check(&mut self, said: &Said, noise: &mut Random) -> Result<(), String> {
        let enough = said.message.len();
        self.check_with_room(said, enough, noise)?;
        self.check_with_room(said, enough - 1, noise)?;
        if noise.once_in(4) {
            self.check_with_room(said, enough + noise.between(1, 40), noise)?;
        }
        self.agreed += 1;
        Ok(())
    }

    fn check_with_room(
        &mut self,
        said: &Said,
        room: usize,
        noise: &mut Random,
    ) -> Result<(), String> {
        self.grow(room + MARGIN);
        let written_before = noise.next() as usize;
        let mut written = written_before;
        let out = &mut self.bytes[..room];
        let returned = proved::message(said.rule, said.error, out, &mut written);

        let (expected, message, count) = match said.message.len() {
            length if length <= room => (0, said.message, length),
            _ => (1, &[][..], written_before),
        };
        let end = room + MARGIN;
        let (front, rest) = self.bytes[..end].split_at_mut(message.len());
        let (found, found_rest) = self.found[..end].split_at(message.len());
        if (returned, written) != (expected, count) || front != message || rest != found_rest {
            let proved = String::from_utf8_lossy(&self.bytes[..end]).into_owned();
            return Err(format!(
                "message of error {:?} with room for {room} bytes\n\
                 Rust:   returns {expected}, written {count}, {:?}\n\
                 proved: returns {returned}, written {written}, room and margin {proved:?}",
                said.error,
                String::from_utf8_lossy(message),
            ));
        }
        front.copy_from_slice(found);
        Ok(())
    }

    /// Noise depends on the place alone; a call that is right leaves it past the message.
    fn grow(&mut self, length: usize) {
        for place in self.found.len()..length {
            let byte = Random::new(place as u64).byte();
            self.found.push(byte);
            self.bytes.push(byte);
        }
    }
}
