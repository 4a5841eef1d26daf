//! The seven sections of a board image as numbers, and the image's bytes.

use crate::image::OPENING;

/// Document 01's sections. Nothing keeps their numbers in range: damaged boards pass here too.
#[derive(Debug, Default)]
pub struct Sections {
    pub letters: Vec<u8>,
    /// Offset and length in letters.
    pub strings: Vec<[u32; 2]>,
    /// Category, parent plus 1, first feature, count of features, wired.
    pub components: Vec<[u32; 5]>,
    /// Name, kind, direction.
    pub features: Vec<[u32; 3]>,
    /// Owner, source plus 1, target plus 1.
    pub connections: Vec<[u32; 3]>,
    /// Component, set, name.
    pub properties: Vec<[u32; 3]>,
    /// Analysis, severity, message.
    pub diagnostics: Vec<[u32; 3]>,
}

impl Sections {
    pub fn clear(&mut self) {
        self.letters.clear();
        self.strings.clear();
        self.components.clear();
        self.features.clear();
        self.connections.clear();
        self.properties.clear();
        self.diagnostics.clear();
    }

    /// Adds a string after the last.
    pub fn push_string(&mut self, text: &str) {
        let (offset, length) = (self.letters.len() as u32, text.len() as u32);
        self.letters.extend_from_slice(text.as_bytes());
        self.strings.push([offset, length]);
    }

    /// The index of a string, which is added if there is none of these bytes.
    pub fn string(&mut self, text: &str) -> u32 {
        let is_text = |&[offset, length]: &[u32; 2]| {
            self.letters[offset as usize..][..length as usize] == *text.as_bytes()
        };
        if let Some(index) = self.strings.iter().position(is_text) {
            return index as u32;
        }
        self.push_string(text);
        (self.strings.len() - 1) as u32
    }

    /// All sections after the letters, number after number.
    fn numbers(&self) -> [&[u32]; 6] {
        [
            self.strings.as_flattened(),
            self.components.as_flattened(),
            self.features.as_flattened(),
            self.connections.as_flattened(),
            self.properties.as_flattened(),
            self.diagnostics.as_flattened(),
        ]
    }

    /// Makes `image` the image of these sections, one after the other.
    pub fn write(&self, image: &mut Vec<u8>) {
        image.clear();
        let mut offset = OPENING;
        let lengths = self.numbers().map(|numbers| 4 * numbers.len());
        for length in [self.letters.len()].into_iter().chain(lengths) {
            put(image, &[offset as u32, length as u32]);
            offset += length;
        }
        image.extend_from_slice(&self.letters);
        for numbers in self.numbers() {
            put(image, numbers);
        }
    }
}

fn put(image: &mut Vec<u8>, numbers: &[u32]) {
    image.reserve(4 * numbers.len());
    for number in numbers {
        image.extend_from_slice(&number.to_le_bytes());
    }
}
