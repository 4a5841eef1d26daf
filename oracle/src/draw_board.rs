//! Boards drawn at random that are well formed.

use crate::generate::character;
use crate::image::{LARGEST, OPENING, RECORDS};
use crate::random::Random;
use crate::sections::Sections;

/// How large a board is.
#[derive(Debug, Clone, Copy, PartialEq, Eq)]
pub enum Size {
    /// At most so many records of each section, with short strings.
    Records(usize),
    /// An image of so many bytes, or of 56 where there is no room for a string.
    Bytes(usize),
}

impl Size {
    /// Any size up to the limit.
    pub fn any(random: &mut Random) -> Self {
        Size::Bytes(random.between(OPENING, LARGEST))
    }

    /// At the limit, or a few bytes below it.
    pub fn full(random: &mut Random) -> Self {
        let below = random.pick(&[0, 0, 0, 1, 2, 3, 4, 8, 12, 20]);
        Size::Bytes(LARGEST - below)
    }
}

/// Texts that a rule may name, and others like them.
const NAMES: [&str; 14] = [
    "probe", "Probe", "probe ", "port_1", "a", "b::c", "a::b", "::", "", "é", "€uro", "😀",
    "timing", "no route",
];

/// How many records each section gets, from strings on.
#[derive(Default)]
struct Counts {
    strings: usize,
    components: usize,
    features: usize,
    connections: usize,
    properties: usize,
    diagnostics: usize,
}

impl Counts {
    fn each(&mut self) -> [&mut usize; 6] {
        [
            &mut self.strings,
            &mut self.components,
            &mut self.features,
            &mut self.connections,
            &mut self.properties,
            &mut self.diagnostics,
        ]
    }

    /// Drops records that would name a string or a component where there is none.
    fn settle(&mut self) {
        if self.components == 0 {
            (self.features, self.connections, self.properties) = (0, 0, 0);
        }
        if self.strings == 0 {
            (self.features, self.properties, self.diagnostics) = (0, 0, 0);
        }
    }

    /// Up to so many of each; once in four a section is empty.
    fn of_records(most: usize, random: &mut Random) -> Self {
        let mut counts = Self::default();
        for count in counts.each() {
            if !random.once_in(4) {
                *count = random.between(most.min(1), most);
            }
        }
        counts.settle();
        counts
    }

    /// Records for so many bytes, and how many are left for letters. A section that comes first may
    /// take most of them.
    fn of_bytes(mut bytes: usize, random: &mut Random) -> (Self, usize) {
        let mut counts = Self::default();
        if bytes < RECORDS[1] {
            return (counts, 0);
        }
        let one_string = RECORDS[1];
        bytes -= one_string;
        let first = random.below(6);
        for turn in 0..6 {
            let section = (first + turn) % 6;
            let record = RECORDS[1 + section];
            let part = random.pick(&[1, 2, 8, 64]);
            let count = random.below(bytes / part / record + 1);
            *counts.each()[section] = count;
            bytes -= count * record;
        }
        counts.strings += 1;
        let taken = counts.bytes();
        counts.settle();
        bytes += taken - counts.bytes();
        (counts, bytes)
    }

    fn bytes(&mut self) -> usize {
        let records = RECORDS[1..].iter();
        let counts = self.each().into_iter();
        counts
            .zip(records)
            .map(|(count, record)| *count * record)
            .sum()
    }
}

/// Makes `sections` a board of about that size.
pub fn draw(size: Size, sections: &mut Sections, random: &mut Random) {
    sections.clear();
    let mut draw = Draw { sections, random };
    match size {
        Size::Records(most) => {
            let counts = Counts::of_records(most, draw.random);
            draw.short_strings(counts.strings);
            draw.records(&counts);
        }
        Size::Bytes(size) => {
            let (counts, letters) = Counts::of_bytes(size - OPENING, draw.random);
            draw.strings_over(counts.strings, letters);
            draw.records(&counts);
        }
    }
}

/// Makes `sections` a board with records in every section, at most so many, so that there is much to
/// damage.
pub fn draw_with_records(most: usize, sections: &mut Sections, random: &mut Random) {
    let mut count = || random.between(1, most);
    let counts = Counts {
        strings: count(),
        components: count(),
        features: count(),
        connections: count(),
        properties: count(),
        diagnostics: count(),
    };
    sections.clear();
    let mut draw = Draw { sections, random };
    draw.short_strings(counts.strings);
    draw.records(&counts);
}

struct Draw<'a> {
    sections: &'a mut Sections,
    random: &'a mut Random,
}

impl Draw<'_> {
    fn short_strings(&mut self, strings: usize) {
        let mut text = String::new();
        for _ in 0..strings {
            self.text(&mut text);
            self.sections.push_string(&text);
        }
    }

    /// Strings of so many letters in all: short ones as long as they fit, a long one, and what is left
    /// in the last.
    fn strings_over(&mut self, strings: usize, letters: usize) {
        if strings == 0 {
            return;
        }
        let mut text = String::new();
        let long = self.random.below(strings);
        for index in 0..strings {
            self.text(&mut text);
            let left = letters - self.sections.letters.len();
            if index == long || text.len() > left {
                text.clear();
            }
            if index == long {
                let most = if index + 1 == strings {
                    left
                } else {
                    self.random.below(left + 1)
                };
                self.long_text(most, &mut text);
            }
            self.sections.push_string(&text);
        }
        self.lengthen_last(letters);
    }

    /// Adds letters to the last string until there are so many.
    fn lengthen_last(&mut self, letters: usize) {
        let sections = &mut *self.sections;
        let missing = letters - sections.letters.len();
        sections.letters.resize(letters, b'z');
        if let Some([_, length]) = sections.strings.last_mut() {
            *length += missing as u32;
        }
    }

    /// Nothing, a name that others have too, letters, or characters of one to four bytes.
    fn text(&mut self, text: &mut String) {
        text.clear();
        let random = &mut *self.random;
        match random.below(8) {
            0 => {}
            1..=3 => text.push_str(random.pick(&NAMES)),
            4 | 5 => {
                let letters = (0..random.between(1, 8)).map(|_| random.pick(b"abcdexyz_:") as char);
                text.extend(letters);
            }
            _ => text.extend((0..random.between(1, 4)).map(|_| character(random))),
        }
    }

    /// One character again and again, then letters, up to so many bytes.
    fn long_text(&mut self, bytes: usize, text: &mut String) {
        let character = character(self.random);
        let times = bytes / character.len_utf8();
        text.extend((0..times).map(|_| character));
        text.extend((text.len()..bytes).map(|_| 'a'));
    }

    fn records(&mut self, counts: &Counts) {
        self.components(counts.components, counts.features);
        for _ in 0..counts.features {
            let kind = self.random.below(10) as u32;
            let direction = self.random.below(4) as u32;
            let record = [self.string(), kind, direction];
            self.sections.features.push(record);
        }
        for _ in 0..counts.connections {
            let record = [self.component(), self.end(), self.end()];
            self.sections.connections.push(record);
        }
        for _ in 0..counts.properties {
            let record = [self.component(), self.string(), self.string()];
            self.sections.properties.push(record);
        }
        for _ in 0..counts.diagnostics {
            let severity = self.random.below(3) as u32;
            let record = [self.string(), severity, self.string()];
            self.sections.diagnostics.push(record);
        }
    }

    /// Components with the features dealt out among them. One takes all that are left; those after
    /// it have none.
    fn components(&mut self, components: usize, features: usize) {
        if components == 0 {
            return;
        }
        let in_ring = self.random.once_in(8);
        let takes_rest = self.random.below(components);
        let mut first = 0;
        for index in 0..components {
            let left = features - first;
            let count = match self.random.below(4) {
                _ if index == takes_rest => left,
                0 | 1 => 0,
                2 => self.random.below(left.min(3) + 1),
                _ => self.random.below(left + 1),
            };
            let category = self.random.below(14) as u32;
            let parent = self.parent(index, components, in_ring) as u32;
            let wired = self.random.below(2) as u32;
            let record = [category, parent, first as u32, count as u32, wired];
            self.sections.components.push(record);
            first += count;
        }
    }

    /// None, itself, the next (so that all make a ring) or any other, plus 1.
    fn parent(&mut self, index: usize, components: usize, in_ring: bool) -> usize {
        let next = (index + 1) % components;
        match self.random.below(4) {
            _ if in_ring => next + 1,
            0 => 0,
            1 => index + 1,
            2 => next + 1,
            _ => self.random.below(components) + 1,
        }
    }

    fn component(&mut self) -> u32 {
        self.random.below(self.sections.components.len()) as u32
    }

    /// A string; half of the time one of the first few, so that records share them.
    fn string(&mut self) -> u32 {
        let strings = self.sections.strings.len();
        let few = if self.random.once_in(2) {
            strings
        } else {
            strings.min(3)
        };
        self.random.below(few) as u32
    }

    /// A string plus 1, or no end.
    fn end(&mut self) -> u32 {
        if self.sections.strings.is_empty() || self.random.once_in(3) {
            return 0;
        }
        self.string() + 1
    }
}

#[cfg(test)]
mod tests {
    use super::*;
    use crate::image::image_refusal;

    fn drawn(size: Size, seed: u64) -> (Sections, Vec<u8>) {
        let (mut sections, mut image) = (Sections::default(), Vec::new());
        draw(size, &mut sections, &mut Random::new(seed));
        sections.write(&mut image);
        (sections, image)
    }

    #[test]
    fn well_formed() {
        for seed in 0..2000 {
            for most in [0, 1, 2, 8, 60] {
                let (_, image) = drawn(Size::Records(most), seed);
                assert_eq!(image_refusal(&image, usize::MAX), None);
            }
        }
        for size in (OPENING..400)
            .chain((400..=LARGEST).step_by(997))
            .chain([LARGEST])
        {
            let (_, image) = drawn(Size::Bytes(size), size as u64);
            assert_eq!(image_refusal(&image, usize::MAX), None);
            let no_room = (57..64).contains(&size);
            assert_eq!(image.len(), if no_room { OPENING } else { size });
        }
    }

    #[test]
    fn with_records() {
        let (mut sections, mut image) = (Sections::default(), Vec::new());
        for seed in 0..500 {
            draw_with_records(1 + seed % 5, &mut sections, &mut Random::new(seed as u64));
            sections.write(&mut image);
            assert_eq!(image_refusal(&image, usize::MAX), None);
        }
    }

    /// Every corner that document 01 allows arises often.
    #[test]
    fn corners() {
        let mut times = [0; 16];
        for seed in 0..2000 {
            let (sections, _) = drawn(Size::Records(6), seed);
            for (times, holds) in times.iter_mut().zip(corners_of(&sections)) {
                *times += u32::from(holds);
            }
        }
        assert!(times.iter().all(|&times| times > 100), "{times:?}");
    }

    fn corners_of(sections: &Sections) -> [bool; 16] {
        let Sections {
            letters,
            strings,
            components,
            features,
            connections,
            properties,
            diagnostics,
        } = sections;
        let text = |string: u32| {
            let [offset, length] = strings[string as usize];
            &letters[offset as usize..][..length as usize]
        };
        let parent = |component: usize| components[component][1] as usize;
        let own = |index: usize| parent(index) == index + 1;
        let in_ring = |index: usize| {
            let next = parent(index);
            next > 0 && next != index + 1 && parent(next - 1) == index + 1
        };
        let unwired_owner = |owner: u32| components[owner as usize][4] == 0;
        let owns = |index: usize| connections.iter().any(|record| record[0] as usize == index);
        let owner = |feature: usize| {
            let holds = |c: &[u32; 5]| (c[2]..c[2] + c[3]).contains(&(feature as u32));
            components.iter().position(holds)
        };
        let named = |feature: usize, other: usize| {
            owner(feature) != owner(other) && text(features[feature][0]) == text(features[other][0])
        };
        let shared = |feature: usize| (0..feature).any(|other| named(feature, other));
        let number = components.len();
        [
            letters.is_empty(),
            strings.is_empty() && !components.is_empty(),
            components.is_empty() && !diagnostics.is_empty(),
            features.is_empty() && !components.is_empty(),
            connections.is_empty(),
            properties.is_empty(),
            diagnostics.is_empty(),
            strings.iter().any(|&[_, length]| length == 0),
            (0..number).any(own),
            (0..number).any(in_ring),
            (0..features.len()).any(shared),
            properties.iter().any(|&[_, set, _]| text(set).is_empty()),
            connections.iter().any(|&[_, s, t]| (s == 0) != (t == 0)),
            connections.iter().any(|&[_, s, t]| s == 0 && t == 0),
            connections
                .iter()
                .any(|&[owner, _, _]| unwired_owner(owner)),
            (0..number).any(|index| components[index][4] == 1 && !owns(index)),
        ]
    }
}
