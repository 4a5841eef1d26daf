//! Generated images, well formed and damaged, and the collection tables lent with them: a seed gives
//! the same ones in the same order everywhere.

use crate::damage::Damage;
use crate::draw_board::{Size, draw, draw_with_records};
use crate::image::{LARGEST, OPENING};
use crate::random::Random;
use crate::sections::Sections;

/// An image and the length of the collection table in numbers.
#[derive(Debug, Clone, Default, PartialEq, Eq)]
pub struct ImageCase {
    pub image: Vec<u8>,
    pub collection: usize,
}

#[derive(Debug, Clone, Copy, PartialEq, Eq)]
pub enum Kind {
    /// Well-formed boards of none to two records in each section.
    Tiny,
    /// Of up to 8.
    Small,
    /// Of up to 60.
    Middle,
    /// Of any size up to the limit.
    AnySize,
    /// Of 65,536 bytes or few less.
    Full,
    /// A board damaged in one way.
    Damaged(Damage),
    /// A board damaged in several ways, so that more than one refusal may hold.
    Several,
    /// Boards whose size alone is wrong: longer than 65,536 bytes or shorter than 56.
    Limits,
    /// Boards with any small numbers in the records of one section.
    AnyRecords,
    /// Bytes of any sort.
    Bytes,
}

impl Kind {
    pub fn name(self) -> &'static str {
        match self {
            Kind::Tiny => "tiny",
            Kind::Small => "small",
            Kind::Middle => "middle",
            Kind::AnySize => "any size",
            Kind::Full => "full",
            Kind::Damaged(damage) => damage.name(),
            Kind::Several => "several",
            Kind::Limits => "limits",
            Kind::AnyRecords => "any records",
            Kind::Bytes => "bytes",
        }
    }
}

/// The well-formed kinds, with their shares.
pub const WELL_FORMED: [(Kind, usize); 5] = [
    (Kind::Tiny, 48),
    (Kind::Small, 48),
    (Kind::Middle, 24),
    (Kind::AnySize, 4),
    (Kind::Full, 4),
];

/// The damaged kinds, with their shares.
pub const DAMAGED: [(Kind, usize); 17] = [
    (Kind::Damaged(Damage::Field), 24),
    (Kind::Damaged(Damage::FeaturePair), 12),
    (Kind::Damaged(Damage::StringPair), 12),
    (Kind::Damaged(Damage::Letters), 8),
    (Kind::Damaged(Damage::SplitCharacter), 8),
    (Kind::Damaged(Damage::WrappingPairs), 4),
    (Kind::Damaged(Damage::WrappingSections), 4),
    (Kind::Damaged(Damage::SectionPair), 12),
    (Kind::Damaged(Damage::Apart), 8),
    (Kind::Damaged(Damage::PartOfRecord), 4),
    (Kind::Damaged(Damage::Cut), 8),
    (Kind::Damaged(Damage::OneByte), 8),
    (Kind::Damaged(Damage::OneNumber), 8),
    (Kind::Several, 8),
    (Kind::Limits, 1),
    (Kind::AnyRecords, 4),
    (Kind::Bytes, 4),
];

/// What `Kind::Several` draws from: damages of texts, of records and of the image, done in this
/// order, as each needs what the later ones damage.
const OF_TEXTS: [Damage; 2] = [Damage::Letters, Damage::SplitCharacter];
const OF_RECORDS: [Damage; 4] = [
    Damage::Field,
    Damage::FeaturePair,
    Damage::StringPair,
    Damage::WrappingPairs,
];
const OF_IMAGE: [Damage; 7] = [
    Damage::WrappingSections,
    Damage::SectionPair,
    Damage::Apart,
    Damage::PartOfRecord,
    Damage::Cut,
    Damage::OneByte,
    Damage::OneNumber,
];

/// Lengths of images that are too long; some would do if only 16 bits of them counted.
const TOO_LONG: [usize; 6] = [
    LARGEST + 1,
    LARGEST + 1,
    LARGEST + 2,
    LARGEST + OPENING,
    LARGEST + 1000,
    2 * LARGEST,
];

/// Lengths of collections that are long enough for any board; some would not do if only 32 bits of
/// them counted.
const LONG: [usize; 6] = [
    1 << 20,
    (1 << 32) - 1,
    1 << 32,
    (1 << 32) + 1,
    1 << 33,
    usize::MAX,
];

/// Gives case after case of one kind, over buffers that are used again.
pub struct Images {
    kind: Kind,
    random: Random,
    sections: Sections,
}

impl Images {
    /// Each kind has numbers of its own, so that a kind's cases do not depend on the others'.
    pub fn new(kind: Kind, seed: u64) -> Self {
        let name = kind.name().bytes();
        let own = name.fold(seed, |own, byte| {
            own.wrapping_mul(0x0000_0100_0000_01B3) ^ byte as u64
        });
        Self {
            kind,
            random: Random::new(Random::new(own).next()),
            sections: Sections::default(),
        }
    }

    /// Makes `case` the next one.
    pub fn fill(&mut self, case: &mut ImageCase) {
        let image = &mut case.image;
        match self.kind {
            Kind::Tiny => self.well_formed(Size::Records(2), image),
            Kind::Small => self.well_formed(Size::Records(8), image),
            Kind::Middle => self.well_formed(Size::Records(60), image),
            Kind::AnySize => {
                let size = Size::any(&mut self.random);
                self.well_formed(size, image);
            }
            Kind::Full => {
                let size = Size::full(&mut self.random);
                self.well_formed(size, image);
            }
            Kind::Damaged(damage) => self.damaged(damage, image),
            Kind::Several => self.several(image),
            Kind::Limits => self.limits(image),
            Kind::AnyRecords => self.any_records(image),
            Kind::Bytes => self.bytes(image),
        }
        let enough = self.enough();
        case.collection = match self.kind {
            Kind::Tiny | Kind::Small | Kind::Middle | Kind::AnySize | Kind::Full => self.lend(),
            _ if self.random.once_in(4) => self.lend(),
            _ => enough + self.random.below(3),
        };
    }

    /// The numbers of a collection that is just enough.
    fn enough(&self) -> usize {
        let members = self.sections.components.len() + self.sections.features.len();
        2 * members.max(self.sections.diagnostics.len())
    }

    /// Around just enough: a row or a number short, a number over, none, long or just enough; or the
    /// same around what a part of the board would need.
    fn lend(&mut self) -> usize {
        let components = self.sections.components.len();
        let features = self.sections.features.len();
        let diagnostics = self.sections.diagnostics.len();
        let base = match self.random.below(12) {
            0 => 2 * components,
            1 => 2 * features,
            2 => 2 * diagnostics,
            3 => 2 * (components + features),
            4 => 2 * (components + features + diagnostics),
            _ => self.enough(),
        };
        match self.random.below(8) {
            0 => base.saturating_sub(2),
            1 => base.saturating_sub(1),
            2 => base + 1,
            3 => 0,
            4 => self.random.pick(&LONG),
            5 => self.random.below(base + 2),
            _ => base,
        }
    }

    fn well_formed(&mut self, size: Size, image: &mut Vec<u8>) {
        draw(size, &mut self.sections, &mut self.random);
        self.sections.write(image);
    }

    /// Draws a board to be damaged: mostly small with all sections, at times any.
    fn draw_base(&mut self) {
        let (sections, random) = (&mut self.sections, &mut self.random);
        match random.below(512) {
            0 => draw(Size::any(random), sections, random),
            1..=63 => draw(Size::Records(24), sections, random),
            _ => draw_with_records(random.between(1, 5), sections, random),
        }
    }

    fn damaged(&mut self, damage: Damage, image: &mut Vec<u8>) {
        self.draw_base();
        damage.before(&mut self.sections, &mut self.random);
        self.sections.write(image);
        damage.after(image, &mut self.random);
    }

    fn several(&mut self, image: &mut Vec<u8>) {
        self.draw_base();
        let left_out = self.random.below(4);
        if left_out != 0 {
            let damage = self.random.pick(&OF_TEXTS);
            damage.before(&mut self.sections, &mut self.random);
        }
        if left_out != 1 {
            let damage = self.random.pick(&OF_RECORDS);
            damage.before(&mut self.sections, &mut self.random);
        }
        self.sections.write(image);
        if left_out > 1 && self.random.once_in(2) {
            let damage = self.random.pick(&OF_IMAGE);
            damage.after(image, &mut self.random);
        }
    }

    fn limits(&mut self, image: &mut Vec<u8>) {
        match self.random.below(4) {
            0 => self.well_formed(Size::Bytes(LARGEST), image),
            1 => {
                self.well_formed(Size::Records(2), image);
                image.truncate(self.random.below(OPENING));
            }
            _ => {
                let size = self.random.pick(&TOO_LONG);
                self.well_formed(Size::Bytes(size), image);
            }
        }
    }

    /// Any small numbers in one section: about as many as it had.
    fn any_records(&mut self, image: &mut Vec<u8>) {
        draw_with_records(
            self.random.between(1, 4),
            &mut self.sections,
            &mut self.random,
        );
        let numbers = match self.random.below(6) {
            0 => self.sections.strings.as_flattened_mut(),
            1 => self.sections.components.as_flattened_mut(),
            2 => self.sections.features.as_flattened_mut(),
            3 => self.sections.connections.as_flattened_mut(),
            4 => self.sections.properties.as_flattened_mut(),
            _ => self.sections.diagnostics.as_flattened_mut(),
        };
        let limit = self.random.pick(&[2, 3, 4, 5, 16]);
        for number in numbers {
            *number = self.random.below(limit) as u32;
        }
        self.sections.write(image);
    }

    /// Any bytes, mostly zeros, or small ones; half of the time behind the pairs of an empty board.
    fn bytes(&mut self, image: &mut Vec<u8>) {
        self.sections.clear();
        self.sections.write(image);
        let random = &mut self.random;
        if random.once_in(2) {
            image.clear();
        }
        let (sort, length) = (random.below(3), random.below(300));
        let byte = |_| match sort {
            0 => random.byte(),
            1 if random.once_in(8) => random.byte(),
            1 => 0,
            _ => random.below(64) as u8,
        };
        image.extend((0..length).map(byte));
    }
}

#[cfg(test)]
mod tests {
    use super::*;
    use crate::image::image_refusal;

    /// How often no refusal arises, and each of 5 to 8.
    fn answers(kind: Kind) -> [u32; 5] {
        let mut images = Images::new(kind, 1);
        let mut case = ImageCase::default();
        let mut times = [0; 5];
        for _ in 0..1000 {
            images.fill(&mut case);
            let answer = image_refusal(&case.image, case.collection).unwrap_or(4);
            times[answer as usize - 4] += 1;
        }
        times
    }

    /// Well-formed boards are refused by 8 alone, and often.
    #[test]
    fn answers_of_well_formed() {
        for (kind, _) in WELL_FORMED {
            let [none, five, six, seven, eight] = answers(kind);
            assert_eq!([five, six, seven], [0; 3], "{kind:?}");
            assert!(none > 200 && eight > 100, "{kind:?} {none} {eight}");
        }
    }

    #[test]
    fn answers_of_damaged() {
        let mut all = [0; 5];
        for (kind, _) in DAMAGED {
            for (all, times) in all.iter_mut().zip(answers(kind)) {
                *all += times;
            }
        }
        assert!(all.iter().all(|&times| times > 100), "{all:?}");
        let [none, five, ..] = answers(Kind::Limits);
        assert!(none > 100 && five > 500, "{none} {five}");
    }
}
