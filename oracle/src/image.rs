//! Document 01's board image, read from its bytes: the sections, and refusals 5 to 8, written from
//! document 01 apart from the proved code.

/// Numbers in a row of the collection table.
pub const COLLECTION_ROW: usize = 2;

/// Bytes of the seven pairs, which open an image.
pub const OPENING: usize = 56;

/// Bytes of the largest image.
pub const LARGEST: usize = 65_536;

/// Bytes of a record of each section: letters, strings, components, features, connections,
/// properties, diagnostics.
pub const RECORDS: [usize; 7] = [1, 8, 20, 12, 12, 12, 12];

/// The first of refusals 5, 6, 7 and 8 that holds. The collection table's length is in numbers.
pub fn image_refusal(image: &[u8], collection_len: usize) -> Option<u32> {
    let Some(image) = Image::read(image) else {
        return Some(5);
    };
    if !image.strings_hold() {
        return Some(6);
    }
    if !image.records_hold() {
        return Some(7);
    }
    if collection_len / COLLECTION_ROW < image.collection_rows() {
        return Some(8);
    }
    None
}

/// The sections of an image that passes refusal 5.
pub struct Image<'a> {
    pub letters: &'a [u8],
    /// Offset and length in letters.
    pub strings: Records<'a, 2>,
    /// Category, parent plus 1, first feature, count of features, wired.
    pub components: Records<'a, 5>,
    /// Name, kind, direction.
    pub features: Records<'a, 3>,
    /// Owner, source plus 1, target plus 1.
    pub connections: Records<'a, 3>,
    /// Component, set, name.
    pub properties: Records<'a, 3>,
    /// Analysis, severity, message.
    pub diagnostics: Records<'a, 3>,
}

impl<'a> Image<'a> {
    /// None where refusal 5 holds.
    pub fn read(image: &'a [u8]) -> Option<Self> {
        if image.len() > LARGEST || image.len() < OPENING {
            return None;
        }
        let pairs = Records::<2>::of(&image[..OPENING]);
        if !laid(pairs.iter(), OPENING, image.len()) {
            return None;
        }
        let mut sections = [&image[..0]; 7];
        for (section, [offset, length]) in pairs.iter().enumerate() {
            sections[section] = &image[offset as usize..][..length as usize];
            if !sections[section].len().is_multiple_of(RECORDS[section]) {
                return None;
            }
        }
        Some(Self {
            letters: sections[0],
            strings: Records::of(sections[1]),
            components: Records::of(sections[2]),
            features: Records::of(sections[3]),
            connections: Records::of(sections[4]),
            properties: Records::of(sections[5]),
            diagnostics: Records::of(sections[6]),
        })
    }

    /// The rows that a collection table must have.
    pub fn collection_rows(&self) -> usize {
        let members = self.components.len() + self.features.len();
        members.max(self.diagnostics.len())
    }

    /// The bytes of a string whose pair lies within the letters.
    pub fn string(&self, [offset, length]: [u32; 2]) -> &'a [u8] {
        &self.letters[offset as usize..][..length as usize]
    }

    /// Whether the string pairs are laid over the letters and each string is UTF-8 by itself.
    fn strings_hold(&self) -> bool {
        let is_text = |pair| str::from_utf8(self.string(pair)).is_ok();
        laid(self.strings.iter(), 0, self.letters.len()) && self.strings.iter().all(is_text)
    }

    /// Whether each number of a record is in its range or table, and the feature pairs are laid over
    /// the features.
    fn records_hold(&self) -> bool {
        let category = |number: u32| number < 14;
        let kind = |number: u32| number < 10;
        let direction = |number: u32| number < 4;
        let severity = |number: u32| number < 3;
        let wired = |number: u32| number < 2;
        let string = |number: u32| (number as usize) < self.strings.len();
        let component = |number: u32| (number as usize) < self.components.len();
        // An index plus 1, or 0.
        let end = |number: u32| number == 0 || string(number - 1);
        let parent = |number: u32| number == 0 || component(number - 1);

        let pairs = self
            .components
            .iter()
            .map(|[_, _, first, count, _]| [first, count]);
        laid(pairs, 0, self.features.len())
            && self
                .components
                .iter()
                .all(|[c, p, _, _, w]| category(c) && parent(p) && wired(w))
            && self
                .features
                .iter()
                .all(|[n, k, d]| string(n) && kind(k) && direction(d))
            && self
                .connections
                .iter()
                .all(|[o, s, t]| component(o) && end(s) && end(t))
            && self
                .properties
                .iter()
                .all(|[c, s, n]| component(c) && string(s) && string(n))
            && self
                .diagnostics
                .iter()
                .all(|[a, s, m]| string(a) && severity(s) && string(m))
    }
}

/// Whether pairs of first and length lie end to end from `first` to `end`.
fn laid(pairs: impl Iterator<Item = [u32; 2]>, first: usize, end: usize) -> bool {
    let mut reached = first as u64;
    for [first, length] in pairs {
        if first as u64 != reached {
            return false;
        }
        reached += length as u64;
    }
    reached == end as u64
}

/// Records of N little-endian numbers.
#[derive(Clone, Copy)]
pub struct Records<'a, const N: usize>(&'a [[[u8; 4]; N]]);

impl<'a, const N: usize> Records<'a, N> {
    fn of(section: &'a [u8]) -> Self {
        Self(section.as_chunks().0.as_chunks().0)
    }

    pub fn len(self) -> usize {
        self.0.len()
    }

    pub fn iter(self) -> impl Iterator<Item = [u32; N]> {
        self.0.iter().map(|record| record.map(u32::from_le_bytes))
    }
}

#[cfg(test)]
mod tests {
    use super::*;

    /// An image by hand: the pairs, then letters, then all other numbers.
    fn image(pairs: [[u32; 2]; 7], letters: &[u8], numbers: &[u32]) -> Vec<u8> {
        let bytes = |numbers: &[u32]| -> Vec<u8> {
            numbers
                .iter()
                .flat_map(|number| number.to_le_bytes())
                .collect()
        };
        [
            bytes(pairs.as_flattened()),
            letters.to_vec(),
            bytes(numbers),
        ]
        .concat()
    }

    const BOARD_B: [[u32; 2]; 7] = [[56, 0]; 7];

    /// Five letters, one string, two components, one feature, one of each other record.
    const PAIRS: [[u32; 2]; 7] = [
        [56, 5],
        [61, 8],
        [69, 40],
        [109, 12],
        [121, 12],
        [133, 12],
        [145, 12],
    ];

    const NUMBERS: [u32; 24] = [
        0, 5, // probe
        0, 0, 0, 0, 1, // a system, wired
        9, 1, 0, 1, 0, // a device below it
        0, 0, 1, // its feature
        0, 1, 0, // a connection without a target
        1, 0, 0, // a property
        0, 2, 0, // a diagnostic
    ];

    fn refusal(image: &[u8]) -> Option<u32> {
        image_refusal(image, 6)
    }

    /// The refusal once one number after the letters is another.
    fn with_number(at: usize, number: u32) -> Option<u32> {
        let mut numbers = NUMBERS;
        numbers[at] = number;
        refusal(&image(PAIRS, b"probe", &numbers))
    }

    /// The refusal once one number of the pairs is another.
    fn with_pair(pair: usize, place: usize, number: u32) -> Option<u32> {
        let mut pairs = PAIRS;
        pairs[pair][place] = number;
        refusal(&image(pairs, b"probe", &NUMBERS))
    }

    #[test]
    fn a_board_is_not_refused() {
        assert_eq!(refusal(&image(PAIRS, b"probe", &NUMBERS)), None);
        assert_eq!(image_refusal(&image(BOARD_B, b"", &[]), 0), None);
    }

    #[test]
    fn sections() {
        assert_eq!(refusal(&[]), Some(5));
        assert_eq!(refusal(&image(BOARD_B, b"", &[])[..55]), Some(5));
        assert_eq!(refusal(&image(BOARD_B, b"a", &[])), Some(5));
        for (pair, [offset, length]) in PAIRS.into_iter().enumerate() {
            assert_eq!(with_pair(pair, 0, offset - 1), Some(5));
            assert_eq!(with_pair(pair, 0, offset + 1), Some(5));
            assert_eq!(with_pair(pair, 1, length - 1), Some(5));
            assert_eq!(with_pair(pair, 1, length + 1), Some(5));
        }
        // Empty, but not where the one before ended.
        assert_eq!(
            refusal(&image([[56, 0]; 7].map(|[o, l]| [o + 1, l]), b"", &[])),
            Some(5)
        );
        // Sums that come right only by wrapping.
        let mut pairs = BOARD_B;
        pairs[0] = [56, u32::MAX - 3];
        pairs[1] = [52, 4];
        assert_eq!(refusal(&image(pairs, b"", &[])), Some(5));
        pairs[1] = [52, 0];
        pairs[2..].fill([52, 0]);
        pairs[6] = [52, 4];
        assert_eq!(refusal(&image(pairs, b"", &[])), Some(5));
    }

    #[test]
    fn parts_of_records() {
        for (section, record) in RECORDS.into_iter().enumerate() {
            for length in 1..=record as u32 {
                let mut pairs = BOARD_B;
                pairs[section] = [56, length];
                pairs[section + 1..].fill([56 + length, 0]);
                let image = [image(pairs, b"", &[]), vec![0; length as usize]].concat();
                let whole = length as usize == record;
                assert_eq!(refusal(&image) == Some(5), !whole, "{section} {length}");
            }
        }
    }

    #[test]
    fn sizes() {
        let of_size = |size: usize| {
            let letters = (size - OPENING - 8) as u32;
            let mut pairs = BOARD_B;
            pairs[0] = [56, letters];
            pairs[1] = [56 + letters, 8];
            pairs[2..].fill([size as u32, 0]);
            refusal(&image(pairs, &vec![b'a'; letters as usize], &[0, letters]))
        };
        assert_eq!(of_size(64), None);
        assert_eq!(of_size(65_536), None);
        assert_eq!(of_size(65_537), Some(5));
    }

    #[test]
    fn strings() {
        let strings = |letters: &[u8], numbers: &[u32]| {
            let (first, end) = (56 + letters.len() as u32, 4 * numbers.len() as u32);
            let mut pairs = [[first + end, 0]; 7];
            pairs[0] = [56, letters.len() as u32];
            pairs[1] = [first, end];
            refusal(&image(pairs, letters, numbers))
        };
        assert_eq!(strings(b"", &[0, 0, 0, 0]), None);
        assert_eq!(strings("aé".as_bytes(), &[0, 1, 1, 2]), None);
        assert_eq!(strings("aé".as_bytes(), &[0, 2, 2, 1]), Some(6));
        assert_eq!(strings("aé".as_bytes(), &[0, 3, 3, 0]), None);
        assert_eq!(strings("aé".as_bytes(), &[0, 0, 0, 3]), None);
        assert_eq!(strings(b"a", &[]), Some(6));
        assert_eq!(strings(b"a", &[0, 0]), Some(6));
        assert_eq!(strings(b"a", &[0, 2]), Some(6));
        assert_eq!(strings(b"a", &[1, 0]), Some(6));
        assert_eq!(strings(b"ab", &[0, 1, 0, 2]), Some(6));
        assert_eq!(strings(b"\xff", &[0, 1]), Some(6));
        assert_eq!(strings(b"a", &[0, u32::MAX, u32::MAX, 2]), Some(6));
    }

    #[test]
    fn ranges() {
        // The place of each number, and its last value that is right.
        let last = [
            (2, 13),
            (3, 2),
            (6, 1),
            (7, 13),
            (8, 2),
            (11, 1),
            (12, 0),
            (13, 9),
            (14, 3),
            (15, 1),
            (16, 1),
            (17, 1),
            (18, 1),
            (19, 0),
            (20, 0),
            (21, 0),
            (22, 2),
            (23, 0),
        ];
        for (at, last) in last {
            for number in 0..=last {
                assert_eq!(with_number(at, number), None, "{at}");
            }
            assert_eq!(with_number(at, last + 1), Some(7), "{at}");
            assert_eq!(with_number(at, u32::MAX), Some(7), "{at}");
        }
    }

    #[test]
    fn feature_pairs() {
        for at in [4, 5, 9, 10] {
            assert_eq!(with_number(at, NUMBERS[at] + 1), Some(7));
            assert_eq!(with_number(at, NUMBERS[at].wrapping_sub(1)), Some(7));
        }
        let mut numbers = NUMBERS;
        numbers[5] = u32::MAX;
        numbers[9..=10].copy_from_slice(&[u32::MAX, 2]);
        assert_eq!(refusal(&image(PAIRS, b"probe", &numbers)), Some(7));
        numbers[5] = 1;
        numbers[9..=10].copy_from_slice(&[1, 0]);
        assert_eq!(refusal(&image(PAIRS, b"probe", &numbers)), None);
    }

    #[test]
    fn collections() {
        let board = image(PAIRS, b"probe", &NUMBERS);
        for length in 0..6 {
            assert_eq!(image_refusal(&board, length), Some(8));
        }
        assert_eq!(image_refusal(&board, 6), None);
        assert_eq!(image_refusal(&board, usize::MAX), None);
        // More diagnostics than components and features: three of an empty string.
        let mut pairs = [[64, 0]; 7];
        pairs[0] = [56, 0];
        pairs[1] = [56, 8];
        pairs[6] = [64, 36];
        let board = image(pairs, b"", &[0; 11]);
        assert_eq!(image_refusal(&board, 5), Some(8));
        assert_eq!(image_refusal(&board, 6), None);
    }

    /// Each damage by itself gives its number; all together give the first.
    #[test]
    fn order() {
        let mut numbers = NUMBERS;
        numbers[2] = 14;
        assert_eq!(image_refusal(&image(PAIRS, b"probe", &numbers), 0), Some(7));
        assert_eq!(
            image_refusal(&image(PAIRS, b"prob\xff", &numbers), 0),
            Some(6)
        );
        let mut pairs = PAIRS;
        pairs[6][1] = 11;
        assert_eq!(
            image_refusal(&image(pairs, b"prob\xff", &numbers), 0),
            Some(5)
        );
    }
}
