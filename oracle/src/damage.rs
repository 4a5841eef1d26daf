//! Damaged copies of boards: in their sections before they are written, or in the image's bytes.

use crate::generate::DAMAGE;
use crate::image::{OPENING, RECORDS};
use crate::random::Random;
use crate::sections::Sections;

/// What is damaged.
#[derive(Debug, Clone, Copy, PartialEq, Eq)]
pub enum Damage {
    /// A number of a record, at or past the end of its range.
    Field,
    /// A component's pair, or the number of features.
    FeaturePair,
    /// A string's pair, or the number of letters.
    StringPair,
    /// Bytes within a string that are not UTF-8.
    Letters,
    /// A character that begins in one string and ends in the next.
    SplitCharacter,
    /// String or feature pairs that come right only if sums wrap at 32 bits.
    WrappingPairs,
    /// The same of two of the seven pairs.
    WrappingSections,
    /// A number of one of the seven pairs.
    SectionPair,
    /// Sections that overlap, stand apart or in another order.
    Apart,
    /// A section with a part of a record at its end.
    PartOfRecord,
    /// An image cut or lengthened.
    Cut,
    /// One byte.
    OneByte,
    /// One number, at any place.
    OneNumber,
}

impl Damage {
    pub fn name(self) -> &'static str {
        match self {
            Damage::Field => "field",
            Damage::FeaturePair => "feature pair",
            Damage::StringPair => "string pair",
            Damage::Letters => "letters",
            Damage::SplitCharacter => "split character",
            Damage::WrappingPairs => "wrapping pairs",
            Damage::WrappingSections => "wrapping sections",
            Damage::SectionPair => "section pair",
            Damage::Apart => "sections apart",
            Damage::PartOfRecord => "part of a record",
            Damage::Cut => "cut or lengthened",
            Damage::OneByte => "one byte",
            Damage::OneNumber => "one number",
        }
    }

    /// What is done to the sections, before they are written.
    pub fn before(self, sections: &mut Sections, random: &mut Random) {
        match self {
            Damage::Field => field(sections, random),
            Damage::FeaturePair => feature_pair(sections, random),
            Damage::StringPair => string_pair(sections, random),
            Damage::Letters => letters(sections, random),
            Damage::SplitCharacter => split_character(sections, random),
            Damage::WrappingPairs if random.once_in(2) => wrap(&mut sections.strings, 0, random),
            Damage::WrappingPairs => wrap(&mut sections.components, 2, random),
            _ => {}
        }
    }

    /// What is done to the image.
    pub fn after(self, image: &mut Vec<u8>, random: &mut Random) {
        match self {
            Damage::WrappingSections => wrapping_sections(image, random),
            Damage::SectionPair => section_pair(image, random),
            Damage::Apart => apart(image, random),
            Damage::PartOfRecord => part_of_record(image, random),
            Damage::Cut => cut(image, random),
            Damage::OneByte => one_byte(image, random),
            Damage::OneNumber => one_number(image, random),
            _ => {}
        }
    }
}

/// A number off by one or by a little, or another number altogether.
fn changed(number: u32, random: &mut Random) -> u32 {
    match random.below(16) {
        0..=3 => number.wrapping_add(1),
        4..=7 => number.wrapping_sub(1),
        8 => number.wrapping_add(random.pick(&[2, 3, 4, 8, 12, 20])),
        9 => number.wrapping_sub(random.pick(&[2, 3, 4, 8, 12, 20])),
        10 => number ^ 1 << random.below(32),
        11 => random.pick(&[0, 1, u32::MAX, 1 << 31, 1 << 16, 1 << 8]),
        12 => random.below(20) as u32,
        13 => random.below(300) as u32,
        14 => number.swap_bytes(),
        _ => random.next() as u32,
    }
}

/// Sets a field of a record: mostly to the first number out of range, else to the last one in it or
/// far outside.
fn field(sections: &mut Sections, random: &mut Random) {
    let strings = sections.strings.len() as u32;
    let components = sections.components.len() as u32;
    let found = match random.below(5) {
        // First and count of features are pairs, damaged elsewhere.
        0 => {
            let ends = [14, components + 1, 0, 0, 2];
            any_field(&mut sections.components, ends, &[0, 1, 4], random)
        }
        1 => any_field(&mut sections.features, [strings, 10, 4], &[0, 1, 2], random),
        2 => {
            let ends = [components, strings + 1, strings + 1];
            any_field(&mut sections.connections, ends, &[0, 1, 2], random)
        }
        3 => {
            let ends = [components, strings, strings];
            any_field(&mut sections.properties, ends, &[0, 1, 2], random)
        }
        _ => {
            let ends = [strings, 3, strings];
            any_field(&mut sections.diagnostics, ends, &[0, 1, 2], random)
        }
    };
    let Some((number, end)) = found else {
        return;
    };
    *number = match random.below(8) {
        0..=2 => end,
        3 | 4 => end.saturating_sub(1),
        5 => end + 1,
        // Truncated to some bits it would be in range.
        6 => end / 2 + random.pick(&[1 << 8, 1 << 16, 1 << 24, 1 << 31]),
        _ => random.pick(&[u32::MAX, u32::MAX - 1, 1 << 31]),
    };
}

/// One of the given fields of any record, with the end of its range.
fn any_field<'a, const N: usize>(
    records: &'a mut [[u32; N]],
    ends: [u32; N],
    fields: &[usize],
    random: &mut Random,
) -> Option<(&'a mut u32, u32)> {
    let field = random.pick(fields);
    let record = any(records, random)?;
    Some((&mut record[field], ends[field]))
}

fn any<'a, T>(records: &'a mut [T], random: &mut Random) -> Option<&'a mut T> {
    match records.len() {
        0 => None,
        length => records.get_mut(random.below(length)),
    }
}

fn feature_pair(sections: &mut Sections, random: &mut Random) {
    match random.below(8) {
        0 => drop(sections.features.pop()),
        1 => sections.features.push([0; 3]),
        2 => drop(sections.components.pop()),
        3 => swap(&mut sections.components, random),
        4 => wrap(&mut sections.components, 2, random),
        _ => pair(&mut sections.components, 2, random),
    }
}

fn string_pair(sections: &mut Sections, random: &mut Random) {
    match random.below(8) {
        0 => drop(sections.letters.pop()),
        1 => sections.letters.push(b'a'),
        2 => drop(sections.strings.pop()),
        3 => swap(&mut sections.strings, random),
        4 => wrap(&mut sections.strings, 0, random),
        _ => pair(&mut sections.strings, 0, random),
    }
}

/// Changes a number of any record's pair; at times the next pair is made to follow from it.
fn pair<const N: usize>(records: &mut [[u32; N]], first: usize, random: &mut Random) {
    if records.is_empty() {
        return;
    }
    let index = random.below(records.len());
    let number = &mut records[index][first + random.below(2)];
    *number = changed(*number, random);
    let end = records[index][first].wrapping_add(records[index][first + 1]);
    if random.once_in(4)
        && let Some(next) = records.get_mut(index + 1)
    {
        next[first] = end;
    }
}

/// Changes places with the next record.
fn swap<T>(records: &mut [T], random: &mut Random) {
    if records.len() > 1 {
        let index = random.below(records.len() - 1);
        records.swap(index, index + 1);
    }
}

/// Makes a pair so long that its sum wraps to below its end, and the next begin there and end where
/// it did. A single pair is changed otherwise.
fn wrap<const N: usize>(records: &mut [[u32; N]], first: usize, random: &mut Random) {
    if records.len() < 2 {
        return pair(records, first, random);
    }
    let index = random.below(records.len() - 1);
    let length = first + 1;
    let short = records[index][length] + random.between(1, 20) as u32;
    let add = |number: &mut u32, more: u32| *number = number.wrapping_add(more);
    add(&mut records[index][length], short.wrapping_neg());
    add(&mut records[index + 1][first], short.wrapping_neg());
    add(&mut records[index + 1][length], short);
}

/// Puts bytes that are not UTF-8 into a string, or changes one of its bytes. The pairs still lie end
/// to end.
fn letters(sections: &mut Sections, random: &mut Random) {
    if sections.strings.is_empty() {
        return;
    }
    let index = random.below(sections.strings.len());
    let [offset, length] = sections.strings[index];
    let at = random.between(offset as usize, (offset + length) as usize);
    if random.once_in(4) && at < sections.letters.len() {
        sections.letters[at] = random.byte();
        return;
    }
    let damage = random.pick(&DAMAGE);
    sections.letters.splice(at..at, damage.iter().copied());
    sections.strings[index][1] += damage.len() as u32;
    for [offset, _] in &mut sections.strings[index + 1..] {
        *offset += damage.len() as u32;
    }
}

/// Parts a string within a character; if none has one of several bytes, the last gets one. The
/// string's end becomes a string of its own, or the beginning of the next.
fn split_character(sections: &mut Sections, random: &mut Random) {
    let Some(last) = sections.strings.last_mut() else {
        return;
    };
    if sections.letters.is_ascii() {
        sections.letters.extend_from_slice("é".as_bytes());
        last[1] += 2;
    }
    let (index, at) = place_within_character(sections, random);
    let [offset, length] = sections.strings[index];
    sections.strings[index][1] = at;
    match sections.strings.get_mut(index + 1) {
        Some(next) if random.once_in(2) => {
            next[0] -= length - at;
            next[1] += length - at;
        }
        _ => {
            let rest = [offset + at, length - at];
            sections.strings.insert(index + 1, rest);
        }
    }
}

/// A string and a byte of it within a character, or the first byte if there is none.
fn place_within_character(sections: &Sections, random: &mut Random) -> (usize, u32) {
    let strings = sections.strings.len();
    let first = random.below(strings);
    for index in (first..strings).chain(0..first) {
        let [offset, length] = sections.strings[index];
        let text = &sections.letters[offset as usize..][..length as usize];
        let within = |&at: &usize| text[at] & 0xc0 == 0x80;
        let places = (0..text.len()).filter(within).count();
        if places > 0 {
            let place = (0..text.len()).filter(within).nth(random.below(places));
            return (index, place.unwrap_or(0) as u32);
        }
    }
    (first, 0)
}

/// A number of the seven pairs: place 0 for offset, 1 for length.
fn opening_number(image: &[u8], section: usize, place: usize) -> u32 {
    let bytes = image[8 * section + 4 * place..].first_chunk();
    u32::from_le_bytes(*bytes.expect("an image has seven pairs"))
}

fn set_opening_number(image: &mut [u8], section: usize, place: usize, number: u32) {
    image[8 * section + 4 * place..][..4].copy_from_slice(&number.to_le_bytes());
}

/// Adds to a number of the seven pairs.
fn add(image: &mut [u8], section: usize, place: usize, more: u32) {
    let number = opening_number(image, section, place);
    set_opening_number(image, section, place, number.wrapping_add(more));
}

/// Adds to the offsets of all sections from one on.
fn add_from(image: &mut [u8], section: usize, more: u32) {
    for section in section..7 {
        add(image, section, 0, more);
    }
}

/// Where a section begins; after the last, where the image ends.
fn first_byte(image: &[u8], section: usize) -> usize {
    match section {
        7 => image.len(),
        _ => opening_number(image, section, 0) as usize,
    }
}

/// Changes a number of a section's pair by one, by a record or otherwise.
fn section_pair(image: &mut [u8], random: &mut Random) {
    let (section, place) = (random.below(7), random.below(2));
    let number = opening_number(image, section, place);
    let record = RECORDS[section] as u32;
    let number = match random.below(4) {
        0 => number.wrapping_add(record),
        1 => number.wrapping_sub(record),
        _ => changed(number, random),
    };
    set_opening_number(image, section, place, number);
}

/// Sets a section, or the image's end, apart from the one before; lets it overlap; or lets two
/// sections change places.
fn apart(image: &mut Vec<u8>, random: &mut Random) {
    let section = random.below(8);
    let bytes = random.pick(&[1, 2, 3, 4, 8, 12, 20, 24, 40, 60]);
    let first = first_byte(image, section);
    match random.below(3) {
        0 => {
            image.splice(first..first, (0..bytes).map(|_| random.byte()));
            add_from(image, section, bytes as u32);
        }
        1 => {
            let bytes = bytes.min(first - OPENING);
            image.drain(first - bytes..first);
            add_from(image, section, (bytes as u32).wrapping_neg());
        }
        _ => exchange(image, section.min(5)),
    }
}

/// Lets a section's bytes stand after those of the next; their pairs still tell where they are.
fn exchange(image: &mut [u8], section: usize) {
    let (first, middle) = (first_byte(image, section), first_byte(image, section + 1));
    let end = first_byte(image, section + 2);
    let (own, next) = (middle - first, end - middle);
    image[first..end].rotate_left(own);
    add(image, section, 0, next as u32);
    add(image, section + 1, 0, (own as u32).wrapping_neg());
}

/// Lengthens or shortens a section by less than a record, and moves those after it.
fn part_of_record(image: &mut Vec<u8>, random: &mut Random) {
    let section = random.between(1, 6);
    let end = first_byte(image, section + 1);
    let bytes = random.between(1, RECORDS[section] - 1);
    if random.once_in(2) && opening_number(image, section, 1) > 0 {
        image.drain(end - bytes..end);
        let fewer = (bytes as u32).wrapping_neg();
        add(image, section, 1, fewer);
        add_from(image, section + 1, fewer);
    } else {
        let zeros = random.once_in(2);
        let byte = |_| if zeros { 0 } else { random.byte() };
        image.splice(end..end, (0..bytes).map(byte));
        add(image, section, 1, bytes as u32);
        add_from(image, section + 1, bytes as u32);
    }
}

/// Cuts the image anywhere, mostly near a section's first byte, or adds bytes. At times the last
/// section's length follows.
fn cut(image: &mut Vec<u8>, random: &mut Random) {
    let before = image.len();
    let near = first_byte(image, random.below(8));
    let length = match random.below(6) {
        0 => random.below(before + 1),
        1 => random.below(OPENING + 1),
        2 => near,
        3 => near - random.between(1, 12),
        4 => before - random.between(1, 12),
        _ => before + random.between(1, 24),
    };
    image.resize(length, 0);
    if random.once_in(3) && length >= OPENING {
        add(image, 6, 1, (length as u32).wrapping_sub(before as u32));
    }
}

/// Makes the sum of a section's offset and length wrap to below its end, and the next section begin
/// there and end where it did. Mostly both are still of whole records.
fn wrapping_sections(image: &mut [u8], random: &mut Random) {
    let section = random.below(6);
    let length = opening_number(image, section, 1);
    let next = opening_number(image, section + 1, 1);
    let records = [section, section + 1].map(|section| RECORDS[section] as u32);
    let whole = |short: u32| {
        let lengths = [length.wrapping_sub(short), next.wrapping_add(short)];
        lengths[0].is_multiple_of(records[0]) && lengths[1].is_multiple_of(records[1])
    };
    let least = length + 1;
    let short = (least..least + 480).find(|&short| whole(short) && !random.once_in(8));
    let short = short.unwrap_or(least);
    add(image, section, 1, short.wrapping_neg());
    add(image, section + 1, 0, short.wrapping_neg());
    add(image, section + 1, 1, short);
}

fn one_byte(image: &mut [u8], random: &mut Random) {
    if let Some(byte) = any(image, random) {
        *byte = match random.below(4) {
            0 => byte.wrapping_add(1),
            1 => byte.wrapping_sub(1),
            _ => random.byte(),
        };
    }
}

/// A number at any place, also across two of the image's numbers.
fn one_number(image: &mut [u8], random: &mut Random) {
    if image.len() < 4 {
        return;
    }
    let at = random.below(image.len() - 3);
    if let Some(bytes) = image[at..].first_chunk_mut() {
        *bytes = changed(u32::from_le_bytes(*bytes), random).to_le_bytes();
    }
}

#[cfg(test)]
mod tests {
    use super::*;
    use crate::draw_board::draw_with_records;
    use crate::image::image_refusal;

    /// How often a damage gives no refusal, and each of 5 to 7, on boards with all sections.
    fn answers(damage: Damage) -> [u32; 4] {
        let mut random = Random::new(1);
        let (mut sections, mut image) = (Sections::default(), Vec::new());
        let mut times = [0; 4];
        for _ in 0..4000 {
            draw_with_records(5, &mut sections, &mut random);
            damage.before(&mut sections, &mut random);
            sections.write(&mut image);
            damage.after(&mut image, &mut random);
            let answer = image_refusal(&image, usize::MAX).unwrap_or(4);
            times[answer as usize - 4] += 1;
        }
        times
    }

    /// Each damage gives the refusals that it is for, and no others.
    #[test]
    fn refusals_of_each() {
        let only = |damage, numbers: [bool; 4]| {
            let times = answers(damage);
            let arose = times.map(|times| times > 0);
            assert_eq!(arose, numbers, "{damage:?} {times:?}");
        };
        only(Damage::Field, [true, false, false, true]);
        only(Damage::FeaturePair, [true, false, false, true]);
        only(Damage::StringPair, [true, false, true, true]);
        only(Damage::Letters, [true, false, true, false]);
        only(Damage::SplitCharacter, [false, false, true, false]);
        only(Damage::WrappingPairs, [true, false, true, true]);
        only(Damage::WrappingSections, [false, true, false, false]);
        only(Damage::SectionPair, [false, true, false, false]);
        only(Damage::Apart, [true, true, false, false]);
        only(Damage::PartOfRecord, [false, true, false, false]);
        only(Damage::Cut, [true, true, false, false]);
        only(Damage::OneByte, [true; 4]);
        only(Damage::OneNumber, [true; 4]);
    }
}
