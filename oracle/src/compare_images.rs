//! The check of board images: the proved code beside `image_refusal`.

use std::env;
use std::fmt;
use std::fs;
use std::io;
use std::path::{Path, PathBuf};

use crate::example_boards;
use crate::generate_images::{DAMAGED, ImageCase, Images, Kind, WELL_FORMED};
use crate::image::{Image, image_refusal};
use crate::lent::LentBytes;
use crate::proved;

/// Compares every small change of the example boards, and generated images: half of them well formed,
/// half damaged.
pub fn compare(count: usize, seed: u64) -> Result<(), Box<Difference>> {
    let mut sides = Sides::default();
    let mut total = every("every collection", every_collection, &mut sides)?;
    total.add(every("every byte", every_byte, &mut sides)?);
    total.add(every("every number", every_number, &mut sides)?);
    total.add(every("every cut", every_cut, &mut sides)?);
    let half = count / 2;
    let well_formed = generated(&WELL_FORMED, count - half, seed, &mut sides)?;
    let damaged = generated(&DAMAGED, half, seed, &mut sides)?;
    well_formed.print("well formed");
    damaged.print("damaged");
    total.add(well_formed);
    total.add(damaged);
    total.print("total");
    Ok(())
}

/// Compares one case, and tells what both sides say of it.
pub fn one(file: &Path, collection: usize) -> io::Result<Result<String, String>> {
    let image = fs::read(file)?;
    let case = ImageCase { image, collection };
    let sections = match Image::read(&case.image) {
        Some(image) => format!("{}\n", sections(&image)),
        None => String::new(),
    };
    let checked = Sides::default().check(&case);
    Ok(checked.map(|answer| format!("{sections}{}", told(answer))))
}

/// How many records each section has.
fn sections(image: &Image) -> String {
    format!(
        "letters {}, strings {}, components {}, features {}, connections {}, properties {}, \
         diagnostics {}",
        image.letters.len(),
        image.strings.len(),
        image.components.len(),
        image.features.len(),
        image.connections.len(),
        image.properties.len(),
        image.diagnostics.len(),
    )
}

fn told(answer: u32) -> String {
    match answer {
        0 => String::from("not refused"),
        number => format!("refused {number}"),
    }
}

/// How many cases agreed, by their answer: no refusal, then 5 to 8.
#[derive(Clone, Copy, Default)]
struct Agreed([usize; 5]);

impl Agreed {
    fn count(&mut self, answer: u32) {
        self.0[answer.saturating_sub(4) as usize] += 1;
    }

    fn add(&mut self, other: Agreed) {
        for (own, other) in self.0.iter_mut().zip(other.0) {
            *own += other;
        }
    }

    fn print(self, name: &str) {
        let total: usize = self.0.iter().sum();
        let [none, five, six, seven, eight] = self.0;
        println!(
            "{name:<18} {total:>8} agreed: {none:>7} not refused, {five:>6} by 5, {six:>6} by 6, \
             {seven:>6} by 7, {eight:>6} by 8"
        );
    }
}

/// Hands each case that is made of an image to the last argument.
type Make = fn(&[u8], &mut dyn FnMut(&ImageCase) -> Checked) -> Checked;

type Checked = Result<(), Box<Difference>>;

/// Compares all cases that are made of the example boards.
fn every(name: &'static str, make: Make, sides: &mut Sides) -> Result<Agreed, Box<Difference>> {
    let mut agreed = Agreed::default();
    for (_, image) in example_boards::boards() {
        make(&image, &mut |case| {
            agreed.count(check(name, case, sides)?);
            Ok(())
        })?;
    }
    agreed.print(name);
    Ok(agreed)
}

/// Numbers of a collection that is enough for each example.
const ENOUGH: usize = 120;

/// Every length of the collection table up to more than enough.
fn every_collection(image: &[u8], check: &mut dyn FnMut(&ImageCase) -> Checked) -> Checked {
    let image = image.to_vec();
    let mut case = ImageCase {
        image,
        collection: 0,
    };
    for collection in 0..=ENOUGH {
        case.collection = collection;
        check(&case)?;
    }
    Ok(())
}

/// Every byte with every other in its place.
fn every_byte(image: &[u8], check: &mut dyn FnMut(&ImageCase) -> Checked) -> Checked {
    let mut case = ImageCase {
        image: image.to_vec(),
        collection: ENOUGH,
    };
    for (at, &found) in image.iter().enumerate() {
        for byte in 0..=255 {
            case.image[at] = byte;
            check(&case)?;
        }
        case.image[at] = found;
    }
    Ok(())
}

/// Every four bytes with other numbers in their place.
fn every_number(image: &[u8], check: &mut dyn FnMut(&ImageCase) -> Checked) -> Checked {
    let mut case = ImageCase {
        image: image.to_vec(),
        collection: ENOUGH,
    };
    for at in 0..=image.len() - 4 {
        let found = *image[at..].first_chunk().unwrap();
        let number = u32::from_le_bytes(found);
        let near = (0..=40).map(|step| number.wrapping_add(step).wrapping_sub(20));
        for other in near.chain([1 << 31, u32::MAX - 3, u32::MAX]) {
            case.image[at..at + 4].copy_from_slice(&other.to_le_bytes());
            check(&case)?;
        }
        case.image[at..at + 4].copy_from_slice(&found);
    }
    Ok(())
}

/// Every beginning, and the image with up to 64 bytes more.
fn every_cut(image: &[u8], check: &mut dyn FnMut(&ImageCase) -> Checked) -> Checked {
    let mut case = ImageCase {
        image: [image, &[0; 64]].concat(),
        collection: ENOUGH,
    };
    while !case.image.is_empty() {
        check(&case)?;
        case.image.pop();
    }
    check(&case)
}

/// Compares generated cases: of each kind its share of the count.
fn generated(
    kinds: &[(Kind, usize)],
    count: usize,
    seed: u64,
    sides: &mut Sides,
) -> Result<Agreed, Box<Difference>> {
    let shares: usize = kinds.iter().map(|(_, share)| share).sum();
    let mut total = Agreed::default();
    let mut before = 0;
    for &(kind, share) in kinds {
        let cases = count * (before + share) / shares - count * before / shares;
        before += share;
        let mut agreed = Agreed::default();
        let mut images = Images::new(kind, seed);
        let mut case = ImageCase::default();
        for _ in 0..cases {
            images.fill(&mut case);
            agreed.count(check(kind.name(), &case, sides)?);
        }
        agreed.print(kind.name());
        total.add(agreed);
    }
    Ok(total)
}

fn check(kind: &'static str, case: &ImageCase, sides: &mut Sides) -> Result<u32, Box<Difference>> {
    let checked = sides.check(case);
    checked.map_err(|sides| Difference::new(kind, case, sides))
}

/// Both sides of one case, over a buffer that is used again.
#[derive(Default)]
struct Sides {
    lent: LentBytes,
}

impl Sides {
    /// What both sides answer: a refusal's number, or 0. The image is lent at any address among noise,
    /// and nothing of it may be altered. On a difference it tells both sides.
    fn check(&mut self, case: &ImageCase) -> Result<u32, String> {
        let ImageCase { image, collection } = case;
        let expected = image_refusal(image, *collection).unwrap_or(0);
        self.lent.set(image, image.len() + collection % 8);
        let answer = proved::check_image(self.lent.lend(), *collection);
        let kept = self.lent.is_kept(image);
        if answer == expected && kept {
            return Ok(answer);
        }
        let altered = if kept { "" } else { ", and bytes were altered" };
        let (rust, proved) = (told(expected), told(answer));
        Err(format!("Rust:   {rust}\nproved: {proved}{altered}"))
    }
}

/// A case on which the sides differ, what they say, and the file of its image.
pub struct Difference {
    kind: &'static str,
    collection: usize,
    sides: String,
    file: io::Result<PathBuf>,
}

impl Difference {
    fn new(kind: &'static str, case: &ImageCase, sides: String) -> Box<Self> {
        Box::new(Self {
            kind,
            collection: case.collection,
            sides,
            file: write_beside_program(&case.image),
        })
    }
}

/// Writes an image beside the running program, which stands in the target folder.
pub fn write_beside_program(image: &[u8]) -> io::Result<PathBuf> {
    let file = env::current_exe()?.with_file_name("difference.image");
    fs::write(&file, image)?;
    Ok(file)
}

impl fmt::Display for Difference {
    fn fmt(&self, f: &mut fmt::Formatter<'_>) -> fmt::Result {
        let collection = self.collection;
        writeln!(f, "{} differs", self.kind)?;
        match &self.file {
            Ok(file) => writeln!(f, "oracle/oracle one-image {} {collection}", file.display())?,
            Err(error) => writeln!(f, "the image could not be written: {error}")?,
        }
        write!(f, "{}", self.sides)
    }
}

#[cfg(test)]
mod tests {
    use super::*;

    #[test]
    fn enough_for_each_example() {
        for (name, image) in example_boards::boards() {
            assert_eq!(image_refusal(&image, ENOUGH), None, "{name}");
        }
    }
}
