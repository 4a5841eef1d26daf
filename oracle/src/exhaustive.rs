//! All short texts, and all ways in which a character may begin.

/// One byte of each class of the lexer and every symbol, the letters of `and`, `or` and `not`, and
/// parts of characters of two, three and four bytes, a surrogate's among them.
const ALPHABET: [u8; 29] = *b" \x0c\x0b'!(),.<=>3orntad_%\xc3\xa9\xe2\x82\xed\xa0\xf0\x9f";

/// Every text of at most four bytes over the alphabet.
pub fn short() -> impl Iterator<Item = Vec<u8>> {
    (0..=4).flat_map(short_of_length)
}

/// Every text of the given length over the alphabet.
fn short_of_length(length: u32) -> impl Iterator<Item = Vec<u8>> {
    let letters = ALPHABET.len();
    let letter = move |number: usize, place| ALPHABET[number / letters.pow(place) % letters];
    let text = move |number| (0..length).map(|place| letter(number, place)).collect();
    (0..letters.pow(length)).map(text)
}

/// Third and fourth bytes on both sides of each limit.
const EDGES: [u8; 6] = [0x00, 0x7f, 0x80, 0xbf, 0xc0, 0xff];

/// Every text of one or two bytes; every text of three that begins with a byte from E0 on, and of
/// four from F0 on, with all second bytes and those at the edges after them.
pub fn characters() -> impl Iterator<Item = Vec<u8>> {
    let one = (0..=0xff).map(|first| vec![first]);
    let two = pairs_from(0).map(Vec::from);
    let three =
        pairs_from(0xe0).flat_map(|[first, second]| EDGES.map(|third| vec![first, second, third]));
    let four = pairs_from(0xf0).flat_map(|[first, second]| {
        let thirds = EDGES.into_iter();
        thirds.flat_map(move |third| EDGES.map(|fourth| vec![first, second, third, fourth]))
    });
    one.chain(two).chain(three).chain(four)
}

/// Every pair of bytes whose first is at least `lowest`.
fn pairs_from(lowest: u8) -> impl Iterator<Item = [u8; 2]> {
    (lowest..=0xff).flat_map(|first| (0..=0xff).map(move |second| [first, second]))
}
