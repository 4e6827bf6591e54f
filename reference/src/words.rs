//! The words of a text, each with its place.

pub const LONGEST_TEXT: usize = 1024;

#[derive(Clone, Copy, PartialEq, Eq, Debug)]
pub enum Kind {
    In,
    Out,
    True,
    False,
    Name,
    /// One of `X G R U F & | ! ( )`.
    Mark(u8),
    /// A byte that begins no word.
    Strange,
}

#[derive(Clone, Copy, Debug)]
pub struct Word<'t> {
    pub kind: Kind,
    pub place: usize,
    pub bytes: &'t [u8],
}

/// All words from the left. What stands behind a strange byte is split like the rest; nobody will ask for it.
pub fn words(text: &[u8]) -> Vec<Word<'_>> {
    let mut found = Vec::new();
    let mut place = 0;
    while place < text.len() {
        let length = length_at(text, place);
        if !is_blank(text[place]) {
            let bytes = &text[place..place + length];
            found.push(Word { kind: kind(bytes), place, bytes });
        }
        place += length;
    }
    found
}

fn is_blank(byte: u8) -> bool {
    byte == b' ' || byte == b'\n'
}

/// The length of the run that begins here, or 1.
fn length_at(text: &[u8], place: usize) -> usize {
    if !text[place].is_ascii_lowercase() {
        return 1;
    }
    text[place..].iter().take_while(|b| b.is_ascii_lowercase() || b.is_ascii_digit()).count()
}

fn kind(bytes: &[u8]) -> Kind {
    match bytes {
        b"in" => Kind::In,
        b"out" => Kind::Out,
        b"true" => Kind::True,
        b"false" => Kind::False,
        [first, ..] if first.is_ascii_lowercase() => Kind::Name,
        [mark] if b"XGRUF&|!()".contains(mark) => Kind::Mark(*mark),
        _ => Kind::Strange,
    }
}
