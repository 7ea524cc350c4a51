//! Names of sites, and a table that finds a site by its name, in either case.

use crate::planted::{Error, planted};
use crate::{PLACES, Site};

/// A name of 1 to 12 bytes as it is spelt: its bytes in order from the lowest, then zero bytes.
///
/// No name holds a zero byte, so the length is told by the highest byte that is not zero.
#[derive(Clone, Copy, PartialEq, Eq)]
pub struct Name(u128);

/// The most bytes a name may have.
const NAME_BYTES: usize = 12;

const EVERY_BYTE: u128 = u128::MAX / 0xff;
const HIGH_BITS: u128 = EVERY_BYTE * 0x80;
/// In a letter this bit alone tells small from capital. All digits have it, so that without it they
/// still differ from each other and from letters.
const CASE_BIT: u128 = 0x20;
/// All letters have this bit, and no digit has it.
const LETTER_BIT: u128 = 0x40;

/// The high bit of every byte of `bytes` that lies in `low..=high`, both below 128. The bytes
/// themselves must be below 128.
const fn bytes_between(bytes: u128, low: u8, high: u8) -> u128 {
    let reaches = bytes + EVERY_BYTE * (0x80 - low as u128);
    let passes = bytes + EVERY_BYTE * (0x7f - high as u128);
    reaches & !passes & HIGH_BITS
}

impl Name {
    /// No name: what stands in places without a site.
    pub const NONE: Name = Name(0);

    /// Takes the name at the start of 16 bytes, and says how long it is. There is none if no
    /// letter or digit stands there, or more than 12 do.
    #[inline]
    pub fn at_start(bytes: [u8; 16]) -> Option<(Name, usize)> {
        let word = u128::from_le_bytes(bytes);
        let low_seven = word & !HIGH_BITS;
        let letter_or_digit = bytes_between(low_seven, b'0', b'9')
            | bytes_between(low_seven | (EVERY_BYTE * CASE_BIT), b'a', b'z');
        let other = (letter_or_digit & !word) ^ HIGH_BITS;
        let length = (other.trailing_zeros() / 8) as usize;
        if length == 0 || length > NAME_BYTES {
            return None;
        }
        let kept = u128::MAX >> (128 - 8 * length);
        Some((Name(word & kept), length))
    }

    /// The name that a field is, if it is one.
    #[cold]
    pub fn of_field(field: &[u8]) -> Option<Name> {
        let mut bytes = [0; 16];
        bytes.get_mut(..field.len())?.copy_from_slice(field);
        let (name, length) = Name::at_start(bytes)?;
        (length == field.len()).then_some(name)
    }

    /// Whether it is a bare number, one of digits alone, which may not stand there.
    #[inline]
    pub fn is_bare(self, place: Place) -> bool {
        self.0 & telling_letters(self) == 0 && !place.accepts_bare()
    }

    /// The bytes of the name, followed by zero bytes.
    #[inline]
    pub fn bytes(self) -> [u8; 16] {
        self.0.to_le_bytes()
    }

    /// The number of bytes of the name.
    #[inline]
    pub fn length(self) -> usize {
        16 - (self.0.leading_zeros() / 8) as usize
    }

    /// The same name in capitals.
    #[cold]
    pub fn in_capitals(self) -> Name {
        Name(u128::from_le_bytes(
            self.bytes().map(|byte| byte.to_ascii_uppercase()),
        ))
    }

    /// Whether it is the same name as another: they agree when a-z is read as A-Z.
    #[inline]
    fn is_same(self, other: Name) -> bool {
        (self.0 ^ other.0) & telling() == 0
    }

    /// Where the search for the name starts, however it is spelt.
    #[inline]
    fn slot(self) -> usize {
        let read = if planted(Error::HashByBytes) {
            self.0
        } else {
            self.0 & telling()
        };
        let low = read as u64;
        let high = (read >> 64) as u64;
        let mixed = (low ^ high.rotate_left(29)).wrapping_mul(0x9e37_79b9_7f4a_7c15);
        (mixed >> (64 - SLOT_BITS)) as usize
    }
}

/// The bits that tell names apart.
#[inline(always)]
fn telling() -> u128 {
    if planted(Error::FirstLetterOnly) {
        return !CASE_BIT;
    }
    if planted(Error::LowFiveBits) {
        return EVERY_BYTE * 0x1f;
    }
    !(EVERY_BYTE * CASE_BIT)
}

/// The bits of which a name has one if it is not one of digits alone.
#[inline(always)]
fn telling_letters(name: Name) -> u128 {
    let starts_with_zero = name.0 & 0xff == u128::from(b'0');
    if planted(Error::LeadingZeroBare) && starts_with_zero && name.length() > 1 {
        return u128::MAX;
    }
    if planted(Error::FirstByteAlone) {
        return LETTER_BIT;
    }
    if planted(Error::LastByteAlone) {
        return LETTER_BIT << (8 * (name.length() - 1));
    }
    EVERY_BYTE * LETTER_BIT
}

/// Where a name stands. It makes no difference but to errors that can be planted.
#[derive(Clone, Copy)]
pub enum Place {
    /// On the line of a site.
    Site,
    /// On a link line: its first name is 0, its second 1.
    Link(usize),
    /// On a line of a log, likewise.
    Log(usize),
}

impl Place {
    /// Whether bare numbers may stand there.
    #[inline(always)]
    fn accepts_bare(self) -> bool {
        let accepts = match self {
            Place::Site => planted(Error::BareInLogsAlone),
            Place::Link(_) => planted(Error::BareInLogsAlone) || planted(Error::BareOnSitesAlone),
            Place::Log(_) => planted(Error::BareOnSitesAlone) || planted(Error::BareInLogUnknown),
        };
        let is_second = matches!(self, Place::Link(1) | Place::Log(1));
        accepts || planted(Error::BareAccepted) || (planted(Error::SecondBareAccepted) && is_second)
    }
}

const SLOT_BITS: u32 = 10;
const SLOTS: usize = 1 << SLOT_BITS;

/// An open-addressed table from names to sites, never more than half full.
pub struct NameTable {
    /// The site of each slot plus one, or 0 for an empty slot.
    slots: [Site; SLOTS],
}

/// Where a search in the table ended.
pub enum Found {
    /// At the site of that name.
    Site(Site),
    /// At an empty slot, where the name would be put.
    Empty(usize),
}

impl NameTable {
    pub const fn new() -> Self {
        NameTable { slots: [0; SLOTS] }
    }

    /// Looks `name` up, in either case, among the `names` of the sites put into the table; but by
    /// bytes if the error that does so is planted.
    #[inline]
    pub fn find(&self, names: &[Name; PLACES], name: Name, by_bytes: Error) -> Found {
        let mut slot = name.slot();
        loop {
            let entry = self.slots[slot];
            if entry == 0 {
                return Found::Empty(slot);
            }
            let site = entry - 1;
            let other = names[usize::from(site)];
            let is_same = if planted(by_bytes) {
                name == other
            } else {
                name.is_same(other)
            };
            if is_same {
                return Found::Site(site);
            }
            slot = (slot + 1) % SLOTS;
        }
    }

    /// Puts `site` into the empty slot a search for its name ended at.
    #[inline]
    pub fn put(&mut self, slot: usize, site: Site) {
        self.slots[slot] = site + 1;
    }
}

#[cfg(test)]
mod tests {
    use super::*;

    fn padded(text: &[u8]) -> [u8; 16] {
        let mut bytes = [0; 16];
        bytes[..text.len()].copy_from_slice(text);
        bytes
    }

    #[test]
    fn a_name_is_a_run_of_letters_and_digits() {
        for byte in 0..=u8::MAX {
            let taken = Name::at_start(padded(&[b'a', byte]));
            let length = taken.map(|(name, length)| {
                assert_eq!(name.length(), length);
                length
            });
            let expected = if byte.is_ascii_alphanumeric() { 2 } else { 1 };
            assert_eq!(length, Some(expected), "byte {byte}");
            assert_eq!(
                Name::at_start(padded(&[byte])).is_some(),
                byte.is_ascii_alphanumeric()
            );
        }
    }

    #[test]
    fn a_name_has_one_to_twelve_bytes() {
        for length in 0..=16 {
            let taken = Name::at_start(padded(&b"Zz09AaMmNn55Qq77"[..length]));
            assert_eq!(taken.is_some(), (1..=12).contains(&length));
            if let Some((name, taken_length)) = taken {
                assert_eq!(taken_length, length);
                assert_eq!(name.bytes()[..length], b"Zz09AaMmNn55Qq77"[..length]);
            }
        }
    }

    #[test]
    fn a_field_is_a_name_or_not() {
        for length in 0..40 {
            let field = &[b'z'; 40][..length];
            let name = Name::of_field(field);
            assert_eq!(name.is_some(), (1..=12).contains(&length));
            for place in 0..length {
                let mut other = field.to_vec();
                other[place] = *b"\0 /:@[`{\x80\xb0".get(place % 10).expect("there are ten");
                assert!(Name::of_field(&other).is_none(), "{other:?}");
            }
        }
    }

    /// Digits alone are a bare number, however many they are and whatever they start with; with a letter
    /// at any place they are none.
    #[test]
    fn digits_alone_are_a_bare_number() {
        for digit in b'0'..=b'9' {
            for length in 1..=12 {
                let mut text = [digit; 12];
                text[length - 1] = b'9' + b'0' - digit;
                assert!(name(&text[..length]).is_bare(Place::Site));
                for place in 0..length {
                    for letter in (0..=u8::MAX).filter(u8::is_ascii_alphabetic) {
                        let mut text = text;
                        text[place] = letter;
                        assert!(!name(&text[..length]).is_bare(Place::Link(1)));
                    }
                }
            }
        }
    }

    /// All letters and digits, each read as the card says: a-z as A-Z.
    fn letters_and_digits() -> impl Iterator<Item = (u8, u8)> {
        let names = (0..=u8::MAX).filter(u8::is_ascii_alphanumeric);
        names.map(|byte| match byte {
            b'a'..=b'z' => (byte, byte - b'a' + b'A'),
            _ => (byte, byte),
        })
    }

    fn name(text: &[u8]) -> Name {
        let (name, length) = Name::at_start(padded(text)).expect("letters and digits");
        assert_eq!(length, text.len());
        name
    }

    #[test]
    fn names_are_the_same_in_either_case() {
        let text = b"Hill9zA0pP5q";
        for length in [1, 7, 8, 9, 12] {
            for place in 0..length {
                let with = |byte| {
                    let mut text = text[..length].to_vec();
                    text[place] = byte;
                    name(&text)
                };
                for (one, read) in letters_and_digits() {
                    for (other, other_read) in letters_and_digits() {
                        let is_same = read == other_read;
                        let texts = [with(one), with(other)];
                        assert_eq!(texts[0].is_same(texts[1]), is_same, "{one} {other}");
                        assert!(!is_same || texts[0].slot() == texts[1].slot());
                        assert_eq!(texts[0] == texts[1], one == other);
                    }
                }
            }
        }
    }

    #[test]
    fn spellings_are_kept() {
        let spellings: [&[u8]; 4] = [
            b"abcXYZ019azA",
            b"ABCXYZ019AZA",
            b"abcxyz019aza",
            b"aBcXyZ019AzA",
        ];
        for one in spellings {
            assert_eq!(name(one).bytes()[..12], *one);
            assert_eq!(name(one).in_capitals().bytes()[..12], *spellings[1]);
            for other in spellings {
                assert!(name(one).is_same(name(other)));
                assert_eq!(name(one).slot(), name(other).slot());
            }
        }
    }

    #[test]
    fn a_start_is_another_name() {
        let text = b"aAaAaAaAaAaA";
        for [one, other] in (1..=12).flat_map(|one| (1..=12).map(move |other| [one, other])) {
            let names = [one, other].map(|length| name(&text[..length]));
            assert_eq!(names[0].is_same(names[1]), one == other);
        }
    }

    /// Looks a name up as a link line does.
    fn find(table: &NameTable, names: &[Name; PLACES], text: &str) -> Option<Site> {
        match table.find(names, name(text.as_bytes()), Error::LinksByBytes) {
            Found::Site(site) => Some(site),
            Found::Empty(_) => None,
        }
    }

    #[test]
    fn the_table_holds_384_names() {
        let mut names = [Name::NONE; PLACES];
        let mut table = NameTable::new();
        let text = |number: usize| format!("Site{number}p");
        for site in 0..PLACES as Site {
            let name = name(text(site.into()).as_bytes());
            let Found::Empty(slot) = table.find(&names, name, Error::SitesByBytes) else {
                panic!("found before it was put");
            };
            names[usize::from(site)] = name;
            table.put(slot, site);
        }
        for site in 0..PLACES as Site {
            let text = text(site.into());
            let small = text.to_ascii_lowercase();
            for spelling in [&text, &small, &text.to_ascii_uppercase()] {
                assert_eq!(find(&table, &names, spelling), Some(site), "{spelling}");
            }
            // A digit for the letter whose low bits it shares.
            assert_eq!(find(&table, &names, &small.replace('p', "0")), None);
            assert_eq!(find(&table, &names, &small.replace('p', "")), None);
        }
        assert_eq!(find(&table, &names, &text(PLACES)), None);
    }
}
