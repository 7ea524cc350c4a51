//! Reading a network sheet: sites, links, and its refusals.

use crate::edition::Edition;
use crate::form;
use crate::names::{Found, Name, NameTable, Place};
use crate::planted::{Error, planted};
use crate::{CAPACITY, PLACES, Refusal, Site};

/// A link between two sites. (It has no padding, so that clearing many is quick.)
#[derive(Clone, Copy)]
pub struct Link {
    pub sites: [Site; 2],
    /// The usable size: the size less the reserve; of a range the low size.
    pub capacity: u32,
    /// Where its line starts in the sheet.
    start: u16,
    /// The length of its line, byte 10 left off, or 0 if the report prints another: the line has a
    /// reserve, or spells a name otherwise than the site's own line.
    length: u16,
}

/// The links at one site, folded together: how many there are, and the exclusive or of their
/// other sites and of their numbers. With one link left these are its other site and its number.
#[derive(Clone, Copy, Default)]
pub struct Fold {
    pub degree: Site,
    pub neighbours: Site,
    pub links: Site,
}

/// The sites and links of a sheet.
pub struct Network<'sheet> {
    sheet: &'sheet [u8],
    /// What the sheet is measured by.
    edition: Edition,
    names: [Name; PLACES],
    is_marked: [bool; PLACES],
    has_marks: bool,
    site_count: usize,
    links: [Link; PLACES],
    link_count: usize,
    /// The high sizes of the links of a range sheet.
    highs: Vec<u32>,
    folds: [Fold; PLACES],
}

/// A fault of one line.
#[derive(Clone, Copy, PartialEq, Eq)]
pub enum Fault {
    /// The form is wrong; `form` tells how. All faults of form come before the others.
    Form,
    /// The number of another cause.
    Cause(u8),
}

const TOO_LARGE: Fault = Fault::Cause(3);
const TOO_MANY_SITES: Fault = Fault::Cause(4);
const NAME_TAKEN: Fault = Fault::Cause(5);
const UNKNOWN_NAME: Fault = Fault::Cause(6);
const ALREADY_JOINED: Fault = Fault::Cause(7);
const RESERVE_ABOVE_SIZE: Fault = Fault::Cause(13);
const LOW_ABOVE_HIGH: Fault = Fault::Cause(19);

impl Fault {
    /// The number of the fault of the line at the start of `rest`, of a range sheet or another.
    #[cold]
    fn number(self, rest: &[u8], has_ranges: bool) -> u8 {
        match self {
            Fault::Form => form::fault(rest, has_ranges),
            Fault::Cause(number) => number,
        }
    }
}

impl<'sheet> Network<'sheet> {
    /// A network without sites over `sheet`.
    pub fn new(sheet: &'sheet [u8]) -> Self {
        let no_link = Link {
            sites: [0; 2],
            capacity: 0,
            start: 0,
            length: 0,
        };
        Network {
            sheet,
            edition: Edition::of_no_heading(),
            names: [Name::NONE; PLACES],
            is_marked: [false; PLACES],
            has_marks: false,
            site_count: 0,
            links: [no_link; PLACES],
            link_count: 0,
            highs: Vec::new(),
            folds: [Fold::default(); PLACES],
        }
    }

    /// The same over a range sheet, which is measured by edition 2 under any heading.
    pub fn of_ranges(sheet: &'sheet [u8]) -> Self {
        let mut network = Network::new(sheet);
        if !planted(Error::UnheadedRangesByFirst) {
            network.edition = Edition::RANGES;
        }
        network
    }

    /// Reads the whole sheet by the editions that are known, or tells its refusal.
    pub fn read(&mut self, known: &[Edition]) -> Result<(), Refusal> {
        self.read_with(&mut NameTable::new(), known)
    }

    /// The same with an empty table, which then finds the sites of the sheet.
    pub fn read_with(&mut self, table: &mut NameTable, known: &[Edition]) -> Result<(), Refusal> {
        let told = Edition::of(self.sheet, known);
        self.edition = told.unwrap_or(self.edition);
        if self.sheet.is_empty() || self.sheet.len() > self.edition.bytes {
            return Err(Refusal { number: 1, line: 0 });
        }
        if told.is_none() {
            return Err(Refusal { number: 2, line: 1 });
        }
        let mut joined = JoinedSites::new();
        let mut position = self.edition.second_line();
        let mut line = 1;
        while position < self.sheet.len() {
            line += 1;
            let read = match load::<2>(self.sheet, position) {
                [b'T', b'\t'] if planted(Error::MarkRefused) => Err(Fault::Form),
                [letter @ (b'N' | b'T'), b'\t'] => {
                    let is_marked = letter == b'T' && !planted(Error::MarkLost);
                    self.read_site(position, table, is_marked)
                }
                [b'L', b'\t'] => self.read_link(position, table, &mut joined),
                _ => Err(Fault::Form),
            };
            match read {
                Ok(next) => position = next,
                Err(fault) => {
                    let has_ranges = self.edition.has_ranges;
                    let number = fault.number(&self.sheet[position..], has_ranges);
                    return Err(Refusal { number, line });
                }
            }
        }
        if self.site_count < 2 || self.link_count + 1 < self.site_count {
            return Err(Refusal { number: 8, line: 0 });
        }
        Ok(())
    }

    /// Reads the line at `start` of a site, marked or not; returns where the next line starts.
    #[inline]
    fn read_site(
        &mut self,
        start: usize,
        table: &mut NameTable,
        is_marked: bool,
    ) -> Result<usize, Fault> {
        let (name, next) = read_name(self.sheet, start + 2, b'\n', Place::Site)?;
        if self.site_count == self.edition.sites {
            return Err(TOO_MANY_SITES);
        }
        let Found::Empty(slot) = table.find(&self.names, name, Error::SitesByBytes) else {
            return Err(NAME_TAKEN);
        };
        self.names[self.site_count] = if planted(Error::InCapitals) {
            name.in_capitals()
        } else {
            name
        };
        self.is_marked[self.site_count] = is_marked;
        self.has_marks |= is_marked;
        table.put(slot, self.site_count as Site);
        self.site_count += 1;
        Ok(next)
    }

    /// Reads the link line at `start`; returns where the next line starts.
    #[inline]
    fn read_link(
        &mut self,
        start: usize,
        table: &NameTable,
        joined: &mut JoinedSites,
    ) -> Result<usize, Fault> {
        let (first_name, position) = read_name(self.sheet, start + 2, b'\t', Place::Link(0))?;
        let (second_name, position) = read_name(self.sheet, position, b'\t', Place::Link(1))?;
        let has_ranges = self.edition.has_ranges;
        let (size, other, next) = if has_ranges {
            read_range(self.sheet, position)?
        } else {
            read_sizes(self.sheet, position)?
        };
        let found = (
            table.find(&self.names, first_name, Error::LinksByBytes),
            table.find(&self.names, second_name, Error::LinksByBytes),
        );
        let capacity = if has_ranges {
            low_size(size, other)
        } else {
            usable_size(size, other)
        };
        if let Err(fault) = capacity
            && !is_told_late(fault)
        {
            return Err(fault);
        }
        let (Found::Site(first), Found::Site(second)) = found else {
            return Err(UNKNOWN_NAME);
        };
        let mut capacity = capacity?;
        if planted(Error::TurnedReserveLost) && first > second {
            capacity = size;
        }
        if !joined.join(first, second) {
            return Err(ALREADY_JOINED);
        }
        let is_spelt_alike = self.name(first) == first_name && self.name(second) == second_name;
        let is_printed =
            (other.is_none() || has_ranges) && (is_spelt_alike || planted(Error::TypedNames));
        let length = if is_printed { next - 1 - start } else { 0 };
        // Each link joined two parts of the network, so there are fewer links than sites.
        self.links[self.link_count] = Link {
            sites: [first, second],
            capacity,
            start: start as u16,
            length: length as u16,
        };
        if has_ranges {
            self.highs.extend(other);
        }
        let number = self.link_count as Site;
        self.link_count += 1;
        self.fold(first, second, number);
        self.fold(second, first, number);
        Ok(next)
    }

    #[inline]
    fn fold(&mut self, site: Site, neighbour: Site, link: Site) {
        let fold = &mut self.folds[usize::from(site)];
        fold.degree += 1;
        fold.neighbours ^= neighbour;
        fold.links ^= link;
    }

    pub fn site_count(&self) -> usize {
        self.site_count
    }

    /// The names of the sites as their own lines spell them, in the order of these.
    pub fn names(&self) -> &[Name] {
        &self.names[..self.site_count]
    }

    /// The name of one site as its own line spells it.
    #[inline]
    pub fn name(&self, site: Site) -> Name {
        self.names[usize::from(site)]
    }

    /// The site of a name in either case; but by bytes if the error that does so is planted.
    #[inline]
    pub fn site(&self, table: &NameTable, name: Name, by_bytes: Error) -> Option<Site> {
        match table.find(&self.names, name, by_bytes) {
            Found::Site(site) => Some(site),
            Found::Empty(_) => None,
        }
    }

    /// The links, in the order of their lines.
    pub fn links(&self) -> &[Link] {
        &self.links[..self.link_count]
    }

    /// The capacity of one link.
    #[inline]
    pub fn capacity(&self, link: Site) -> u32 {
        self.links[usize::from(link)].capacity
    }

    /// The high sizes of the links of a range sheet, in the order of their lines; their capacities are the low ones.
    pub fn highs(&self) -> &[u32] {
        &self.highs
    }

    /// The line of a link as it stands in the sheet, byte 10 left off, if the report prints the same:
    /// it has no reserve and spells both names as the sites' own lines do.
    #[inline]
    pub fn line(&self, link: &Link) -> Option<&'sheet [u8]> {
        let line = &self.sheet[usize::from(link.start)..][..usize::from(link.length)];
        (!line.is_empty()).then_some(line)
    }

    /// The size of a link, its reserve not taken off, for errors that can be planted.
    #[cold]
    pub fn given_size(&self, link: &Link) -> u32 {
        let line = &self.sheet[usize::from(link.start)..];
        let tabs = (0..line.len()).filter(|&place| line[place] == b'\t');
        let size = tabs.skip(2).map(|tab| read_number(line, tab + 1)).next();
        size.map_or(0, |read| read.map_or(0, |(size, ..)| size))
    }

    /// The links at each site, folded together.
    pub fn folds(&self) -> &[Fold; PLACES] {
        &self.folds
    }

    /// Whether there is a marked site.
    pub fn has_marks(&self) -> bool {
        self.has_marks
    }

    /// Whether each site is an end: has just one link, or is marked.
    pub fn ends(&self) -> [bool; PLACES] {
        let mut is_end = [false; PLACES];
        let sites = self.folds[..self.site_count].iter().zip(&self.is_marked);
        for (is_end, (fold, &is_marked)) in is_end.iter_mut().zip(sites) {
            *is_end = fold.degree == 1 || is_marked;
        }
        is_end
    }

    /// Whether the line of a site marks it.
    pub fn is_marked(&self, site: Site) -> bool {
        self.is_marked[usize::from(site)]
    }
}

/// `COUNT` bytes of the sheet from `position`, zero bytes past its end.
#[inline(always)]
pub fn load<const COUNT: usize>(sheet: &[u8], position: usize) -> [u8; COUNT] {
    if let Some(bytes) = sheet.get(position..).and_then(|rest| rest.first_chunk()) {
        *bytes
    } else {
        load_tail(sheet, position)
    }
}

#[cold]
fn load_tail<const COUNT: usize>(sheet: &[u8], position: usize) -> [u8; COUNT] {
    let mut bytes = [0; COUNT];
    let rest = sheet.get(position..).unwrap_or_default();
    bytes[..rest.len()].copy_from_slice(rest);
    bytes
}

/// Reads a name, no bare number, that `after` follows; returns it and the position past `after`.
#[inline(always)]
pub fn read_name(
    sheet: &[u8],
    position: usize,
    after: u8,
    place: Place,
) -> Result<(Name, usize), Fault> {
    let bytes = load::<16>(sheet, position);
    let (name, length) = Name::at_start(bytes).ok_or(Fault::Form)?;
    if bytes[length] == after && !name.is_bare(place) {
        Ok((name, position + length + 1))
    } else {
        Err(Fault::Form)
    }
}

/// Reads the size and the reserve, if there is one, that end a link line; returns them and the
/// position past the line.
#[inline(always)]
fn read_sizes(sheet: &[u8], position: usize) -> Result<(u32, Option<u32>, usize), Fault> {
    let (size, after, next) = read_number(sheet, position)?;
    match after {
        b'\n' => Ok((size, None, next)),
        b'\t' => match read_number(sheet, next)? {
            (reserve, b'\n', next) => Ok((size, Some(reserve), next)),
            _ => Err(Fault::Form),
        },
        _ => Err(Fault::Form),
    }
}

/// The size less the reserve, which is 0 where none is given. A number that is too large is told
/// before a reserve above the size.
#[inline(always)]
fn usable_size(size: u32, reserve: Option<u32>) -> Result<u32, Fault> {
    let held_back = reserve.unwrap_or(0);
    let is_above = held_back > size
        || (planted(Error::WholeReserveRefused) && reserve.is_some() && held_back == size);
    if is_above && planted(Error::ReserveBeforeLarge) {
        return Err(RESERVE_ABOVE_SIZE);
    }
    if size > CAPACITY || held_back > CAPACITY {
        return Err(TOO_LARGE);
    }
    if is_above {
        return Err(RESERVE_ABOVE_SIZE);
    }
    if planted(Error::ReserveAdded) {
        return Ok(size + held_back);
    }
    if planted(Error::ReservePassedOver) {
        return Ok(size);
    }
    Ok(size - held_back)
}

/// Reads the low and the high size that end a link line of a range sheet; returns them and the position past the
/// line.
#[inline]
fn read_range(sheet: &[u8], position: usize) -> Result<(u32, Option<u32>, usize), Fault> {
    let (low, after, next) = read_number(sheet, position)?;
    if planted(Error::OneSizeAccepted) && after == b'\n' {
        return Ok((low, Some(low), next));
    }
    if after != b'\t' {
        return Err(Fault::Form);
    }
    let (high, after, next) = read_number(sheet, next)?;
    if planted(Error::RangeReserve) && after == b'\t' {
        let (reserve, after, next) = read_number(sheet, next)?;
        let [low, high] = [low, high].map(|size| size.saturating_sub(reserve));
        return (after == b'\n')
            .then_some((low, Some(high), next))
            .ok_or(Fault::Form);
    }
    if after != b'\n' {
        return Err(Fault::Form);
    }
    Ok((low, Some(high), next))
}

/// The low size of a range. A number that is too large is told before a low size above the high one.
#[inline]
fn low_size(low: u32, high: Option<u32>) -> Result<u32, Fault> {
    let high = high.unwrap_or(low);
    let is_above = low > high || (planted(Error::EqualRangeRefused) && low == high);
    if is_above && planted(Error::RangeBeforeLarge) {
        return Err(LOW_ABOVE_HIGH);
    }
    if low > CAPACITY || high > CAPACITY {
        return Err(TOO_LARGE);
    }
    if is_above {
        return Err(LOW_ABOVE_HIGH);
    }
    Ok(low)
}

/// Whether a fault of the sizes is told after an unknown name, which is an error that can be planted.
#[inline(always)]
fn is_told_late(fault: Fault) -> bool {
    (planted(Error::UnknownFirst) && fault == TOO_LARGE)
        || (planted(Error::UnknownBeforeReserve) && fault == RESERVE_ABOVE_SIZE)
        || (planted(Error::UnknownBeforeRange) && fault == LOW_ABOVE_HIGH)
}

/// Reads a number; returns it, the byte behind it and the position past that byte. Every number
/// above the largest capacity may be returned as another such number.
#[inline(always)]
pub fn read_number(sheet: &[u8], position: usize) -> Result<(u32, u8, usize), Fault> {
    const EVERY_BYTE: u64 = u64::MAX / 0xff;
    let bytes = load::<8>(sheet, position);
    let word = u64::from_le_bytes(bytes);
    // A byte is a digit when its high half is 3, before and after adding 6.
    let other = ((word & (EVERY_BYTE * 0xf0)) ^ (EVERY_BYTE * 0x30))
        | (((word & (EVERY_BYTE * 0x7f)).wrapping_add(EVERY_BYTE * 6) & (EVERY_BYTE * 0xf0))
            ^ (EVERY_BYTE * 0x30));
    let digits = (other.trailing_zeros() / 8) as usize;
    if planted(Error::EmptySize) && bytes[0] == b'\n' {
        return Ok((0, b'\n', position + 1));
    }
    if digits == 0 || (bytes[0] == b'0' && digits > 1) {
        return Err(Fault::Form);
    }
    if digits == 8 {
        return read_long_number(sheet, position + 8);
    }
    // The digits moved to the end of eight, then added up in pairs, fours and eights.
    let digit = (word << (64 - 8 * digits)) & (EVERY_BYTE * 0x0f);
    let pairs = (digit * 10 + (digit >> 8)) & 0x00ff_00ff_00ff_00ff;
    let fours = (pairs * 100 + (pairs >> 16)) & 0x0000_ffff_0000_ffff;
    let number = (fours * 10_000 + (fours >> 32)) as u32;
    Ok((number, bytes[digits], position + digits + 1))
}

/// Goes past the rest of a number of eight digits or more, which is always too large.
#[cold]
fn read_long_number(sheet: &[u8], position: usize) -> Result<(u32, u8, usize), Fault> {
    let rest = &sheet[position..];
    match rest.iter().position(|byte| !byte.is_ascii_digit()) {
        Some(length) => Ok((u32::MAX, rest[length], position + length + 1)),
        None => Err(Fault::Form),
    }
}

/// Which sites are joined by links, as a forest with halved paths.
struct JoinedSites {
    towards: [Site; PLACES],
}

impl JoinedSites {
    fn new() -> Self {
        JoinedSites {
            towards: std::array::from_fn(|site| site as Site),
        }
    }

    #[inline]
    fn representative(&mut self, mut site: Site) -> Site {
        loop {
            let next = self.towards[usize::from(site)];
            if next == site {
                return site;
            }
            let after = self.towards[usize::from(next)];
            self.towards[usize::from(site)] = after;
            site = after;
        }
    }

    /// Joins two sites; false if they were joined already.
    #[inline]
    fn join(&mut self, first: Site, second: Site) -> bool {
        let first = self.representative(first);
        let second = self.representative(second);
        self.towards[usize::from(first)] = second;
        first != second
    }
}

#[cfg(test)]
mod tests {
    use super::*;

    /// The size and the reserve that end a line.
    fn sizes(text: &[u8]) -> Option<(u32, Option<u32>)> {
        read_sizes(text, 0).ok().map(|(size, reserve, next)| {
            assert_eq!(next, text.len());
            (size, reserve)
        })
    }

    /// The size that ends a line, which must be read alike as a reserve.
    fn capacity(text: &[u8]) -> Option<u32> {
        let as_reserve = sizes(&[b"12\t", text].concat());
        let as_size = sizes(text);
        assert_eq!(as_reserve, as_size.map(|(size, _)| (12, Some(size))));
        as_size.map(|(size, reserve)| {
            assert_eq!(reserve, None);
            size
        })
    }

    #[test]
    fn numbers_are_decimal_without_leading_zero() {
        assert_eq!(capacity(b"0\n"), Some(0));
        assert_eq!(capacity(b"7\n"), Some(7));
        assert_eq!(capacity(b"1000000\n"), Some(1_000_000));
        assert_eq!(capacity(b"9999999\n"), Some(9_999_999));
        for wrong in [
            &b""[..],
            b"\n",
            b"00\n",
            b"07\n",
            b"0",
            b"12",
            b"1 \n",
            b"1\r\n",
            b"-1\n",
            b"+1\n",
            b"1a\n",
            b"12345678",
            b"12345678x\n",
            b"012345678\n",
            b"00000000000000000001\n",
        ] {
            assert_eq!(capacity(wrong), None, "{wrong:?}");
        }
        for large in [&b"10000000\n"[..], b"4294967296\n", &[b'9'; 4000]] {
            let mut text = large.to_vec();
            if !text.ends_with(b"\n") {
                text.push(b'\n');
            }
            assert!(capacity(&text).is_some_and(|number| number > CAPACITY));
        }
    }

    #[test]
    fn a_reserve_may_follow_the_size() {
        assert_eq!(sizes(b"7\t0\n"), Some((7, Some(0))));
        assert_eq!(
            sizes(b"1000000\t1000000\n"),
            Some((1_000_000, Some(1_000_000)))
        );
        assert_eq!(sizes(b"0\t9999999\n"), Some((0, Some(9_999_999))));
        let large = sizes(b"123456789\t12345678\n");
        assert!(large.is_some_and(|(size, reserve)| size.min(reserve.unwrap_or(0)) > CAPACITY));
        for wrong in [
            &b"7\t\n"[..],
            b"\t7\n",
            b"7\t7\t\n",
            b"7\t7\t7\n",
            b"7\t\t7\n",
            b"7\t07\n",
            b"07\t7\n",
            b"7\t7",
            b"7\t",
            b"7 7\n",
            b"12345678\t",
            b"12345678\t\n",
            b"12345678\t12345678\t\n",
            b"1\t12345678",
        ] {
            assert_eq!(sizes(wrong), None, "{wrong:?}");
        }
    }

    #[test]
    fn the_reserve_comes_off() {
        let usable = |size, reserve| match usable_size(size, reserve) {
            Ok(usable) => Ok(usable),
            Err(fault) => Err(fault.number(b"", false)),
        };
        for size in [0, 1, 2, 999_999, CAPACITY] {
            assert_eq!(usable(size, None), Ok(size));
            assert_eq!(usable(size, Some(0)), Ok(size));
            assert_eq!(usable(size, Some(size)), Ok(0));
            assert_eq!(usable(size, Some(size / 2)), Ok(size.div_ceil(2)));
            let above = if size < CAPACITY { 13 } else { 3 };
            assert_eq!(usable(size, Some(size + 1)), Err(above));
            assert_eq!(usable(size, Some(CAPACITY + 1)), Err(3));
        }
        for reserve in [None, Some(0), Some(CAPACITY + 1), Some(u32::MAX)] {
            assert_eq!(usable(CAPACITY + 1, reserve), Err(3));
            assert_eq!(usable(u32::MAX, reserve), Err(3));
        }
    }

    #[test]
    fn only_digits_count_as_digits() {
        for byte in (0..=u8::MAX).filter(|byte| !b"\t\n".contains(byte)) {
            let digit = byte.is_ascii_digit().then(|| u32::from(byte - b'0'));
            assert_eq!(
                capacity(&[b'1', byte, b'\n']),
                digit.map(|digit| 10 + digit)
            );
        }
    }
}
