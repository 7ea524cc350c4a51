//! What occurred in the random sheets, so that no kind of sheet is missing.

use crate::editions::site_lines;
use sheets::Edition;

/// At least one in this many sheets must have each outcome, so that no kind of sheet is missing.
const LEAST_SHARE: u64 = 2_000;
/// The outcomes: 0 for a report, else the number of the refusal.
const OUTCOMES: [usize; 15] = [0, 1, 2, 3, 4, 5, 6, 7, 8, 9, 10, 11, 12, 13, 17];
/// The refusals for the form of a line and for a reserve above the size, and the share that each of
/// them must have.
const OFTEN: [usize; 6] = [2, 10, 11, 17, 12, 13];
const LEAST_OFTEN_SHARE: u64 = 14;
/// One in this many sheets must at least be refused with 17 for the name of a site, for the first name of a
/// link, for its second, and for both; and with 10 and with 11 for a line that has a bare number too.
const LEAST_BARE_SHARES: u64 = 100;
const BEFORE_BARE: [usize; 2] = [10, 11];
/// One in this many sheets must at least be accepted and have a reserve.
const LEAST_RESERVE_SHARE: u64 = 8;
/// One in this many sheets must at least be accepted and have an end with several links; and each cause of
/// a site line must be told of a line that starts with `T` for one in so many others.
const LEAST_MARKED_SHARE: u64 = 8;
const OF_SITE_LINES: [usize; 6] = [2, 10, 11, 17, 4, 5];
const LEAST_MARKED_SHARES: u64 = 2_000;
/// One in this many sheets must at least have odd pieces when planned in whole circuits.
const LEAST_ODD_SHARE: u64 = 20;
/// One in this many sheets must at least have another answer when names are read by bytes, and one in
/// this many of each of the answers that names decide: a report, and refusals 5 and 7.
const LEAST_SPELT_SHARE: u64 = 10;
const SPELT: [usize; 3] = [0, 5, 7];
const LEAST_SPELT_SHARES: u64 = 200;
/// One in this many sheets, by its index, is of edition 2. Of these one in so many must at least be a tree of
/// more sites than edition 1 has; one of more bytes too; and be refused with 1, and with 4.
pub const SECOND_SHARE: u64 = 8;
const LEAST_SECOND_SHARES: [u64; 4] = [20, 200, 100, 200];
/// With fewer sheets the shares are left to chance.
const ENOUGH_FOR_SHARES: u64 = 100_000;

/// Counts of sheets by their outcome.
type ByOutcome = [u64; 18];

/// How many sheets had each outcome: at 0 the accepted ones, else by the number of the refusal.
#[derive(Default)]
pub struct Tally {
    pub outcomes: ByOutcome,
    pub solved: u64,
    /// How many accepted trees have odd pieces in whole circuits.
    pub odd: u64,
    /// How many orders of work are checked against the rule, and trimmed along.
    pub ordered: u64,
    /// How many sheets of each outcome would have another one if names were read by bytes.
    pub spelt: ByOutcome,
    /// How many accepted sheets with reserves are compared with the same without.
    pub reserved: u64,
    /// How many accepted sheets have an end with several links.
    pub marked: u64,
    /// How many sheets are refused for a line that starts with `T`, by the number of the refusal.
    pub marked_lines: ByOutcome,
    /// How many sheets are refused for a line with a bare number in the place of a name, by the number of the
    /// refusal; and of those with 17, how many for each of the names that a line has.
    pub bare_lines: ByOutcome,
    pub bare_names: [u64; 4],
    /// How many sheets of edition 2 are trees of more sites than edition 1 has; are of more bytes too; are
    /// refused with 1, and with 4.
    second: [u64; 4],
    /// How many sheets are compared with the same under the heading of the other edition.
    pub turned: u64,
}

impl Tally {
    pub fn add(&mut self, other: &Tally) {
        let counts = |tally: &Tally| {
            let of_lines = [tally.marked_lines, tally.bare_lines].concat();
            let of_outcomes = [tally.outcomes, tally.spelt].concat();
            [
                of_outcomes,
                of_lines,
                tally.bare_names.to_vec(),
                tally.second.to_vec(),
            ]
            .concat()
        };
        let own = self.outcomes.iter_mut().chain(&mut self.spelt);
        let own = own
            .chain(&mut self.marked_lines)
            .chain(&mut self.bare_lines);
        let own = own.chain(&mut self.bare_names).chain(&mut self.second);
        for (count, more) in own.zip(counts(other)) {
            *count += more;
        }
        self.turned += other.turned;
        self.solved += other.solved;
        self.odd += other.odd;
        self.ordered += other.ordered;
        self.reserved += other.reserved;
        self.marked += other.marked;
    }

    /// Counts a sheet, given the number of its refusal, or 0, if it is of edition 2.
    pub fn see_edition(&mut self, sheet: &[u8], number: u8) {
        if Edition::told(sheet) != Some(Edition::Two) {
            return;
        }
        let is_large = number == 0 && site_lines(sheet) > Edition::One.sites();
        let is_long = is_large && sheet.len() > Edition::One.bytes();
        let seen = [is_large, is_long, number == 1, number == 4];
        for (count, seen) in self.second.iter_mut().zip(seen) {
            *count += u64::from(seen);
        }
    }

    /// Prints what occurred in so many sheets.
    pub fn print(&self, count: u64) {
        println!(
            "  {} accepted, {} solved, {} with odd pieces, {} trimmed in order; refused 1 to 13, 17: {:?}",
            self.outcomes[0],
            self.solved,
            self.odd,
            self.ordered,
            &OUTCOMES.map(|outcome| self.outcomes[outcome])[1..]
        );
        println!(
            "  names in either case decide {} sheets; accepted, refused with 5, with 7: {:?}",
            self.spelt.iter().sum::<u64>(),
            SPELT.map(|outcome| self.spelt[outcome])
        );
        println!(
            "  {} trees with reserves, reports as on their usable sizes",
            self.reserved
        );
        println!(
            "  {} trees with ends inside, orders as without marks; lines of marked sites refused with \
             {OF_SITE_LINES:?}: {:?}",
            self.marked,
            OF_SITE_LINES.map(|number| self.marked_lines[number])
        );
        println!(
            "  bare numbers as names of sites, as first names of links, second, both: {:?}; on lines refused with \
             {BEFORE_BARE:?}: {:?}",
            self.bare_names,
            BEFORE_BARE.map(|number| self.bare_lines[number])
        );
        println!(
            "  edition 2: {} sheets; of more sites than edition 1 has, of more bytes too, refused with 1, with \
             4: {:?}; {} sheets answered alike under both headings",
            count / SECOND_SHARE,
            self.second,
            self.turned
        );
    }

    /// Whether each kind of sheet has its share of so many.
    pub fn has_shares(&self, count: u64) -> bool {
        let has = |sheets: u64, share: u64| sheets >= count / share;
        let has_outcome = |&outcome: &usize| {
            let share = if OFTEN.contains(&outcome) {
                LEAST_OFTEN_SHARE
            } else {
                LEAST_SHARE
            };
            has(self.outcomes[outcome], share)
        };
        let of_site_lines = OF_SITE_LINES.map(|number| self.marked_lines[number]);
        let before_bare = BEFORE_BARE.map(|number| self.bare_lines[number]);
        let mut of_bare = self.bare_names.iter().chain(&before_bare);
        let mut of_second = self.second.iter().zip(LEAST_SECOND_SHARES);
        let is_enough = OUTCOMES.iter().all(has_outcome)
            && has(self.odd, LEAST_ODD_SHARE)
            && of_bare.all(|&sheets| has(sheets, LEAST_BARE_SHARES))
            && has(self.reserved, LEAST_RESERVE_SHARE)
            && has(self.marked, LEAST_MARKED_SHARE)
            && of_site_lines
                .iter()
                .all(|&sheets| has(sheets, LEAST_MARKED_SHARES))
            && of_second.all(|(&sheets, share)| has(sheets, SECOND_SHARE * share))
            && has(self.spelt.iter().sum(), LEAST_SPELT_SHARE)
            && SPELT
                .iter()
                .all(|&outcome| has(self.spelt[outcome], LEAST_SPELT_SHARES));
        count < ENOUGH_FOR_SHARES || is_enough
    }
}
