//! Both planners on one sheet.

use second::{Outcome, REPORT_BYTES, SITES};

/// The length of the lists that orders are written to, above that of any order.
pub const LIST_PLACES: usize = SITES + 64;

/// What is lent to one planner, a report buffer or a list, which holds a pattern throughout before
/// every run.
struct Lent<Place> {
    pattern: Vec<Place>,
    places: Vec<Place>,
    /// The length of the last report or order.
    answer: usize,
}

impl<Place: Copy + PartialEq> Lent<Place> {
    fn new(pattern: Vec<Place>) -> Self {
        Lent {
            places: pattern.clone(),
            pattern,
            answer: 0,
        }
    }

    /// Runs a planner with the first `length` places, and finds out whether it changes any place
    /// past its answer, behind those too.
    fn run(
        &mut self,
        planner: impl FnOnce(&[u8], &mut [Place]) -> Outcome,
        sheet: &[u8],
        length: usize,
    ) -> Result<Outcome, String> {
        self.places[..self.answer].copy_from_slice(&self.pattern[..self.answer]);
        let outcome = planner(sheet, &mut self.places[..length]);
        self.answer = match outcome {
            Outcome::Report { length } => length,
            Outcome::Refused { .. } => 0,
        };
        if self.places[self.answer..] != self.pattern[self.answer..] {
            return Err(format!(
                "lent length {length}: what is past the answer is changed, with {outcome:?}"
            ));
        }
        Ok(outcome)
    }

    fn answer(&self) -> &[Place] {
        &self.places[..self.answer]
    }
}

/// What is lent to the two planners.
struct Both<Place> {
    proved: Lent<Place>,
    second: Lent<Place>,
}

impl<Place: Copy + PartialEq> Both<Place> {
    fn new(pattern: Vec<Place>) -> Self {
        Both {
            proved: Lent::new(pattern.clone()),
            second: Lent::new(pattern),
        }
    }

    /// Lets both planners answer with the first `length` places, and compares what they answer,
    /// place by place.
    fn alike(
        &mut self,
        what: &str,
        proved: Proved<Place>,
        second: fn(&[u8], &mut [Place]) -> Outcome,
        sheet: &[u8],
        length: usize,
    ) -> Result<Answer<&[Place]>, String> {
        let call = |sheet: &[u8], lent: &mut [Place]| outcome(proved, sheet, lent);
        let proved = self.proved.run(call, sheet, length)?;
        let second = self.second.run(second, sheet, length)?;
        if proved != second {
            return Err(unlike(what, length, proved, second));
        }
        let [one, other] = [self.proved.answer(), self.second.answer()];
        if one != other {
            return Err(format!(
                "{what}, lent length {length}: the answers differ from place {}",
                first_difference(one, other)
            ));
        }
        Ok(match second {
            Outcome::Report { .. } => Answer::Report(other),
            Outcome::Refused { number, line } => Answer::Refused(number, line),
        })
    }
}

/// The buffers and lists of the two planners.
pub struct Planners {
    reports: Both<u8>,
    orders: Both<usize>,
}

/// What both planners answer.
#[derive(Clone, Copy, Debug)]
pub enum Answer<Report> {
    /// The whole report, or that of each planner.
    Report(Report),
    /// The number and the line of the refusal.
    Refused(u8, u32),
}

/// The reports of the two planners, where they may differ.
#[derive(Clone, Copy, Debug)]
pub struct Reports<'buffer> {
    pub proved: &'buffer [u8],
    pub second: &'buffer [u8],
}

type Proved<Place> =
    for<'lent> fn(&[u8], &'lent mut [Place]) -> Result<&'lent [Place], waderarmoire::Refusal>;

/// The outcome of a function of the proved library.
fn outcome<Place>(function: Proved<Place>, sheet: &[u8], lent: &mut [Place]) -> Outcome {
    match function(sheet, lent) {
        Ok(answer) => Outcome::Report {
            length: answer.len(),
        },
        Err(waderarmoire::Refusal { number, line }) => Outcome::Refused { number, line },
    }
}

impl Planners {
    /// Planners with buffers for every report.
    pub fn new() -> Self {
        Self::with_room(REPORT_BYTES)
    }

    /// Planners for small trees, with buffers of so many bytes.
    pub fn with_room(room: usize) -> Self {
        // No byte of the pattern occurs in a report, and no place of the other in an order.
        let bytes = (0..room).map(|place| 0x80 | (place % 127) as u8);
        let places = (0..LIST_PLACES).map(|place| usize::MAX - place);
        Planners {
            reports: Both::new(bytes.collect()),
            orders: Both::new(places.collect()),
        }
    }

    /// The bytes that there are for a report.
    pub fn room(&self) -> usize {
        self.reports.second.places.len()
    }

    /// Lets both planners plan in halves with a report buffer of `length` bytes, and compares what
    /// they answer, byte by byte.
    pub fn plan(&mut self, sheet: &[u8], length: usize) -> Result<Answer<&[u8]>, String> {
        let lent = &mut self.reports;
        lent.alike("plan", waderarmoire::plan, second::plan, sheet, length)
    }

    /// Lets both planners write the report headed `span` on a range sheet with a buffer of `length` bytes, and
    /// compares what they answer, byte by byte.
    pub fn ranges(&mut self, sheet: &[u8], length: usize) -> Result<Answer<&[u8]>, String> {
        let lent = &mut self.reports;
        lent.alike(
            "ranges",
            waderarmoire::ranges,
            second::ranges,
            sheet,
            length,
        )
    }

    /// Lets both planners list the order of work with a list of `length` places, and compares what
    /// they answer, place by place.
    pub fn order(&mut self, sheet: &[u8], length: usize) -> Result<Answer<&[usize]>, String> {
        let lent = &mut self.orders;
        lent.alike("order", waderarmoire::order, second::order, sheet, length)
    }

    /// Lets both planners plan in whole circuits, the proved one with a report buffer of `length`
    /// bytes, and compares their refusals. That for a short buffer comes from the proved planner
    /// alone, as the other has a buffer for every report.
    pub fn whole(&mut self, sheet: &[u8], length: usize) -> Result<Answer<Reports<'_>>, String> {
        let whole = |sheet: &[u8], buffer: &mut [u8]| outcome(waderarmoire::whole, sheet, buffer);
        let room = self.room();
        let reports = &mut self.reports;
        let proved = reports.proved.run(whole, sheet, length)?;
        let second = reports.second.run(second::whole, sheet, room)?;
        match (proved, second) {
            (Outcome::Report { .. }, Outcome::Report { .. }) => Ok(Answer::Report(Reports {
                proved: reports.proved.answer(),
                second: reports.second.answer(),
            })),
            (Outcome::Refused { number: 9, line: 0 }, Outcome::Report { .. }) => {
                Ok(Answer::Refused(9, 0))
            }
            (Outcome::Refused { number, line }, _) if proved == second => {
                Ok(Answer::Refused(number, line))
            }
            _ => Err(unlike("whole", length, proved, second)),
        }
    }
}

fn unlike(what: &str, length: usize, proved: Outcome, second: Outcome) -> String {
    format!(
        "{what}, lent length {length}: the proved planner answers {proved:?}, \
         the second {second:?}"
    )
}

fn first_difference<Place: PartialEq>(one: &[Place], other: &[Place]) -> usize {
    let pairs = one.iter().zip(other);
    pairs.take_while(|(one, other)| one == other).count()
}
