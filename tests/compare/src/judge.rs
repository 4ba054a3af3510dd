//! Puts calls to the library and compares everything it may touch: the
//! returned number, every word of the answer buffer, the words around it, and
//! the sheets, which must stay as they were. Certificates that it writes or lets pass
//! are watched as requests E12 and E6 want.

use std::sync::atomic::{AtomicBool, AtomicU64, Ordering};
use std::time::{Duration, Instant};

use reference::call::{point_number, Call, Reply, INFINITY};
use reference::chains::{Chain, Way};
use reference::random::Random;
use reference::services::{self, Point};
use reference::sheet::{self, Certificate};

use crate::coverage::Coverage;
use crate::entries;
use crate::guarded::{Guarded, Side};
use crate::report;
use crate::watch::Watch;

/// Words around the answer that are watched on the side without a guard page.
const MARGIN: usize = 64;
const CAPACITY: usize = 1 << 17;
const LARGEST_ROOM: usize = 8192;
/// Rooms of the calls that join a chain. They take turns of their own: seven is prime to
/// those of the buffers.
const ROOMS: [usize; 7] = [393, 393, 393, 394, 400, 500, 1000];

static DIFFERENCES: AtomicU64 = AtomicU64::new(0);
static ENOUGH: AtomicU64 = AtomicU64::new(u64::MAX);
static WATCH_ONLY: AtomicBool = AtomicBool::new(false);

/// From now on the run ends at so many differences.
pub fn end_at(differences: u64) {
    ENOUGH.store(differences, Ordering::SeqCst);
}

/// From now on every answer is taken for right, so that nothing but the watch on
/// certificates can find a difference.
pub fn watch_only() {
    WATCH_ONLY.store(true, Ordering::SeqCst);
}

/// Differences so far, of all threads.
pub fn differences() -> u64 {
    DIFFERENCES.load(Ordering::SeqCst)
}

pub struct Judge {
    group: &'static str,
    cases: u64,
    notes: Vec<String>,
    coverage: Coverage,
    watch: Watch,
    /// Time spent inside the library, with the comparing where the clock is read once for many calls.
    inside: Duration,
    sheet: Guarded,
    /// The second sheet of compose.
    second: Guarded,
    answer: Answer,
    /// The number that the last call returned.
    number: u64,
    /// What the last call of compose wrote, as many words as it counted.
    written: Option<Vec<u32>>,
    /// How often compose was called, for the turns of its buffers.
    composed: usize,
}

/// The answer buffer.
struct Answer {
    memory: Guarded,
    /// What it holds before a call; two of them, so that no word written can pass for an
    /// untouched one in both.
    patterns: [Vec<u32>; 2],
}

/// What became of the answer buffer.
struct Lent<'a> {
    number: u64,
    words: Vec<(isize, u32, u32)>,
    /// As many words as the number says, if there are so many.
    written: Option<&'a [u32]>,
}

/// What the library did.
struct Seen {
    number: u64,
    /// Indices of answer words that are not as expected, with both values;
    /// negative before the answer.
    words: Vec<(isize, u32, u32)>,
    sheet_changed: bool,
    /// What is wrong with the certificate that was written or passed, a line each.
    certificate: Vec<String>,
}

impl Seen {
    /// Of an entry that is lent nothing.
    fn number(number: u64) -> Seen {
        Seen {
            number,
            words: Vec::new(),
            sheet_changed: false,
            certificate: Vec::new(),
        }
    }

    /// Whether this is another answer than the expected one, if there is one.
    fn differs(&self, expected: Option<&Reply>) -> bool {
        let other = expected.is_some_and(|reply| self.number != reply.number);
        other || !self.words.is_empty() || self.sheet_changed
    }
}

impl Judge {
    pub fn new(group: &'static str) -> Judge {
        let mut random = Random::new(0x7061_7474_6572_6e73);
        let mut pattern = || {
            (0..LARGEST_ROOM + MARGIN)
                .map(|_| random.word())
                .collect::<Vec<u32>>()
        };
        Judge {
            group,
            cases: 0,
            notes: Vec::new(),
            coverage: Coverage::default(),
            watch: Watch::default(),
            inside: Duration::ZERO,
            sheet: Guarded::new(CAPACITY),
            second: Guarded::new(CAPACITY),
            answer: Answer {
                memory: Guarded::new(CAPACITY),
                patterns: [pattern(), pattern()],
            },
            number: 0,
            written: None,
            composed: 0,
        }
    }

    pub fn cases(&self) -> u64 {
        self.cases
    }

    pub fn coverage(&self) -> &Coverage {
        &self.coverage
    }

    pub fn into_watch(self) -> Watch {
        self.watch
    }

    pub fn inside(&self) -> Duration {
        self.inside
    }

    pub fn notes(&self) -> String {
        self.notes.join(", ")
    }

    /// Adds to the summary line of the group.
    pub fn note(&mut self, text: String) {
        self.notes.push(text);
    }

    /// The reference's reply is expected.
    pub fn agrees(&mut self, call: &Call) {
        self.expect(call, &call.reply());
    }

    /// A refusal with this number is expected.
    pub fn refuses(&mut self, call: &Call, number: u32) {
        self.expect(call, &call.refusal(number));
    }

    pub fn expect(&mut self, call: &Call, expected: &Reply) {
        self.compare(call, Some(expected), |judge| judge.put(call, expected));
    }

    /// A point that goes through the first map, and what came out through the second, goes
    /// to the same through the composed map: by the numbers that the entry returned.
    pub fn in_turn(&mut self, maps: [&Certificate; 2], both: &Certificate, point: Point) {
        let mut number = point_number(point);
        let mut at = point;
        for map in maps {
            let image = services::image(map, at).expect("a point of its domain");
            let expected = Reply::number(point_number(image));
            self.expect(&Call::push(&map.words(), number), &expected);
            (number, at) = (self.number, image);
        }
        if number <= INFINITY {
            let call = Call::push(&both.words(), point_number(point));
            self.expect(&call, &Reply::number(number));
        }
    }

    /// Joins the chain in these ways. Each call must answer as the chain wants; what comes
    /// out must be the same words in each way, which pass check, or nothing in any way.
    pub fn joins(&mut self, chain: &mut Chain, ways: &[Way]) {
        let numbers: Vec<u32> = ways
            .iter()
            .map(|way| chain.refusal(way).unwrap_or(0))
            .collect();
        self.coverage.record_ways(&numbers);
        let sheets = chain.sheets().to_vec();
        self.ways_agree(&sheets, ways, |judge, call, way| {
            judge.expect(call, &chain.reply(way));
        });
    }

    /// The same for any sheets, of which nothing is known but that.
    pub fn joins_alike(&mut self, sheets: &[Vec<u32>], ways: &[Way]) {
        self.ways_agree(sheets, ways, |judge, call, _| {
            judge.compare(call, None, |judge| judge.put_freely(call));
        });
    }

    fn ways_agree(
        &mut self,
        sheets: &[Vec<u32>],
        ways: &[Way],
        mut put: impl FnMut(&mut Judge, &Call, &Way),
    ) {
        let ends = ways.iter().map(|way| self.along(way, sheets, &mut put));
        let ends: Vec<Result<Vec<u32>, u64>> = ends.collect();
        if let Ok(words) = &ends[0] {
            self.expect(&Call::check(words), &Reply::number(0));
        }
        let alike = ends.iter().all(|end| end.is_ok() == ends[0].is_ok())
            && ends
                .iter()
                .flatten()
                .all(|words| Ok(words) == ends[0].as_ref());
        if !alike && !WATCH_ONLY.load(Ordering::Relaxed) {
            let text = report::ways(sheets, ways.iter().zip(&ends));
            self.difference(&text);
        }
    }

    /// The calls of a way, each with the words that those before it wrote, as many as they
    /// counted: the last one's words, or the number of the one that wrote nothing.
    fn along(
        &mut self,
        way: &Way,
        sheets: &[Vec<u32>],
        put: &mut impl FnMut(&mut Judge, &Call, &Way),
    ) -> Result<Vec<u32>, u64> {
        let (first, second) = match way {
            Way::Sheet(place) => return Ok(sheets[*place].clone()),
            Way::Join(first, second) => (first, second),
        };
        let first = self.along(first, sheets, put)?;
        let second = self.along(second, sheets, put)?;
        let room = ROOMS[self.composed % ROOMS.len()];
        let call = Call::Compose {
            first,
            second,
            room,
        };
        put(self, &call, way);
        self.written.take().ok_or(self.number)
    }

    /// Name is expected to refuse each p, A and B with the number beside them.
    /// The clock is read once for all: twice a call would take longer than most
    /// of these calls.
    pub fn names_refused(&mut self, cases: impl Iterator<Item = ([u32; 3], u32)>) {
        let start = Instant::now();
        for ([p, a, b], number) in cases {
            let call = Call::Name { p, a, b };
            let name = |_: &mut Judge| Seen::number(entries::name(p, a, b));
            self.compare(&call, Some(&call.refusal(number)), name);
        }
        self.inside += start.elapsed();
    }

    fn compare(
        &mut self,
        call: &Call,
        expected: Option<&Reply>,
        put: impl FnOnce(&mut Judge) -> Seen,
    ) {
        self.cases += 1;
        if let Some(expected) = expected {
            self.coverage.record(call, expected);
        }
        report::running(call, self.group);
        let seen = put(self);
        report::finished();
        self.number = seen.number;
        let compared = !WATCH_ONLY.load(Ordering::Relaxed) && seen.differs(expected);
        if compared || !seen.certificate.is_empty() {
            self.report(call, expected, compared, &seen);
        }
    }

    /// Compose, whatever it answers.
    fn put_freely(&mut self, call: &Call) -> Seen {
        match call {
            Call::Compose {
                first,
                second,
                room,
            } => self.with_both(first, second, *room, None),
            _ => unreachable!("nothing else is put without an expectation"),
        }
    }

    fn put(&mut self, call: &Call, expected: &Reply) -> Seen {
        match call {
            Call::Check { bytes } => {
                let check = |bytes: &[u8]| u64::from(entries::check(bytes));
                self.with_bytes(bytes, ("check", 0), check)
            }
            Call::Push { bytes, point } => {
                let push = |bytes: &[u8]| entries::push(bytes, *point);
                self.with_bytes(bytes, ("push", INFINITY), push)
            }
            Call::Solve { sheet, room } => {
                self.with_answer("solve", sheet, *room, &expected.words, entries::solve)
            }
            Call::Kernel { sheet, room } => {
                self.with_answer("kernel", sheet, *room, &expected.words, entries::kernel)
            }
            Call::Name { p, a, b } => {
                Seen::number(timed(&mut self.inside, || entries::name(*p, *a, *b)))
            }
            Call::Compose {
                first,
                second,
                room,
            } => self.with_both(first, second, *room, Some(&expected.words)),
        }
    }

    /// The sheet has passed if the number is at most the one beside the entry's name.
    fn with_bytes(
        &mut self,
        bytes: &[u8],
        (name, passed): (&str, u64),
        entry: impl Fn(&[u8]) -> u64,
    ) -> Seen {
        let side = match self.cases % 5 {
            0 | 1 => Side::End,
            2 | 3 => Side::Start,
            _ => Side::Offset(1 + self.cases as usize % 3),
        };
        let lent = self.sheet.bytes(side, bytes.len());
        lent.copy_from_slice(bytes);
        let number = timed(&mut self.inside, || entry(lent));
        let certificate = if number <= passed {
            self.watch.look(name, sheet::words_of(bytes).as_deref())
        } else {
            Vec::new()
        };
        Seen {
            number,
            words: Vec::new(),
            sheet_changed: lent != bytes,
            certificate,
        }
    }

    fn with_answer(
        &mut self,
        name: &str,
        sheet: &[u32],
        room: usize,
        written: &[u32],
        entry: impl Fn(&[u32], &mut [u32]) -> u64,
    ) -> Seen {
        let (sheet_side, answer_side) = match self.cases % 4 {
            0 => (Side::End, Side::End),
            1 => (Side::Start, Side::Start),
            2 => (Side::End, Side::Start),
            _ => (Side::Start, Side::End),
        };
        let lent = self.sheet.words(sheet_side, sheet.len());
        lent.copy_from_slice(sheet);
        let turn = self.cases as usize % 2;
        let seen = self
            .answer
            .lend(answer_side, turn, room, Some(written), |answer| {
                timed(&mut self.inside, || entry(lent, answer))
            });
        let look = |words| self.watch.look(name, Ok(words));
        Seen {
            number: seen.number,
            words: seen.words,
            sheet_changed: lent != sheet,
            certificate: seen.written.map_or(Vec::new(), look),
        }
    }

    /// Compose, with its sheets and its answer on either side of their memory in turn. In a
    /// fifth of the cases the sheets cannot be written to, which takes time; two that are
    /// equal are one in half of the cases.
    fn with_both(
        &mut self,
        first: &[u32],
        second: &[u32],
        room: usize,
        written: Option<&[u32]>,
    ) -> Seen {
        self.composed += 1;
        let turn = self.composed;
        let side = |bit: usize| match turn >> bit & 1 {
            0 => Side::End,
            _ => Side::Start,
        };
        let once = first == second && turn >> 4 & 1 == 0;
        let frozen = turn % 5 == 3;
        let inside = &mut self.inside;
        let mut entry = |first: &[u32], second: &[u32], answer: &mut [u32]| {
            timed(inside, || entries::compose(first, second, answer))
        };
        let (sheet, other) = (&mut self.sheet, &mut self.second);
        let mut changed = false;
        let seen = self
            .answer
            .lend(side(2), turn >> 3 & 1, room, written, |answer| {
                let ((number, second), first) = sheet.lend((side(0), frozen), first, |lent| {
                    if once {
                        (entry(lent, lent, answer), false)
                    } else {
                        other.lend((side(1), frozen), second, |other| {
                            entry(lent, other, answer)
                        })
                    }
                });
                changed = first || second;
                number
            });
        self.written = seen.written.map(<[u32]>::to_vec);
        let look = |words| self.watch.look("compose", Ok(words));
        Seen {
            number: seen.number,
            words: seen.words,
            sheet_changed: changed,
            certificate: seen.written.map_or(Vec::new(), look),
        }
    }

    /// What was expected is reported unless that was not compared or is as it should be.
    fn report(&self, call: &Call, expected: Option<&Reply>, compared: bool, seen: &Seen) {
        let mut text = String::new();
        report::describe(&mut text, call).expect("a string takes any text");
        let got = report::meaning(seen.number);
        text += &match expected.filter(|_| compared) {
            Some(reply) => format!(
                "  number: expected {}, got {got}\n",
                report::meaning(reply.number)
            ),
            None => format!("  number: {got}\n"),
        };
        for (i, wanted, got) in seen.words.iter().take(if compared { 20 } else { 0 }) {
            text += &format!("  answer word {i}: expected {wanted:08x}, got {got:08x}\n");
        }
        if compared && seen.sheet_changed {
            text += "  a sheet was changed\n";
        }
        for line in &seen.certificate {
            text += &format!("  certificate: {line}\n");
        }
        self.difference(&text);
    }

    /// Prints this, and ends the run if it is enough.
    fn difference(&self, text: &str) {
        let (group, case) = (self.group, self.cases);
        eprint!("DIFFERENCE in group {group}, case {case}\n{text}");
        let differences = DIFFERENCES.fetch_add(1, Ordering::SeqCst) + 1;
        if differences >= ENOUGH.load(Ordering::SeqCst) {
            eprintln!("{differences} differences: stopped");
            std::process::exit(1);
        }
    }
}

impl Answer {
    /// Lends the buffer, in which one of the patterns stands, and compares every word with
    /// what it held or with what was to be written; if nobody knows that, what was counted
    /// may be anything.
    fn lend(
        &mut self,
        side: Side,
        turn: usize,
        room: usize,
        written: Option<&[u32]>,
        entry: impl FnOnce(&mut [u32]) -> u64,
    ) -> Lent<'_> {
        // The margin lies on the side that has no guard page.
        let first = if side == Side::End { MARGIN } else { 0 };
        let watched = self.memory.words(side, room + MARGIN);
        let pattern = &self.patterns[turn][..room + MARGIN];
        watched.copy_from_slice(pattern);
        let number = entry(&mut watched[first..first + room]);
        let counted = |answer: &[u32]| answer.get(..number as usize).map(<[u32]>::to_vec);
        let any = match written {
            Some(_) => Vec::new(),
            None => counted(&watched[first..first + room]).unwrap_or_default(),
        };
        let written = written.unwrap_or(&any);
        let written_end = first + written.len();
        let as_expected = watched[..first] == pattern[..first]
            && watched[first..written_end] == *written
            && watched[written_end..] == pattern[written_end..];
        let mut words = Vec::new();
        if !as_expected {
            for (i, (&got, &before)) in watched.iter().zip(pattern).enumerate() {
                let answer = i.checked_sub(first).and_then(|i| written.get(i));
                let wanted = *answer.unwrap_or(&before);
                if got != wanted {
                    words.push((i as isize - first as isize, wanted, got));
                }
            }
        }
        Lent {
            number,
            words,
            written: watched[first..first + room].get(..number as usize),
        }
    }
}

/// Calls the library and adds the time it takes.
fn timed(sum: &mut Duration, call: impl FnOnce() -> u64) -> u64 {
    let start = Instant::now();
    let number = call();
    *sum += start.elapsed();
    number
}
