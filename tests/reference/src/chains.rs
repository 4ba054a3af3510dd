//! Request E7: chains of sheets, joined by calls of compose in any way. What a chain makes
//! is worked out without joining any two of its maps, so that no side is preferred; which
//! number a way gets follows from the order of questions alone.

use std::collections::HashMap;
use std::fmt;
use std::ops::Range;

use crate::call::Reply;
use crate::composition::{is_permitted, meets};
use crate::generate::Cyclic;
use crate::poly::Poly;
use crate::rules;
use crate::services::{self, read_valid};
use crate::sheet::{half, Certificate, Question, Refusal};

/// How a chain is joined: a sheet, by its place, or what two ways make, joined by a call.
#[derive(Clone, Debug, PartialEq, Eq, Hash)]
pub enum Way {
    Sheet(usize),
    Join(Box<Way>, Box<Way>),
}

impl Way {
    /// Every way to join so many sheets.
    pub fn all(count: usize) -> Vec<Way> {
        Way::over(0..count)
    }

    fn over(places: Range<usize>) -> Vec<Way> {
        if places.len() == 1 {
            return vec![Way::Sheet(places.start)];
        }
        let mut ways = Vec::new();
        for middle in places.start + 1..places.end {
            for first in Way::over(places.start..middle) {
                for second in Way::over(middle..places.end) {
                    ways.push(first.clone().then(second));
                }
            }
        }
        ways
    }

    fn then(self, second: Way) -> Way {
        Way::Join(Box::new(self), Box::new(second))
    }

    /// As typesetters join so many sheets.
    pub fn from_left(count: usize) -> Way {
        let sheets = (0..count).map(Way::Sheet);
        sheets.reduce(Way::then).expect("a sheet or more")
    }

    /// As the web shop does.
    pub fn from_right(count: usize) -> Way {
        let sheets = (0..count).rev().map(Way::Sheet);
        let joined = sheets.reduce(|after, sheet| sheet.then(after));
        joined.expect("a sheet or more")
    }

    /// The two ways of the request.
    pub fn either(count: usize) -> [Way; 2] {
        [Way::from_left(count), Way::from_right(count)]
    }

    /// The places of its sheets.
    pub fn places(&self) -> Range<usize> {
        match self {
            Way::Sheet(place) => *place..place + 1,
            Way::Join(first, second) => first.places().start..second.places().end,
        }
    }
}

/// As "((1 2) 3)", where sheets are counted from 1.
impl fmt::Display for Way {
    fn fmt(&self, out: &mut fmt::Formatter<'_>) -> fmt::Result {
        match self {
            Way::Sheet(place) => write!(out, "{}", place + 1),
            Way::Join(first, second) => write!(out, "({first} {second})"),
        }
    }
}

/// Sheets in turn, and what is known of them.
#[derive(Clone)]
pub struct Chain {
    sheets: Vec<Vec<u32>>,
    /// For each sheet the number that check gives, if it does not pass.
    read: Vec<Result<Certificate, Refusal>>,
    /// What runs of sheets make, as far as it is known.
    made: HashMap<Range<usize>, Certificate>,
}

impl Chain {
    /// Any sheets.
    pub fn of(sheets: Vec<Vec<u32>>) -> Chain {
        Chain {
            read: sheets.iter().map(|words| read_valid(words)).collect(),
            made: HashMap::new(),
            sheets,
        }
    }

    /// Certificates that are known to pass.
    pub fn passing(certificates: &[Certificate]) -> Chain {
        Chain {
            sheets: certificates.iter().map(Certificate::words).collect(),
            read: certificates.iter().cloned().map(Ok).collect(),
            made: HashMap::new(),
        }
    }

    /// A cyclic kernel in steps of these degrees. What each run of steps makes is known by
    /// the roots of its kernel polynomial.
    pub fn cyclic(cyclic: &Cyclic, degrees: &[u64]) -> Chain {
        let mut made = HashMap::new();
        for start in 0..degrees.len() {
            let before = degrees[..start].iter().product();
            for end in start + 1..=degrees.len() {
                let l = degrees[start..end].iter().product();
                made.insert(start..end, cyclic.part(before, l));
            }
        }
        let steps: Vec<Certificate> = (0..degrees.len())
            .map(|i| made[&(i..i + 1)].clone())
            .collect();
        Chain {
            made,
            ..Chain::passing(&steps)
        }
    }

    /// The same chain with other words in a place, which check refuses with this number.
    pub fn spoiled(&self, place: usize, words: &[u32], number: Refusal) -> Chain {
        let mut chain = self.clone();
        chain.sheets[place] = words.to_vec();
        chain.read[place] = Err(number);
        chain.made.retain(|places, _| !places.contains(&place));
        chain
    }

    pub fn sheets(&self) -> &[Vec<u32>] {
        &self.sheets
    }

    pub fn ways(&self) -> Vec<Way> {
        Way::all(self.sheets.len())
    }

    /// What the request wants for the chain to be joined: each sheet passes, each meets the
    /// next, and the product of all degrees is permitted.
    pub fn is_lawful(&self) -> bool {
        let passed: Result<Vec<&Certificate>, _> =
            self.read.iter().map(|read| read.as_ref()).collect();
        passed.is_ok_and(|all| {
            let product = all.iter().map(|c| c.question.l).product::<u64>();
            all.windows(2)
                .all(|pair| meets(&pair[0].question, &pair[1].question))
                && is_permitted(product, 1, all[0].question.p)
        })
    }

    /// The degree that a way makes, or its first "no". Calls come in the order in which
    /// their words stand, those that make a part before the one that joins it; each asks
    /// its first sheet, its second, 13 and 14. What a call has written passes, as request
    /// E1 has it, and has the curves and the degrees of its sheets.
    fn degree(&self, way: &Way) -> Result<u64, Refusal> {
        let passed = |place: usize| self.read[place].as_ref().map_err(|number| *number);
        let (first, second) = match way {
            Way::Sheet(place) => return passed(*place).map(|c| c.question.l),
            Way::Join(first, second) => (first, second),
        };
        for part in [first, second] {
            if let Way::Join(..) = **part {
                self.degree(part)?;
            }
        }
        let [l, m] = [self.degree(first)?, self.degree(second)?];
        let middle = second.places().start;
        let [before, after] = [&passed(middle - 1)?.question, &passed(middle)?.question];
        if !meets(before, after) {
            return Err(13);
        }
        if !is_permitted(l, m, after.p) {
            return Err(14);
        }
        Ok(l * m)
    }

    /// The number of a way's first "no", if it has one.
    pub fn refusal(&self, way: &Way) -> Option<Refusal> {
        self.degree(way).err()
    }

    /// What the last call of a way, or the one at which it ends, must answer.
    pub fn reply(&mut self, way: &Way) -> Reply {
        match self.refusal(way) {
            Some(number) => Reply::refused(number),
            None => Reply::written(self.made(way.places()).words()),
        }
    }

    /// What sheets that pass and meet make.
    fn made(&mut self, places: Range<usize>) -> &Certificate {
        let maps = self.read[places.clone()].iter();
        self.made.entry(places).or_insert_with(|| {
            let maps: Vec<&Certificate> = maps.flatten().collect();
            joined(&maps)
        })
    }
}

/// The certificate of maps that meet, one after the other. With u_0 = u, and u_i what the
/// i-th map makes of u_(i-1), its g has at u the product of the values of each g_i at
/// u_(i-1), to the power of all degrees after the i-th: request E1's rule, over and over,
/// whichever two maps it starts with. The values at d + 1 places give g.
pub fn joined(maps: &[&Certificate]) -> Certificate {
    let (start, end) = (&maps[0].question, &maps[maps.len() - 1].question);
    let (k, l) = (
        start.field(),
        maps.iter().map(|map| map.question.l).product(),
    );
    let d = half(l);
    let polynomials: Vec<(Poly, Poly)> = maps.iter().map(|map| map.polynomials()).collect();
    let value = |u: u64| {
        let mut product = 1;
        let mut at = u;
        for (map, (g, n)) in maps.iter().zip(&polynomials) {
            let bottom = g.value(at);
            if bottom == 0 {
                return None;
            }
            product = k.mul(k.pow(product, map.question.l), bottom);
            at = k.div(n.value(at), k.pow(bottom, 2));
        }
        Some((u, product))
    };
    let (places, values): (Vec<u64>, Vec<u64>) = (0..k.p()).filter_map(value).take(d + 1).unzip();
    assert_eq!(places.len(), d + 1, "p is large enough");
    let g = Poly::through(k, &places, &values);
    let sigma = rules::sigma(&g, d);
    let question = Question {
        a_t: end.a_t,
        b_t: end.b_t,
        l,
        sigma,
        ..start.clone()
    };
    let n = rules::r2(start.a, start.b, l, sigma, &g);
    services::certificate(question, &g, &n)
}
