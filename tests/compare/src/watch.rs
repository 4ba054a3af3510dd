//! Requests E12 and E6, watched on every certificate that the library writes or lets
//! pass, whatever was expected: g is prime to its derivative, to f and to N, and the
//! count of rational abscissas is that of g. It is read from the words with any odd
//! degree, so that a wrong question 4 shows here too.

use std::collections::{BTreeMap, HashSet};

use reference::rational;
use reference::repetition::{common_factors, read_any_degree};
use reference::sheet::{half, value, Certificate, Refusal};

/// The entries that write certificates or let them pass.
pub const ENTRIES: [&str; 5] = ["check", "push", "solve", "kernel", "compose"];

#[derive(Default)]
pub struct Watch {
    /// How often each entry wrote a certificate or let one pass.
    counts: [u64; ENTRIES.len()],
    /// The words of those that were found in order, to be worked out once for a group.
    sound: HashSet<Vec<u32>>,
}

impl Watch {
    /// What is wrong with the words that an entry wrote or let pass, a line each. Bytes
    /// that are no words come with the number of the question that they fail.
    pub fn look(&mut self, entry: &str, words: Result<&[u32], &Refusal>) -> Vec<String> {
        let place = ENTRIES.iter().position(|&name| name == entry);
        self.counts[place.expect("an entry with certificates")] += 1;
        if words.is_ok_and(|words| self.sound.contains(words)) {
            return Vec::new();
        }
        let mut found = match words.map_err(|&number| number).and_then(read_any_degree) {
            Ok(certificate) => self.look_at(&certificate),
            Err(number) => vec![format!("not of the form, by question {number}")],
        };
        if let (Ok(words), false) = (words, found.is_empty()) {
            found.push(format!("words {words:08x?}"));
        }
        found
    }

    fn look_at(&mut self, certificate: &Certificate) -> Vec<String> {
        let common = common_factors(certificate);
        let not_one = common.iter().filter(|(_, gcd)| gcd.coefficients() != [1]);
        let mut found: Vec<String> = not_one
            .map(|(other, gcd)| format!("gcd(g, {other}) is {:x?}", gcd.coefficients()))
            .collect();
        let (claimed, (g, _)) = (certificate.rational, certificate.polynomials());
        let rational = rational::count(&g);
        if claimed != rational {
            found.push(format!(
                "{rational} abscissas are rational, and not {claimed}"
            ));
        }
        if found.is_empty() {
            self.sound.insert(certificate.words());
        }
        found
    }

    pub fn merge(&mut self, other: Watch) {
        let counts = self.counts.iter_mut().zip(other.counts);
        counts.for_each(|(sum, count)| *sum += count);
        self.sound.extend(other.sound);
    }

    /// Of each degree, of how many different ones none, some and all abscissas are rational.
    fn by_degree(&self) -> BTreeMap<u64, [usize; 3]> {
        let mut shares: BTreeMap<u64, [usize; 3]> = BTreeMap::new();
        for words in &self.sound {
            let l = value(words[5]);
            let place = match value(words[words.len() - 2]) {
                0 => 0,
                rational if rational < half(l) as u64 => 1,
                _ => 2,
            };
            shares.entry(l).or_default()[place] += 1;
        }
        shares
    }

    fn shares(&self) -> [usize; 3] {
        let by_degree = self.by_degree();
        [0, 1, 2].map(|place| by_degree.values().map(|shares| shares[place]).sum())
    }

    /// One line: how many there were, which degrees they have, and of how many none, some
    /// and all abscissas are rational.
    pub fn line(&self) -> String {
        let by_entry = ENTRIES.iter().zip(self.counts);
        let by_entry: Vec<String> = by_entry.map(|(name, n)| format!("{name} {n}")).collect();
        let all: Vec<u64> = self.by_degree().into_keys().collect();
        let degrees = match all.first().zip(all.last()) {
            Some((first, last)) => format!("{} degrees from {first} to {last}", all.len()),
            None => "no degree".to_string(),
        };
        let [none, some, all] = self.shares();
        format!(
            "certificates: {}; {} different ones looked at, of {degrees}; \
            no abscissa rational in {none}, some in {some}, all in {all}",
            by_entry.join(", "),
            self.sound.len()
        )
    }

    /// Whether every entry had certificates, with none, some and all abscissas rational;
    /// and in the full form every odd degree, with all of them rational and with fewer. For
    /// l = 3 there is but one, which is rational as g is.
    pub fn is_complete(&self, quick: bool) -> bool {
        let by_degree = self.by_degree();
        let both = |l: u64| {
            let shares = by_degree.get(&l);
            shares.is_some_and(|[none, some, all]| *all > 0 && (l == 3 || none + some > 0))
        };
        let all = (3..=255).step_by(2).all(both);
        let shares = self.shares().iter().all(|&count| count > 0);
        self.counts.iter().all(|&count| count > 0) && (quick || all) && shares
    }
}
