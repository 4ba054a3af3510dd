//! Document 01's own rows, and its order of questions.

use reference::call::Call;
use reference::generate;
use reference::marked;
use reference::random::Random;
use reference::sheet::Certificate;
use reference::spoil::{self, Service};

use crate::judge::Judge;

pub fn rows(judge: &mut Judge) {
    // As often as there are ways to lay out the buffers.
    for _ in 0..20 {
        for row in marked::rows() {
            judge.expect(&row.call, &row.reply);
        }
    }
}

/// Certificates of degrees 3, 9 and 15 with small and large primes.
pub fn samples() -> Vec<Certificate> {
    let mut random = Random::new(20);
    let composed = generate::chain(&mut random, 65521, &[3, 5], 5000);
    vec![
        marked::first(),
        marked::not_cyclic(),
        composed.expect("some curve allows these steps"),
    ]
}

/// One, two and three failing questions: the first gives its number.
pub fn order(judge: &mut Judge) {
    for certificate in samples() {
        for service in Service::ALL {
            for (call, number) in spoil::cases(service, &certificate) {
                judge.refuses(&call, number);
            }
        }
    }
    for (p, a, b, number) in [
        (1001, 1001, 0, 3),
        (1001, 0, 0, 3),
        (1009, 1009, 0, 5),
        (1009, 0, 1009, 5),
        (1009, 1009, 1009, 5),
        (1009, 0, 0, 7),
        (7, 1, 1, 3),
        (0, 0, 0, 3),
        (u32::MAX, u32::MAX, u32::MAX, 3),
        (11, u32::MAX, 0, 5),
    ] {
        judge.refuses(&Call::Name { p, a, b }, number);
    }
}
