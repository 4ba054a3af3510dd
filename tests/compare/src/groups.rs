//! The groups of cases, in the order in which they are run.

pub mod abscissas;
pub mod almost;
pub mod certificates;
pub mod chains;
pub mod composition;
pub mod damage;
pub mod document;
pub mod hostile;
pub mod lengths;
pub mod limits;
pub mod numerator;
pub mod points;
pub mod primes;
pub mod rational;
pub mod reduction;
pub mod repetition;
pub mod search;

use crate::judge::Judge;
use crate::Options;

pub struct Group {
    pub name: &'static str,
    pub run: Box<dyn Fn(&mut Judge) + Send + Sync>,
}

/// A group with a quick form, which the flag asks for.
type WithQuick = fn(&mut Judge, bool);

/// Shards of the random part, each with its own seed, and of the range of p.
const SHARDS: u64 = 8;

fn group(name: impl Into<String>, run: impl Fn(&mut Judge) + Send + Sync + 'static) -> Group {
    Group {
        // A few dozen names for the whole run.
        name: Box::leak(name.into().into_boxed_str()),
        run: Box::new(run),
    }
}

/// The long searches come early, so that all threads have work to the end.
pub fn all(options: &Options) -> Vec<Group> {
    let mut groups = by_document(options.quick);
    groups.extend(by_sieve(options.quick));
    groups.extend(by_search(options.quick));
    groups.extend(by_generation(options.quick));
    groups.extend(by_composition(options.quick, options.count));
    groups.extend(by_chance(options.count));
    groups.extend(by_chains(options.quick, options.count));
    groups
}

/// Cases that document 01 prints or whose expectation it states outright.
fn by_document(quick: bool) -> Vec<Group> {
    vec![
        group("document", document::rows),
        group("order of questions", document::order),
        group("rooms", limits::rooms),
        group("degrees", limits::degrees),
        group("primes", move |judge| primes::run(judge, quick)),
        group("points", points::run),
        group("numerator", move |judge| numerator::run(judge, quick)),
        group("repetition", move |judge| repetition::run(judge, quick)),
        group("rational", move |judge| rational::run(judge, quick)),
        group("rational, every degree", move |judge| {
            abscissas::run(judge, quick)
        }),
        group("rational, every g", move |judge| {
            rational::every(judge, quick)
        }),
    ]
}

/// Question 3 for every p; the quick form leaves it out.
fn by_sieve(quick: bool) -> Vec<Group> {
    let shards = (0..SHARDS).filter(|_| !quick).map(|shard| {
        group(format!("every p {}", shard + 1), move |judge| {
            primes::every(judge, shard, SHARDS);
        })
    });
    shards.collect()
}

/// Cases whose expectation is an exhaustive search.
fn by_search(quick: bool) -> Vec<Group> {
    let whole = search::fields(quick).into_iter().rev();
    let mut groups: Vec<Group> = whole
        .map(|(p, l)| {
            group(format!("search p={p} l={l}"), move |judge| {
                search::whole(judge, p, l, |words| words);
            })
        })
        .collect();
    groups.extend(search::unreduced_fields(quick).into_iter().map(|(p, l)| {
        group(format!("search p={p} l={l}, unreduced"), move |judge| {
            search::unreduced(judge, p, l);
        })
    }));
    groups.extend(search::larger_fields(quick).into_iter().map(|(p, l)| {
        group(format!("near answers p={p} l={l}"), move |judge| {
            search::near(judge, p, l);
        })
    }));
    groups
}

/// Cases made from isogenies that are known to exist, and beside them.
fn by_generation(quick: bool) -> Vec<Group> {
    let over = |p: u64| {
        group(format!("certificates p={p}"), move |judge| {
            certificates::over(judge, p, quick);
        })
    };
    let mut groups: Vec<Group> = certificates::primes(quick).into_iter().map(over).collect();
    groups.extend(reduction::primes(quick).into_iter().map(|p| {
        group(format!("reduction p={p}"), move |judge| {
            reduction::over(judge, p, quick);
        })
    }));
    let others: [(&str, WithQuick); 9] = [
        ("reduction, multiples of 11", reduction::multiples_of_11),
        ("certificates, least primes", certificates::least_primes),
        ("certificates, composed", certificates::composed),
        ("damage", damage::run),
        ("almost, all degrees", almost::large),
        ("almost, small fields", almost::small),
        ("almost, deep", almost::deep),
        ("lengths", lengths::run),
        ("names", limits::names),
    ];
    groups.extend(others.map(|(name, run)| group(name, move |judge| run(judge, quick))));
    groups
}

/// Request E1. A fortieth as many cases as the random ones are its own and as random.
fn by_composition(quick: bool, count: u64) -> Vec<Group> {
    let named: [(&str, WithQuick); 7] = [
        ("order", composition::order),
        ("rooms", |judge, _| composition::rooms(judge)),
        ("meeting", composition::meeting),
        ("products", composition::products),
        ("duals", composition::duals),
        ("steps", composition::steps),
        ("damage", composition::damage),
    ];
    let mut groups: Vec<Group> = Vec::new();
    groups.extend(named.map(|(name, run)| {
        group(format!("composition, {name}"), move |judge| {
            run(judge, quick)
        })
    }));
    groups.extend(composition::primes(quick).into_iter().map(|p| {
        group(format!("composition p={p}"), move |judge| {
            composition::over(judge, p, quick);
        })
    }));
    groups.push(group("composition, least primes", move |judge| {
        composition::least_primes(judge, quick);
    }));
    groups.extend(composition::fields(quick).into_iter().map(|(p, degrees)| {
        group(format!("composition, every p={p}"), move |judge| {
            composition::every(judge, p, degrees);
        })
    }));
    groups.extend((0..4).map(|seed| {
        group(format!("composition, hostile {}", seed + 1), move |judge| {
            composition::hostile(judge, seed, count / 160);
        })
    }));
    groups
}

/// Random cases, in shards of their own seeds.
fn by_chance(count: u64) -> Vec<Group> {
    let share = move |shard: u64| count / SHARDS + u64::from(shard < count % SHARDS);
    let shards = (0..SHARDS).map(|shard| {
        group(format!("hostile {}", shard + 1), move |judge| {
            hostile::run(judge, shard, share(shard));
        })
    });
    shards.collect()
}

/// Request E7. A hundredth as many chains as the random cases are random, and twice as many
/// more have nothing for their expectation but the library's own answers.
fn by_chains(quick: bool, count: u64) -> Vec<Group> {
    let named: [(&str, WithQuick); 8] = [
        ("numbers", |judge, _| chains::numbers_of_either_way(judge)),
        ("order", chains::order),
        ("meeting", chains::meeting),
        ("products", chains::products),
        ("duals", chains::duals),
        ("bracketings", chains::bracketings),
        ("refused bracketings", chains::refused_bracketings),
        ("least primes", chains::least_primes),
    ];
    let mut groups: Vec<Group> = Vec::new();
    groups.extend(
        named.map(|(name, run)| group(format!("chains, {name}"), move |judge| run(judge, quick))),
    );
    groups.extend(chains::primes(quick).into_iter().map(|p| {
        group(format!("chains p={p}"), move |judge| {
            chains::over(judge, p, quick);
        })
    }));
    groups.extend(chains::fields(quick).into_iter().map(|p| {
        group(format!("chains, every p={p}"), move |judge| {
            chains::every(judge, p, if quick { 40 } else { 1 });
        })
    }));
    groups.extend((0..2).map(|seed| {
        group(format!("chains, hostile {}", seed + 1), move |judge| {
            chains::neighbours_of_chains(judge, seed, count / 200);
        })
    }));
    groups.extend((0..2).map(|seed| {
        group(format!("chains, own answers {}", seed + 1), move |judge| {
            chains::own_answers(judge, seed, count / 100);
        })
    }));
    groups
}
