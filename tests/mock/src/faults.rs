//! Deliberate faults, one at a time: each is a program that breaks document 01 or
//! 02 in one way and keeps it otherwise. The comparison must find every one.

mod chains;
mod composition;
mod numerator;
mod primes;
mod rational;
mod reduction;
mod repetition;

use std::sync::OnceLock;

use reference::call::{point_number, point_of, Call, Reply, INFINITY, REFUSED};
use reference::curve::Curve;
use reference::field::Field;
use reference::generate;
use reference::marked;
use reference::poly::Poly;
use reference::rules::R3;
use reference::services::{self, Point};
use reference::sheet::{self, kind, value, word, Certificate, KernelSheet, Question};
use reference::sheet::{A_T, B_T, END, G, L, N, P};

pub enum Fault {
    /// Answers another call than the one that was made.
    Input(fn(Call) -> Call),
    /// Answers otherwise than the reference.
    Output(fn(&Call, Reply) -> Reply),
    /// Touches memory that it must leave alone.
    Memory(fn(&Memory)),
}

/// What an entry was lent, and how it answered.
pub struct Memory<'a> {
    pub reply: &'a Reply,
    pub sheet: *const u8,
    pub bytes: usize,
    /// The second sheet and its bytes, of compose alone.
    pub second: Option<(*const u8, usize)>,
    /// The lent answer and its room; check and push have none.
    pub answer: Option<(*mut u32, usize)>,
}

pub const FAULTS: &[(&str, Fault)] = &[
    ("order-1-last", Fault::Output(order_1_last)),
    ("order-3-4", Fault::Output(order_3_4)),
    ("order-5-6", Fault::Output(order_5_6)),
    ("order-6-7", Fault::Output(order_6_7)),
    ("order-7-8", Fault::Output(order_7_8)),
    ("order-9-10", Fault::Output(order_9_10)),
    ("order-12-first", Fault::Output(order_12_first)),
    ("bytes-cut-to-words", Fault::Input(bytes_cut_to_words)),
    ("words-after-end", Fault::Input(words_after_end)),
    ("end-value", Fault::Input(end_value)),
    ("value-p", Fault::Input(value_p)),
    ("coefficient-p", Fault::Input(coefficient_p)),
    ("coefficient-kind", Fault::Input(coefficient_kind)),
    ("values-refused", Fault::Output(reduction::values_refused)),
    (
        "kernel-values-refused",
        Fault::Output(reduction::kernel_values_refused),
    ),
    ("sigma-refused", Fault::Output(reduction::sigma_refused)),
    ("sigma-compared", Fault::Output(reduction::sigma_compared)),
    (
        "coefficients-refused",
        Fault::Output(reduction::coefficients_refused),
    ),
    (
        "curves-as-they-stand",
        Fault::Output(reduction::curves_as_they_stand),
    ),
    (
        "leading-as-it-stands",
        Fault::Output(reduction::leading_as_it_stands),
    ),
    (
        "certificates-reduced",
        Fault::Input(reduction::certificates_reduced),
    ),
    (
        "numerators-reduced",
        Fault::Input(reduction::numerators_reduced),
    ),
    ("names-reduced", Fault::Input(reduction::names_reduced)),
    ("degrees-reduced", Fault::Input(reduction::degrees_reduced)),
    ("ends-reduced", Fault::Input(reduction::ends_reduced)),
    ("reduced-by-zero", Fault::Output(reduction::by_zero)),
    ("reduced-once", Fault::Output(reduction::subtracted_once)),
    ("values-written", Fault::Output(reduction::values_written)),
    ("sigma-written", Fault::Output(reduction::sigma_written)),
    (
        "coefficients-written",
        Fault::Output(reduction::coefficients_written),
    ),
    ("reduced-uncorrected", Fault::Output(reduction::uncorrected)),
    ("reduced-by-floats", Fault::Output(reduction::by_floats)),
    ("reduced-in-place", Fault::Memory(reduction::in_place)),
    ("sum-lost", Fault::Input(reduction::sum_lost)),
    ("codomain-swapped", Fault::Input(codomain_swapped)),
    ("codomain-singular", Fault::Output(codomain_singular)),
    ("prime-fermat", Fault::Output(primes::fermat)),
    ("prime-strong-test", Fault::Output(primes::strong_test)),
    ("prime-of-low-bits", Fault::Input(primes::of_low_bits)),
    (
        "prime-small-low-bits",
        Fault::Output(primes::small_low_bits),
    ),
    ("prime-from-7", Fault::Output(primes::from_7)),
    (
        "prime-to-last-square",
        Fault::Output(primes::to_last_square),
    ),
    ("prime-unbounded", Fault::Output(primes::unbounded)),
    ("divisor-2-untried", Fault::Output(primes::untried_2)),
    ("divisor-left-out", Fault::Output(primes::left_out)),
    ("divisor-composite", Fault::Output(primes::composite)),
    ("divisors-swapped", Fault::Output(primes::swapped)),
    ("divisor-last-untried", Fault::Output(primes::untried_last)),
    ("divisor-last-refused", Fault::Output(primes::refused_last)),
    ("divisors-whole-blocks", Fault::Output(primes::whole_blocks)),
    ("divisors-below-root", Fault::Output(primes::below_root)),
    ("divisors-root-less-1", Fault::Output(primes::root_less_1)),
    ("divisor-bound-less-1", Fault::Output(primes::bound_less_1)),
    ("divisor-bound-twice", Fault::Output(primes::bound_twice)),
    ("divisors-of-sheets", Fault::Output(primes::of_sheets)),
    ("degree-bound", Fault::Output(degree_bound)),
    ("degree-255", Fault::Output(degree_255)),
    ("room-ignored", Fault::Input(room_ignored)),
    ("room-above-393", Fault::Input(room_above_393)),
    ("room-392", Fault::Input(room_392)),
    ("sigma-once", Fault::Output(sigma_once)),
    ("r2-not-asked", Fault::Output(r2_not_asked)),
    ("second-part-plus", Fault::Output(numerator::second_plus)),
    (
        "third-part-2-for-4",
        Fault::Output(numerator::third_2_for_4),
    ),
    ("third-part-moved", Fault::Output(numerator::third_moved)),
    ("third-part-wraps", Fault::Output(numerator::third_wraps)),
    ("parts-exchanged", Fault::Output(numerator::exchanged)),
    (
        "second-part-plus-passes",
        Fault::Output(numerator::second_plus_passes),
    ),
    (
        "third-part-2-for-4-passes",
        Fault::Output(numerator::third_2_for_4_passes),
    ),
    (
        "third-part-moved-passes",
        Fault::Output(numerator::third_moved_passes),
    ),
    (
        "parts-exchanged-passes",
        Fault::Output(numerator::exchanged_passes),
    ),
    (
        "factor-repeated-passes",
        Fault::Output(repetition::repeated_passes),
    ),
    (
        "factor-repeated-pushes",
        Fault::Output(repetition::repeated_pushes),
    ),
    (
        "factor-repeated-solved",
        Fault::Output(repetition::repeated_solved),
    ),
    (
        "factor-repeated-kernel",
        Fault::Output(repetition::repeated_kernel),
    ),
    ("factor-of-f-passes", Fault::Output(repetition::of_f_passes)),
    ("factor-of-f-kernel", Fault::Output(repetition::of_f_kernel)),
    ("factor-of-n-passes", Fault::Output(repetition::of_n_passes)),
    (
        "factor-of-n-written",
        Fault::Output(repetition::of_n_written),
    ),
    ("factor-beyond-4", Fault::Output(repetition::beyond_4)),
    ("counted-one-more", Fault::Output(rational::one_more)),
    ("counted-one-less", Fault::Output(rational::one_less)),
    ("counted-none", Fault::Output(rational::none)),
    ("counted-all", Fault::Output(rational::all)),
    ("counted-no-roots", Fault::Output(rational::not_roots)),
    ("counted-without-0", Fault::Output(rational::without_zero)),
    ("counted-squares", Fault::Output(rational::squares)),
    (
        "counted-square-values",
        Fault::Output(rational::square_values),
    ),
    ("counted-with-plus", Fault::Output(rational::with_plus)),
    ("counted-half-power", Fault::Output(rational::half_power)),
    (
        "counted-with-27-bits",
        Fault::Output(rational::power_of_27_bits),
    ),
    (
        "counted-power-less-1",
        Fault::Output(rational::power_less_1),
    ),
    (
        "counted-unreduced",
        Fault::Output(rational::unreduced_start),
    ),
    (
        "counted-to-a-constant",
        Fault::Output(rational::stopped_at_constant),
    ),
    (
        "counted-half-way",
        Fault::Output(rational::stopped_half_way),
    ),
    (
        "multiplicities-counted",
        Fault::Output(rational::with_multiplicity),
    ),
    (
        "rational-at-one-degree",
        Fault::Output(rational::at_one_degree),
    ),
    (
        "rational-over-least-primes",
        Fault::Output(rational::over_least_primes),
    ),
    (
        "rational-written-wrong",
        Fault::Output(rational::written_wrong),
    ),
    ("rational-unasked", Fault::Output(rational::unasked)),
    (
        "rational-bounded-by-p",
        Fault::Output(rational::bounded_by_p),
    ),
    (
        "rational-bounded-by-d",
        Fault::Output(rational::bounded_by_d),
    ),
    ("rational-reduced", Fault::Output(rational::reduced)),
    ("rational-in-8-bits", Fault::Output(rational::in_8_bits)),
    ("rational-in-16-bits", Fault::Output(rational::in_16_bits)),
    (
        "rational-unasked-by-push",
        Fault::Output(rational::unasked_by_push),
    ),
    ("rational-without-n", Fault::Output(rational::without_n)),
    ("rational-after-10", Fault::Output(rational::after_10)),
    ("rational-before-8", Fault::Output(rational::before_8)),
    ("rational-below-p", Fault::Output(rational::below_p)),
    ("rational-number-10", Fault::Output(rational::number_10)),
    ("rational-missing", Fault::Input(rational::missing)),
    ("rational-twice", Fault::Input(rational::twice)),
    ("rational-before-n", Fault::Input(rational::before_n)),
    ("rational-of-any-kind", Fault::Input(rational::of_any_kind)),
    ("rational-not-written", Fault::Output(rational::not_written)),
    ("words-after-393", Fault::Input(words_after_393)),
    ("words-to-392", Fault::Output(words_to_392)),
    ("r3-not-asked", Fault::Output(r3_not_asked)),
    ("r3-to-degree-2l", Fault::Output(r3_to_degree_2l)),
    ("r3-highest-only", Fault::Output(r3_highest_only)),
    ("r3-at-two-points", Fault::Output(r3_at_two_points)),
    ("solve-without-r3", Fault::Output(solve_without_r3)),
    ("kernel-without-r3", Fault::Output(kernel_without_r3)),
    ("hard-sheets-11", Fault::Output(hard_sheets_11)),
    ("refuse-everything", Fault::Output(refuse_everything)),
    ("fixed-certificate", Fault::Output(fixed_certificate)),
    ("answer-unwritten", Fault::Output(answer_unwritten)),
    ("answer-codomain-swapped", Fault::Output(answer_swapped)),
    ("answer-last-word", Fault::Output(answer_last_word)),
    ("count-one-more", Fault::Output(count_one_more)),
    ("count-one-less", Fault::Output(count_one_less)),
    ("push-infinity", Fault::Output(push_infinity)),
    ("push-not-checked", Fault::Output(push_not_checked)),
    ("push-off-curve", Fault::Output(push_off_curve)),
    ("push-coordinates-reduced", Fault::Input(push_reduced)),
    ("push-infinity-above", Fault::Input(push_infinity_above)),
    ("push-negative", Fault::Output(push_negative)),
    ("push-kernel-to-zero", Fault::Output(push_kernel_to_zero)),
    ("push-plain-refusal", Fault::Output(push_plain_refusal)),
    ("name-without-1728", Fault::Output(name_without_1728)),
    ("name-singular", Fault::Output(name_singular)),
    ("write-refused-first", Fault::Memory(write_refused_first)),
    ("write-refused-last", Fault::Memory(write_refused_last)),
    ("write-after-count", Fault::Memory(write_after_count)),
    ("write-beyond-room", Fault::Memory(write_beyond_room)),
    ("write-before-answer", Fault::Memory(write_before_answer)),
    ("read-beyond-sheet", Fault::Memory(read_beyond_sheet)),
    ("read-beyond-bytes", Fault::Memory(read_beyond_bytes)),
    ("read-before-sheet", Fault::Memory(read_before_sheet)),
    ("sheet-changed", Fault::Memory(sheet_changed)),
    (
        "counted-composed-first",
        Fault::Output(composition::counted_of_first),
    ),
    (
        "counted-composed-second",
        Fault::Output(composition::counted_of_second),
    ),
    (
        "counted-composed-sum",
        Fault::Output(composition::counted_added_up),
    ),
    (
        "compose-sigma-turned",
        Fault::Output(composition::sigma_turned),
    ),
    (
        "compose-sigma-unreduced",
        Fault::Output(composition::sigma_unreduced),
    ),
    ("compose-exchanged", Fault::Output(composition::exchanged)),
    (
        "compose-cleared-less",
        Fault::Output(composition::cleared_less),
    ),
    (
        "compose-cleared-more",
        Fault::Output(composition::cleared_more),
    ),
    (
        "compose-cleared-once",
        Fault::Output(composition::cleared_once),
    ),
    (
        "compose-kernel-of-second",
        Fault::Output(composition::kernel_of_second),
    ),
    (
        "compose-codomain-of-first",
        Fault::Output(composition::codomain_of_first),
    ),
    (
        "compose-domain-of-second",
        Fault::Output(composition::domain_of_second),
    ),
    (
        "compose-at-one-pair",
        Fault::Output(composition::at_one_pair),
    ),
    (
        "compose-13-without-a",
        Fault::Output(composition::without_a),
    ),
    (
        "compose-13-without-b",
        Fault::Output(composition::without_b),
    ),
    (
        "compose-13-without-p",
        Fault::Output(composition::without_p),
    ),
    ("compose-13-by-name", Fault::Output(composition::by_name)),
    ("compose-13-turned", Fault::Output(composition::turned)),
    ("compose-14-unasked", Fault::Output(composition::unasked)),
    (
        "compose-14-without-p",
        Fault::Output(composition::product_without_p),
    ),
    ("compose-14-up-to-p", Fault::Output(composition::up_to_p)),
    ("compose-14-to-254", Fault::Output(composition::to_254)),
    ("compose-14-to-259", Fault::Output(composition::to_259)),
    (
        "compose-14-in-8-bits",
        Fault::Output(composition::in_8_bits),
    ),
    (
        "compose-14-first",
        Fault::Output(composition::fourteen_first),
    ),
    (
        "compose-13-before-second",
        Fault::Output(composition::before_second),
    ),
    (
        "compose-second-first",
        Fault::Output(composition::second_first),
    ),
    (
        "compose-first-unchecked",
        Fault::Output(composition::first_unchecked),
    ),
    (
        "compose-second-without-r3",
        Fault::Output(composition::second_without_r3),
    ),
    (
        "compose-second-uncounted",
        Fault::Output(composition::second_uncounted),
    ),
    ("compose-second-cut", Fault::Input(composition::second_cut)),
    (
        "compose-second-reduced",
        Fault::Input(composition::second_reduced),
    ),
    ("compose-room-392", Fault::Input(composition::room_392)),
    ("compose-room-last", Fault::Output(composition::room_last)),
    (
        "compose-room-of-answer",
        Fault::Output(composition::room_of_answer),
    ),
    (
        "compose-writes-first",
        Fault::Memory(composition::writes_first),
    ),
    (
        "compose-clears-rest",
        Fault::Memory(composition::clears_rest),
    ),
    (
        "compose-reads-beyond-first",
        Fault::Memory(composition::reads_beyond_first),
    ),
    (
        "compose-reads-beyond-second",
        Fault::Memory(composition::reads_beyond_second),
    ),
    (
        "compose-reads-before-second",
        Fault::Memory(composition::reads_before_second),
    ),
    (
        "compose-sheets-borrowed",
        Fault::Memory(composition::sheets_borrowed),
    ),
    (
        "compose-second-changed",
        Fault::Memory(composition::second_changed),
    ),
    (
        "chain-first-composite",
        Fault::Output(chains::first_composite),
    ),
    (
        "chain-second-composite",
        Fault::Output(chains::second_composite),
    ),
    ("chain-falling", Fault::Output(chains::falling)),
    ("chain-of-four", Fault::Output(chains::of_four)),
    ("chain-sigma-by-step", Fault::Output(chains::sigma_by_step)),
    (
        "chain-sigma-unreduced",
        Fault::Output(chains::sigma_unreduced),
    ),
    ("counted-chain-sum", Fault::Output(chains::counted_added_up)),
    ("chain-14-two-steps", Fault::Output(chains::two_steps)),
    ("chain-13-without-b", Fault::Output(chains::without_b)),
    ("chain-14-without-p", Fault::Output(chains::without_p)),
    (
        "chain-own-words-unasked",
        Fault::Output(chains::own_words_unasked),
    ),
];

/// The fault that the environment names, if it names one.
fn chosen() -> Option<&'static Fault> {
    static CHOSEN: OnceLock<Option<&'static Fault>> = OnceLock::new();
    *CHOSEN.get_or_init(|| {
        let wanted = std::env::var("SAGEPLIERS_FAULT").ok()?;
        let found = FAULTS.iter().find(|(name, _)| *name == wanted);
        Some(&found.expect("SAGEPLIERS_FAULT names no fault").1)
    })
}

/// The reference's reply, or that of the chosen fault.
pub fn reply(call: Call) -> Reply {
    match chosen() {
        Some(Fault::Input(change)) => change(call).reply(),
        Some(Fault::Output(change)) => {
            let reply = call.reply();
            change(&call, reply)
        }
        _ => call.reply(),
    }
}

/// The chosen fault's way with memory, if it has one.
pub fn touch(memory: &Memory) {
    if let Some(Fault::Memory(touch)) = chosen() {
        touch(memory);
    }
}

/// The number of the first "no"; 0 if there is none.
fn refusal(call: &Call, reply: &Reply) -> u32 {
    match call {
        Call::Check { .. } => reply.number as u32,
        _ => reply.number.saturating_sub(REFUSED) as u32,
    }
}

/// The words of the sheet; of compose those of the first one.
fn words(call: &Call) -> Vec<u32> {
    match call {
        Call::Check { bytes } | Call::Push { bytes, .. } => {
            sheet::words_of(bytes).unwrap_or_default()
        }
        Call::Solve { sheet, .. } | Call::Kernel { sheet, .. } => sheet.clone(),
        Call::Compose { first, .. } => first.clone(),
        Call::Name { .. } => Vec::new(),
    }
}

/// The value of the first word of a kind; 0 if there is none.
fn first(call: &Call, wanted: u32) -> u64 {
    let words = words(call);
    let found = words.iter().find(|&&w| kind(w) == wanted);
    found.map_or(0, |&w| value(w))
}

fn certificate(call: &Call) -> Option<Certificate> {
    match call {
        Call::Check { .. } | Call::Push { .. } => Certificate::read(&words(call)).ok(),
        _ => None,
    }
}

/// Changes the words of each sheet.
fn with_words(mut call: Call, change: impl Fn(&mut Vec<u32>)) -> Call {
    match &mut call {
        Call::Check { bytes } | Call::Push { bytes, .. } => {
            if let Ok(mut words) = sheet::words_of(bytes) {
                change(&mut words);
                *bytes = sheet::bytes_of(&words);
            }
        }
        Call::Solve { sheet, .. } | Call::Kernel { sheet, .. } => change(sheet),
        Call::Compose { first, second, .. } => [first, second].into_iter().for_each(change),
        Call::Name { .. } => {}
    }
    call
}

fn with_room(mut call: Call, change: impl Fn(usize) -> usize) -> Call {
    if let Call::Solve { room, .. } | Call::Kernel { room, .. } | Call::Compose { room, .. } =
        &mut call
    {
        *room = change(*room);
    }
    call
}

// The order of questions.

fn order_1_last(call: &Call, reply: Reply) -> Reply {
    if refusal(call, &reply) != 1 {
        return reply;
    }
    let roomy = with_room(call.clone(), |_| sheet::LARGEST_CERTIFICATE).reply();
    if roomy.words.is_empty() {
        roomy
    } else {
        reply
    }
}

/// The other number if both questions get a "no".
fn instead(call: &Call, reply: Reply, first: u32, other: u32, also: bool) -> Reply {
    if refusal(call, &reply) == first && also {
        call.refusal(other)
    } else {
        reply
    }
}

fn order_3_4(call: &Call, reply: Reply) -> Reply {
    let also = sheet::ask_degree(first(call, L), first(call, P)).is_err();
    let sheet = !matches!(call, Call::Name { .. });
    instead(call, reply, 3, 4, sheet && also)
}

fn order_5_6(call: &Call, reply: Reply) -> Reply {
    let count = words(call).len();
    let also = match call {
        Call::Solve { .. } => count != 8,
        Call::Check { .. } => count != 3 * (first(call, L) as usize / 2) + 12,
        _ => false,
    };
    instead(call, reply, 5, 6, also)
}

fn order_6_7(call: &Call, reply: Reply) -> Reply {
    let also = first(call, 2) == 0 && first(call, 3) == 0;
    instead(call, reply, 6, 7, also)
}

fn order_7_8(call: &Call, reply: Reply) -> Reply {
    let last = words(call).into_iter().rfind(|&w| kind(w) == G);
    let also = last.is_some_and(|w| value(w) != 1);
    instead(call, reply, 7, 8, also)
}

fn order_9_10(call: &Call, reply: Reply) -> Reply {
    let also = certificate(call).is_some_and(|c| {
        let codomain = (c.question.a_t, c.question.b_t);
        !R3::of(&c).holds(codomain.0, codomain.1)
    });
    instead(call, reply, 9, 10, also)
}

fn order_12_first(call: &Call, reply: Reply) -> Reply {
    match call {
        Call::Push { point, .. } if point_of(*point).is_none() => Reply::refused(12),
        _ => reply,
    }
}

// Reading sheets.

fn bytes_cut_to_words(mut call: Call) -> Call {
    if let Call::Check { bytes } | Call::Push { bytes, .. } = &mut call {
        bytes.truncate(bytes.len() / 4 * 4);
    }
    call
}

fn words_after_end(call: Call) -> Call {
    with_words(call, |words| {
        if let Some(end) = words.iter().position(|&w| w == word(END, 0)) {
            words.truncate(end + 1);
        }
    })
}

/// The entries that take bytes look at no more words than the longest certificate has.
fn words_after_393(call: Call) -> Call {
    match call {
        Call::Check { .. } | Call::Push { .. } => {
            with_words(call, |words| words.truncate(sheet::LARGEST_CERTIFICATE))
        }
        _ => call,
    }
}

/// They take a certificate for too long that was so before request E6.
fn words_to_392(call: &Call, reply: Reply) -> Reply {
    let long = words(call).len() == sheet::LARGEST_CERTIFICATE;
    let bytes = matches!(call, Call::Check { .. } | Call::Push { .. });
    let earlier = (1..6).contains(&refusal(call, &reply));
    if long && bytes && !earlier {
        call.refusal(6)
    } else {
        reply
    }
}

fn end_value(call: Call) -> Call {
    with_words(call, |words| {
        if let Some(last) = words.last_mut().filter(|w| kind(**w) == END) {
            *last = word(END, 0);
        }
    })
}

/// Takes p for 0 in words of these kinds.
fn p_is_zero(call: Call, kinds: &[u32]) -> Call {
    let p = first(&call, P);
    with_words(call, |words| {
        for w in words.iter_mut() {
            if kinds.contains(&kind(*w)) && value(*w) == p {
                *w = word(kind(*w), 0);
            }
        }
    })
}

fn value_p(call: Call) -> Call {
    p_is_zero(call, &sheet::QUESTION_HEAD[1..])
}

fn coefficient_p(call: Call) -> Call {
    p_is_zero(call, &[G, N])
}

fn coefficient_kind(call: Call) -> Call {
    with_words(call, |words| {
        if let Some(w) = words.get_mut(7).filter(|w| kind(**w) == N) {
            *w = word(G, value(*w));
        }
    })
}

fn codomain_swapped(call: Call) -> Call {
    with_words(call, |words| {
        let (Some(&a), Some(&b)) = (words.get(3), words.get(4)) else {
            return;
        };
        if (kind(a), kind(b)) == (A_T, B_T) {
            words[3] = word(A_T, value(b));
            words[4] = word(B_T, value(a));
        }
    })
}

fn codomain_singular(call: &Call, reply: Reply) -> Reply {
    let (p, a, b) = (first(call, P), first(call, 2), first(call, 3));
    if refusal(call, &reply) != 7 || p == 0 || sheet::ask_curve(p, a, b).is_err() {
        return reply;
    }
    match call {
        Call::Compose { .. } => reply,
        _ if certificate(call).is_some() => call.refusal(10),
        _ => call.refusal(11),
    }
}

// Questions 4 and 1.

fn degree_bound(call: &Call, reply: Reply) -> Reply {
    let (p, l) = (first(call, P), first(call, L));
    let equal = l >= 3 && l % 2 == 1 && 2 * l - 1 == p;
    instead(call, reply, 4, 5, equal)
}

fn degree_255(call: &Call, reply: Reply) -> Reply {
    let early = (1..4).contains(&refusal(call, &reply));
    if first(call, L) == 255 && !early {
        call.refusal(4)
    } else {
        reply
    }
}

fn room_ignored(call: Call) -> Call {
    with_room(call, |_| sheet::LARGEST_CERTIFICATE)
}

fn room_above_393(call: Call) -> Call {
    with_room(call, |room| if room == 393 { 392 } else { room })
}

/// The room of before request E6.
fn room_392(call: Call) -> Call {
    with_room(call, |room| if room == 392 { 393 } else { room })
}

// Rules R1 to R3.

fn sigma_once(call: &Call, reply: Reply) -> Reply {
    match (call, certificate(call)) {
        (Call::Check { .. }, Some(c)) => {
            let (q, d) = (&c.question, c.question.d());
            let once = q.field().neg(c.g[d - 1]);
            if q.sigma != once {
                call.refusal(8)
            } else {
                reply
            }
        }
        _ => reply,
    }
}

fn r2_not_asked(call: &Call, reply: Reply) -> Reply {
    let refused = certificate(call).filter(|_| refusal(call, &reply) == 9);
    let Some(c) = refused.filter(rational::is_right) else {
        return reply;
    };
    let holds = R3::of(&c).holds(c.question.a_t, c.question.b_t);
    call.refusal(if holds { 0 } else { 10 })
}

/// Check passes where R3 fails if the part that is looked at agrees.
fn r3_in_part(call: &Call, reply: Reply, agrees: fn(&R3, &Question) -> bool) -> Reply {
    let wrong = matches!(call, Call::Check { .. }) && refusal(call, &reply) == 10;
    match certificate(call).filter(|_| wrong) {
        Some(c) if agrees(&R3::of(&c), &c.question) => Reply::number(0),
        _ => reply,
    }
}

fn r3_not_asked(call: &Call, reply: Reply) -> Reply {
    r3_in_part(call, reply, |_, _| true)
}

fn r3_to_degree_2l(call: &Call, reply: Reply) -> Reply {
    r3_in_part(call, reply, |r3, q| {
        (0..=2 * q.l as usize).all(|i| r3.difference_at(i, q.a_t, q.b_t) == 0)
    })
}

fn r3_highest_only(call: &Call, reply: Reply) -> Reply {
    r3_in_part(call, reply, |r3, q| {
        let top = 3 * q.l as usize;
        (top - q.d() - 2..=top).all(|i| r3.difference_at(i, q.a_t, q.b_t) == 0)
    })
}

fn r3_at_two_points(call: &Call, reply: Reply) -> Reply {
    r3_in_part(call, reply, |r3, q| {
        let right = r3.n_g4.scale(q.a_t).add(&r3.g6.scale(q.b_t));
        [0, 1].iter().all(|&x| r3.rest.value(x) == right.value(x))
    })
}

fn solve_without_r3(call: &Call, reply: Reply) -> Reply {
    match call {
        Call::Solve { sheet, .. } if refusal(call, &reply) == 11 => {
            let question = Question::read(sheet).expect("11 comes after 2 to 7");
            Reply::written(services::recurrence_candidate(&question).words())
        }
        _ => reply,
    }
}

fn kernel_without_r3(call: &Call, reply: Reply) -> Reply {
    match call {
        Call::Kernel { sheet, .. } if refusal(call, &reply) == 11 => {
            let sheet = KernelSheet::read(sheet).expect("11 comes after 2 to 8");
            let curve = Curve::new(sheet.p, sheet.a, sheet.b);
            let g = Poly::new(curve.field, sheet.g);
            Reply::written(generate::candidate(&curve, sheet.l, &g).words())
        }
        _ => reply,
    }
}

// Answers of solve and kernel.

/// Changes the reply of a call that wrote an answer.
fn with_answer(mut reply: Reply, change: fn(&mut Reply)) -> Reply {
    if !reply.words.is_empty() {
        change(&mut reply);
    }
    reply
}

fn hard_sheets_11(call: &Call, reply: Reply) -> Reply {
    if matches!(call, Call::Solve { .. }) && reply.words.len() > 100 {
        Reply::refused(11)
    } else {
        reply
    }
}

fn refuse_everything(call: &Call, _: Reply) -> Reply {
    call.refusal(2)
}

fn fixed_certificate(_: &Call, reply: Reply) -> Reply {
    with_answer(reply, |reply| {
        *reply = Reply::written(marked::first().words());
    })
}

fn answer_unwritten(_: &Call, reply: Reply) -> Reply {
    with_answer(reply, |reply| reply.words.clear())
}

fn answer_swapped(_: &Call, reply: Reply) -> Reply {
    with_answer(reply, |reply| {
        let (a, b) = (value(reply.words[3]), value(reply.words[4]));
        reply.words[3] = word(A_T, b);
        reply.words[4] = word(B_T, a);
    })
}

fn answer_last_word(_: &Call, reply: Reply) -> Reply {
    with_answer(reply, |reply| {
        reply.words.pop();
    })
}

fn count_one_more(_: &Call, reply: Reply) -> Reply {
    with_answer(reply, |reply| reply.number += 1)
}

fn count_one_less(_: &Call, reply: Reply) -> Reply {
    with_answer(reply, |reply| reply.number -= 1)
}

// Push.

/// Changes the image of an affine point that is accepted.
fn with_image(call: &Call, reply: Reply, change: impl Fn(Certificate, Point) -> u64) -> Reply {
    match (call, certificate(call)) {
        (Call::Push { point, .. }, Some(c)) if refusal(call, &reply) == 0 => match point_of(*point)
        {
            Some(point @ Point::Affine(..)) => Reply::number(change(c, point)),
            _ => reply,
        },
        _ => reply,
    }
}

fn push_infinity(call: &Call, reply: Reply) -> Reply {
    with_image(call, reply, |_, _| INFINITY)
}

fn push_not_checked(call: &Call, reply: Reply) -> Reply {
    match (call, certificate(call)) {
        (Call::Push { point, .. }, Some(c)) if (8..=10).contains(&refusal(call, &reply)) => {
            let image = point_of(*point).map(|point| services::image(&c, point));
            match image {
                Some(Ok(image)) => Reply::number(point_number(image)),
                _ => Reply::refused(12),
            }
        }
        _ => reply,
    }
}

fn push_off_curve(call: &Call, reply: Reply) -> Reply {
    match call {
        Call::Push { point, .. } if refusal(call, &reply) == 12 && *point < INFINITY => {
            Reply::number(*point)
        }
        _ => reply,
    }
}

fn push_reduced(mut call: Call) -> Call {
    let p = first(&call, P).max(1);
    if let Call::Push { point, .. } = &mut call {
        if let Some(Point::Affine(u, v)) = point_of(*point) {
            *point = point_number(Point::Affine(u % p, v % p));
        }
    }
    call
}

fn push_infinity_above(mut call: Call) -> Call {
    if let Call::Push { point, .. } = &mut call {
        *point = (*point).min(INFINITY);
    }
    call
}

fn push_negative(call: &Call, reply: Reply) -> Reply {
    let number = reply.number;
    with_image(call, reply, |c, _| match point_of(number) {
        Some(Point::Affine(u, v)) => point_number(Point::Affine(u, c.question.field().neg(v))),
        _ => number,
    })
}

fn push_kernel_to_zero(call: &Call, reply: Reply) -> Reply {
    let number = reply.number;
    with_image(
        call,
        reply,
        |_, _| if number == INFINITY { 0 } else { number },
    )
}

fn push_plain_refusal(call: &Call, reply: Reply) -> Reply {
    match call {
        Call::Push { .. } if reply.number > REFUSED => Reply::number(reply.number - REFUSED),
        _ => reply,
    }
}

// Name.

fn name_without_1728(call: &Call, reply: Reply) -> Reply {
    match call {
        Call::Name { p, .. } if refusal(call, &reply) == 0 => {
            let field = Field::new(u64::from(*p));
            Reply::number(field.div(reply.number, field.of(1728)))
        }
        _ => reply,
    }
}

fn name_singular(call: &Call, reply: Reply) -> Reply {
    match call {
        Call::Name { .. } if refusal(call, &reply) == 7 => Reply::number(0),
        _ => reply,
    }
}

// Memory. SAFETY of all of these: none, on purpose. The comparison lends
// buffers whose surroundings it owns or has made inaccessible.

fn flip<T: Copy + std::ops::Not<Output = T>>(place: *mut T) {
    // SAFETY: see above.
    unsafe { place.write_volatile(!place.read_volatile()) }
}

fn look(place: *const u8) {
    // SAFETY: see above.
    unsafe {
        place.read_volatile();
    }
}

fn write_refused_first(memory: &Memory) {
    if let Some((answer, 1..)) = memory.answer {
        if memory.reply.number > REFUSED {
            flip(answer);
        }
    }
}

fn write_refused_last(memory: &Memory) {
    if let Some((answer, room @ 1..)) = memory.answer {
        if memory.reply.number > REFUSED {
            flip(answer.wrapping_add(room - 1));
        }
    }
}

fn write_after_count(memory: &Memory) {
    let count = memory.reply.words.len();
    if let Some((answer, room)) = memory.answer {
        if (1..room).contains(&count) {
            flip(answer.wrapping_add(count));
        }
    }
}

fn write_beyond_room(memory: &Memory) {
    if let Some((answer, room)) = memory.answer {
        flip(answer.wrapping_add(room));
    }
}

fn write_before_answer(memory: &Memory) {
    if let Some((answer, _)) = memory.answer {
        flip(answer.wrapping_sub(1));
    }
}

fn read_beyond_sheet(memory: &Memory) {
    if memory.answer.is_some() {
        look(memory.sheet.wrapping_add(memory.bytes));
    }
}

fn read_beyond_bytes(memory: &Memory) {
    if memory.answer.is_none() {
        look(memory.sheet.wrapping_add(memory.bytes));
    }
}

fn read_before_sheet(memory: &Memory) {
    look(memory.sheet.wrapping_sub(1));
}

fn sheet_changed(memory: &Memory) {
    if memory.bytes > 0 {
        flip(memory.sheet.cast_mut());
    }
}
