//! Libraries that compose otherwise than request E1 wants: another map or another
//! count, questions 13 and 14 asked otherwise, in another order or not at all, and sheets
//! or answer handled otherwise. All other entries are right.

use reference::call::{Call, Reply, REFUSED};
use reference::composition::{is_permitted, joined, kernel, meets, x_map};
use reference::fraction::Fraction;
use reference::poly::Poly;
use reference::rules;
use reference::services::{self, read_valid, Named};
use reference::sheet::{self, Certificate, Question, Refusal, LARGEST_CERTIFICATE};
use reference::unreduced::reduced;

use super::{flip, look, refusal, Memory};

/// The two sheets of compose.
fn sheets(call: &Call) -> Option<[&[u32]; 2]> {
    match call {
        Call::Compose { first, second, .. } => Some([first, second]),
        _ => None,
    }
}

/// Both certificates, if each passes.
fn maps(call: &Call) -> Option<[Certificate; 2]> {
    let [first, second] = sheets(call)?;
    Some([read_valid(first).ok()?, read_valid(second).ok()?])
}

// Another map.

/// Changes what is written, with the two maps at hand.
pub fn written(
    call: &Call,
    reply: Reply,
    change: impl FnOnce(&mut Certificate, &[Certificate; 2]),
) -> Reply {
    match maps(call).filter(|_| !reply.words.is_empty()) {
        Some(maps) => {
            let mut both = Certificate::read(&reply.words).expect("what was written");
            change(&mut both, &maps);
            Reply::written(both.words())
        }
        None => reply,
    }
}

pub fn counted_of_first(call: &Call, reply: Reply) -> Reply {
    written(call, reply, |both, [first, _]| {
        both.rational = first.rational
    })
}

pub fn counted_of_second(call: &Call, reply: Reply) -> Reply {
    written(call, reply, |both, [_, second]| {
        both.rational = second.rational
    })
}

pub fn counted_added_up(call: &Call, reply: Reply) -> Reply {
    written(call, reply, |both, [first, second]| {
        both.rational = first.rational + second.rational;
    })
}

/// N follows sigma.
pub fn with_sigma(both: &mut Certificate, sigma: u64) {
    let q = &mut both.question;
    q.sigma = sigma;
    let g = Poly::new(q.field(), both.g.clone());
    both.n = rules::r2(q.a, q.b, q.l, sigma % q.p, &g).padded(both.n.len());
}

/// The first sum and the first degree times the second.
pub fn sigma_turned(call: &Call, reply: Reply) -> Reply {
    written(call, reply, |both, [first, second]| {
        let (q1, q2) = (&first.question, &second.question);
        let k = q1.field();
        with_sigma(both, k.add(q1.sigma, k.mul(q1.l % q1.p, q2.sigma)));
    })
}

/// The product is reduced, the sum is not.
pub fn sigma_unreduced(call: &Call, reply: Reply) -> Reply {
    written(call, reply, |both, [first, second]| {
        let (q1, q2) = (&first.question, &second.question);
        let sum = q2.sigma + q2.l * q1.sigma % q1.p;
        with_sigma(both, sum % sheet::VALUE_LIMIT);
    })
}

/// Another g, as far as it has a place, with R2's N.
pub fn with_kernel(both: &mut Certificate, g: &Poly) {
    let q = &both.question;
    let kept = (0..=q.d()).map(|i| g.at(i)).collect();
    let g = Poly::new(q.field(), kept);
    let n = rules::r2(q.a, q.b, q.l, q.sigma, &g);
    both.n = (0..both.n.len()).map(|i| n.at(i)).collect();
    both.g = g.padded(both.g.len());
}

/// The kernel polynomial of the second map followed by the first.
pub fn exchanged(call: &Call, reply: Reply) -> Reply {
    written(call, reply, |both, [first, second]| {
        let g = kernel(second, first).expect("a polynomial");
        with_kernel(both, &g);
    })
}

/// One power of the first g too few, which is as good as its own factor left out.
pub fn cleared_less(call: &Call, reply: Reply) -> Reply {
    written(call, reply, |both, [first, second]| {
        let g = kernel(first, second).expect("a polynomial");
        let (g1, _) = first.polynomials();
        with_kernel(both, &g.exact_quotient(&g1).expect("a factor"));
    })
}

/// One power too many.
pub fn cleared_more(call: &Call, reply: Reply) -> Reply {
    written(call, reply, |both, [first, second]| {
        let g = kernel(first, second).expect("a polynomial");
        let (g1, _) = first.polynomials();
        with_kernel(both, &g.mul(&g1));
    })
}

/// What the second g becomes at N/g in the place of N/g^2.
pub fn cleared_once(call: &Call, reply: Reply) -> Reply {
    written(call, reply, |both, [first, second]| {
        let ((g1, _), (g2, _)) = (first.polynomials(), second.polynomials());
        let once = x_map(first).mul(&Fraction::of(&g1));
        let power = (0..second.question.d()).fold(g1.clone(), |power, _| power.mul(&g1));
        let g = once.put_into(&g2).mul(&Fraction::of(&power));
        with_kernel(both, &g.polynomial().expect("a polynomial"));
    })
}

/// The product of both kernel polynomials' values: the second g at x, not at N/g^2.
pub fn kernel_of_second(call: &Call, reply: Reply) -> Reply {
    written(call, reply, |both, [first, second]| {
        let ((g1, _), (g2, _)) = (first.polynomials(), second.polynomials());
        let power = (0..2 * second.question.d()).fold(g1.clone(), |power, _| power.mul(&g1));
        with_kernel(both, &g2.mul(&power));
    })
}

pub fn codomain_of_first(call: &Call, reply: Reply) -> Reply {
    written(call, reply, |both, [first, _]| {
        let Question { a_t, b_t, .. } = first.question;
        (both.question.a_t, both.question.b_t) = (a_t, b_t);
    })
}

pub fn domain_of_second(call: &Call, reply: Reply) -> Reply {
    written(call, reply, |both, [_, second]| {
        let Question { a, b, .. } = second.question;
        (both.question.a, both.question.b) = (a, b);
    })
}

/// Wrong where a step of degree 5 comes before one of degree 51, and nowhere else.
pub fn at_one_pair(call: &Call, reply: Reply) -> Reply {
    written(call, reply, |both, [first, second]| {
        if (first.question.l, second.question.l) == (5, 51) {
            both.g[0] = both.question.field().add(both.g[0], 1);
        }
    })
}

// Questions 13 and 14.

/// What is answered to two certificates if 13 and 14 ask for something else.
fn asked(first: &Certificate, second: &Certificate, is_met: bool, is_lawful: bool) -> Reply {
    match (is_met, is_lawful) {
        (false, _) => Reply::refused(13),
        (_, false) => Reply::refused(14),
        _ => Reply::written(joined(first, second).words()),
    }
}

/// Question 13 lets pass what is told here, too.
pub fn passes_13(call: &Call, reply: Reply, is_met: fn(&Question, &Question) -> bool) -> Reply {
    match maps(call).filter(|_| refusal(call, &reply) == 13) {
        Some([first, mut second]) if is_met(&first.question, &second.question) => {
            let p = first.question.p;
            // The second map's values over the first one's prime.
            second.question.p = p;
            let lists = [&mut second.g, &mut second.n];
            let all = lists.into_iter().flatten();
            all.for_each(|c| *c %= p);
            for value in [&mut second.question.a_t, &mut second.question.b_t] {
                *value %= p;
            }
            second.question.sigma %= p;
            let lawful = is_permitted(first.question.l, second.question.l, p);
            asked(&first, &second, true, lawful)
        }
        _ => reply,
    }
}

pub fn without_a(call: &Call, reply: Reply) -> Reply {
    passes_13(call, reply, |q1, q2| (q1.p, q1.b_t) == (q2.p, q2.b))
}

pub fn without_b(call: &Call, reply: Reply) -> Reply {
    passes_13(call, reply, |q1, q2| (q1.p, q1.a_t) == (q2.p, q2.a))
}

pub fn without_p(call: &Call, reply: Reply) -> Reply {
    passes_13(call, reply, |q1, q2| (q1.a_t, q1.b_t) == (q2.a, q2.b))
}

/// Curves of one j-value are taken for one curve.
pub fn by_name(call: &Call, reply: Reply) -> Reply {
    passes_13(call, reply, |q1, q2| {
        let name = |a, b| match services::name(q1.p, a, b) {
            Named::Value(value) => value,
            Named::Refused(_) => u64::MAX,
        };
        q1.p == q2.p && name(q1.a_t, q1.b_t) == name(q2.a, q2.b)
    })
}

/// The second codomain is to be the first domain.
pub fn turned(call: &Call, reply: Reply) -> Reply {
    match maps(call) {
        Some([first, second]) => {
            let met = meets(&second.question, &first.question);
            let (q1, q2) = (&first.question, &second.question);
            let lawful = is_permitted(q1.l, q2.l, q1.p);
            match refusal(call, &reply) {
                1 => reply,
                _ => asked(&first, &second, met, lawful),
            }
        }
        None => reply,
    }
}

/// Question 14 lets pass what is told here, of the maps and of what it should say.
pub fn asks_14_of(
    call: &Call,
    reply: Reply,
    is_lawful: impl FnOnce(&[Certificate; 2], bool) -> bool,
) -> Reply {
    let late = matches!(refusal(call, &reply), 0 | 14);
    match maps(call).filter(|_| late) {
        Some(maps) => {
            let [first, second] = &maps;
            let lawful = !fails_14(first, second);
            match (is_lawful(&maps, lawful), lawful) {
                (true, false) => asked(first, second, true, true),
                (false, true) => Reply::refused(14),
                _ => reply,
            }
        }
        None => reply,
    }
}

/// The same of the product and p.
fn asks_14(call: &Call, reply: Reply, is_lawful: fn(u64, u64) -> bool) -> Reply {
    asks_14_of(call, reply, |[first, second], _| {
        let (q1, q2) = (&first.question, &second.question);
        is_lawful(q1.l * q2.l, q1.p)
    })
}

pub fn unasked(call: &Call, reply: Reply) -> Reply {
    asks_14(call, reply, |_, _| true)
}

pub fn product_without_p(call: &Call, reply: Reply) -> Reply {
    asks_14(call, reply, |product, _| product <= 255)
}

pub fn up_to_p(call: &Call, reply: Reply) -> Reply {
    asks_14(call, reply, |product, p| {
        product <= 255 && 2 * product - 1 <= p
    })
}

pub fn to_254(call: &Call, reply: Reply) -> Reply {
    asks_14(call, reply, |product, p| {
        product < 255 && 2 * product - 1 < p
    })
}

/// Up to the least product above 255.
pub fn to_259(call: &Call, reply: Reply) -> Reply {
    asks_14(call, reply, |product, p| {
        product <= 259 && 2 * product - 1 < p
    })
}

/// The product is taken modulo 256: where that is a degree, nothing is refused.
pub fn in_8_bits(call: &Call, reply: Reply) -> Reply {
    asks_14(call, reply, |product, p| {
        sheet::ask_degree(product % 256, p).is_ok()
    })
}

// The order of questions.

/// Whether the product of the degrees is refused.
fn fails_14(first: &Certificate, second: &Certificate) -> bool {
    let (q1, q2) = (&first.question, &second.question);
    !is_permitted(q1.l, q2.l, q1.p)
}

pub fn fourteen_first(call: &Call, reply: Reply) -> Reply {
    match maps(call).filter(|_| refusal(call, &reply) == 13) {
        Some([first, second]) if fails_14(&first, &second) => Reply::refused(14),
        _ => reply,
    }
}

/// What each sheet gets by itself.
fn numbers(call: &Call, reply: &Reply) -> Option<[Option<Refusal>; 2]> {
    let sheets = sheets(call).filter(|_| refusal(call, reply) != 1)?;
    Some(sheets.map(|words| read_valid(words).err()))
}

/// 13 is asked as soon as the second sheet can be read.
pub fn before_second(call: &Call, reply: Reply) -> Reply {
    let (Some([None, Some(8..=10)]), Some([first, second])) = (numbers(call, &reply), sheets(call))
    else {
        return reply;
    };
    match [first, second].map(Certificate::read) {
        [Ok(first), Ok(second)] if !meets(&first.question, &second.question) => Reply::refused(13),
        _ => reply,
    }
}

pub fn second_first(call: &Call, reply: Reply) -> Reply {
    match numbers(call, &reply) {
        Some([_, Some(number)]) => Reply::refused(number),
        _ => reply,
    }
}

/// What is answered if a sheet that gets one of these numbers is let pass.
fn lets_pass(call: &Call, reply: Reply, place: usize, passes: fn(&Certificate) -> bool) -> Reply {
    let Some(numbers) = numbers(call, &reply) else {
        return reply;
    };
    let other = numbers[1 - place];
    let read = sheets(call).map(|sheets| sheets.map(Certificate::read));
    match (numbers[place], read) {
        (Some(8..=10), Some([Ok(first), Ok(second)])) if other.is_none() => {
            let let_pass = passes([&first, &second][place]);
            let met = meets(&first.question, &second.question);
            if let_pass {
                asked(&first, &second, met, !fails_14(&first, &second))
            } else {
                reply
            }
        }
        _ => reply,
    }
}

pub fn first_unchecked(call: &Call, reply: Reply) -> Reply {
    lets_pass(call, reply, 0, |_| true)
}

pub fn second_without_r3(call: &Call, reply: Reply) -> Reply {
    lets_pass(call, reply, 1, |c| {
        let (q, (g, n)) = (&c.question, c.polynomials());
        rules::r1(&g, q.d(), q.sigma)
            && n == rules::r2(q.a, q.b, q.l, q.sigma, &g)
            && super::rational::is_right(c)
    })
}

pub fn second_uncounted(call: &Call, reply: Reply) -> Reply {
    lets_pass(call, reply, 1, |c| {
        let mut counted = c.clone();
        let (g, _) = c.polynomials();
        counted.rational = reference::rational::count(&g);
        read_valid(&counted.words()).is_ok()
    })
}

/// Words behind a second sheet of its own length are not looked at.
pub fn second_cut(mut call: Call) -> Call {
    if let Call::Compose { second, .. } = &mut call {
        if let Some(&degree) = second.get(5) {
            let words = 3 * (sheet::value(degree) as usize / 2) + 12;
            second.truncate(words);
        }
    }
    call
}

/// Values from p on are reduced, as on question and kernel sheets.
pub fn second_reduced(mut call: Call) -> Call {
    if let Call::Compose { second, .. } = &mut call {
        *second = reduced(second);
    }
    call
}

// The room.

/// The room of before request E6.
pub fn room_392(mut call: Call) -> Call {
    if let Call::Compose { room, .. } = &mut call {
        *room += usize::from(*room == 392);
    }
    call
}

/// What would be answered with enough room.
fn roomy(call: &Call, reply: &Reply) -> Option<(Reply, usize)> {
    match call {
        Call::Compose {
            first,
            second,
            room,
        } if refusal(call, reply) == 1 => {
            let reply = services::compose(first, second, LARGEST_CERTIFICATE);
            let reply = match reply {
                services::Written::Words(words) => Reply::written(words),
                services::Written::Refused(number) => Reply::refused(number),
            };
            Some((reply, *room))
        }
        _ => None,
    }
}

/// The room is asked for when there is something to write.
pub fn room_last(call: &Call, reply: Reply) -> Reply {
    match roomy(call, &reply) {
        Some((other, _)) if other.words.is_empty() => other,
        _ => reply,
    }
}

/// No more room is asked for than the answer takes.
pub fn room_of_answer(call: &Call, reply: Reply) -> Reply {
    match roomy(call, &reply) {
        Some((other, room)) if other.number <= room as u64 => other,
        _ => reply,
    }
}

// Memory. SAFETY: as for the others.

/// The first word is written before anything is refused.
pub fn writes_first(memory: &Memory) {
    if let (Some(_), Some((answer, 1..))) = (memory.second, memory.answer) {
        if memory.reply.number > REFUSED {
            flip(answer);
        }
    }
}

/// The words behind the count are set to 0.
pub fn clears_rest(memory: &Memory) {
    if let (Some(_), Some((answer, room))) = (memory.second, memory.answer) {
        let count = memory.reply.words.len();
        if count > 0 {
            for i in count..room {
                // SAFETY: see above.
                unsafe { answer.add(i).write_volatile(0) }
            }
        }
    }
}

pub fn reads_beyond_first(memory: &Memory) {
    if memory.second.is_some() {
        look(memory.sheet.wrapping_add(memory.bytes));
    }
}

pub fn reads_beyond_second(memory: &Memory) {
    if let Some((sheet, bytes)) = memory.second {
        look(sheet.wrapping_add(bytes));
    }
}

pub fn reads_before_second(memory: &Memory) {
    if let Some((sheet, _)) = memory.second {
        look(sheet.wrapping_sub(1));
    }
}

/// A sheet is written to and put back as it was.
pub fn sheets_borrowed(memory: &Memory) {
    if let Some((sheet, 1..)) = memory.second {
        flip(sheet.cast_mut());
        flip(sheet.cast_mut());
    }
}

/// The last byte of the second sheet, unless something is refused.
pub fn second_changed(memory: &Memory) {
    if let Some((sheet, bytes @ 1..)) = memory.second {
        if memory.reply.number < REFUSED {
            flip(sheet.wrapping_add(bytes - 1).cast_mut());
        }
    }
}
