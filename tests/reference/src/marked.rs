//! The rows of "The marked sheets and their neighbours" in document 01, and
//! the output that it prints. Every expectation is copied from there; where it
//! prints a g but no N, N is taken from R2. The parts of N are document 02's, and so
//! are what became of A = p, the room of 393 words and the first sheet's count of
//! rational abscissas, and request E1's case; the other counts are those that PARI/GP gives.

use crate::call::{point_number, Call, Reply};
use crate::field::Field;
use crate::poly::Poly;
use crate::rules;
use crate::services::Point;
use crate::sheet::{word, Certificate, KernelSheet, Question, B, END, P, RATIONAL};

pub struct Row {
    pub name: &'static str,
    pub call: Call,
    pub reply: Reply,
}

/// What the answer program prints for the first question, with the word of request E6.
pub const PRINTED: [&str; 15] = [
    "100003f1", "20000001", "30000003", "40000109", "5000036d", "60000003", "7000002e", "800003da",
    "80000001", "900003b5", "900002a6", "900003c3", "90000001", "a0000001", "f0000000",
];

/// Request E5: the parts of N for the first question.
pub const PARTS: [[u64; 4]; 3] = [[891, 676, 825, 3], [46, 1007, 138, 1003], [12, 4, 0, 4]];

/// Coefficients from the constant term up, of any sign; one rational abscissa, as
/// every g has that is printed.
fn certificate(values: [u64; 7], g: &[i64], n: &[i64]) -> Certificate {
    let question = Question::of(values);
    let (field, d) = (question.field(), question.d());
    Certificate {
        question,
        g: Poly::of(field, g).padded(d + 1),
        n: Poly::of(field, n).padded(2 * d + 2),
        rational: 1,
    }
}

pub fn first() -> Certificate {
    let values = [1009, 1, 3, 265, 877, 3, 46];
    certificate(values, &[-23, 1], &[949, 678, 963, 1])
}

/// Degree 9; its kernel is not cyclic.
pub fn not_cyclic() -> Certificate {
    let g = [336, 12, 2, 0, 1];
    let n = rules::r2(1, 3, 9, 0, &Poly::of(Field::new(1009), &g));
    let n: Vec<i64> = n.coefficients().iter().map(|&c| c as i64).collect();
    certificate([1009, 1, 3, 81, 169, 9, 0], &g, &n)
}

/// Request E1's second map, from the first one's codomain. Its g comes from sigma, which
/// is 2r for g = x - r, and r = 871/2 = 940.
pub fn second() -> Certificate {
    let g = [-940, 1];
    let n = rules::r2(265, 877, 3, 871, &Poly::of(Field::new(1009), &g));
    let n: Vec<i64> = n.coefficients().iter().map(|&c| c as i64).collect();
    certificate([1009, 265, 877, 81, 169, 3, 871], &g, &n)
}

pub fn smallest() -> Certificate {
    certificate([11, 0, 1, 0, 6, 3, 0], &[0, 1], &[4, 0, 0, 1])
}

fn kernel_sheet(p: u64, a: u64, b: u64, l: u64, g: &[i64]) -> Vec<u32> {
    let g = Poly::of(Field::new(p), g).coefficients().to_vec();
    KernelSheet { p, a, b, l, g }.words()
}

pub fn rows() -> Vec<Row> {
    let mut rows = marked();
    rows.extend(neighbours());
    rows.extend(unreduced());
    rows.extend(rational());
    rows.extend(composed());
    rows
}

fn row(name: &'static str, call: Call, reply: Reply) -> Row {
    Row { name, call, reply }
}

fn solved(name: &'static str, answer: &Certificate) -> Row {
    let call = Call::solve(&answer.question.words());
    row(name, call, Reply::written(answer.words()))
}

fn unsolved(name: &'static str, values: [u64; 7], number: u32) -> Row {
    let call = Call::solve(&Question::of(values).words());
    row(name, call, Reply::refused(number))
}

fn checked(name: &'static str, certificate: &Certificate, number: u32) -> Row {
    let call = Call::check(&certificate.words());
    row(name, call, Reply::number(u64::from(number)))
}

fn pushed(name: &'static str, through: &Certificate, from: (u64, u64), to: Point) -> Row {
    let point = point_number(Point::Affine(from.0, from.1));
    let call = Call::push(&through.words(), point);
    row(name, call, Reply::number(point_number(to)))
}

fn marked() -> Vec<Row> {
    let common_factor = certificate([11, 0, 1, 0, 1, 3, 2], &[-1, 1], &[0, 1, 9, 1]);
    let wrong_codomain = certificate([11, 0, 1, 0, 7, 3, 0], &[0, 1], &[4, 0, 0, 1]);
    vec![
        solved("first question", &first()),
        unsolved("sigma = 48", [1009, 1, 3, 265, 877, 3, 48], 11),
        unsolved("b_t = 878", [1009, 1, 3, 265, 878, 3, 46], 11),
        solved("kernel not cyclic", &not_cyclic()),
        pushed(
            "(1008, 1) through the first",
            &first(),
            (1008, 1),
            Point::Affine(617, 44),
        ),
        solved("over 11", &smallest()),
        pushed("(2, 3) over 11", &smallest(), (2, 3), Point::Affine(3, 0)),
        pushed("(0, 1) over 11", &smallest(), (0, 1), Point::Infinity),
        row(
            "kernel g = x",
            Call::kernel(&kernel_sheet(11, 0, 1, 3, &[0, 1])),
            Reply::written(smallest().words()),
        ),
        row(
            "kernel g = x - 1",
            Call::kernel(&kernel_sheet(11, 0, 1, 3, &[-1, 1])),
            Reply::refused(11),
        ),
        checked("9 though R3 holds", &common_factor, 9),
        checked("wrong codomain", &wrong_codomain, 10),
        checked("first certificate", &first(), 0),
        checked("certificate of degree 9", &not_cyclic(), 0),
        checked("certificate over 11", &smallest(), 0),
    ]
}

fn neighbours() -> Vec<Row> {
    let mut ninth_word = first().question.words();
    ninth_word.push(word(END, 0));
    let mut composite = first().words();
    composite[0] = word(P, 1001);
    let mut singular = first().words();
    singular[1] = word(2, 0);
    singular[2] = word(B, 0);
    let leading_two = certificate(
        [1009, 1, 3, 265, 877, 3, 46],
        &[-23, 2],
        &[949, 678, 963, 1],
    );
    let tight = |room: usize| Call::Solve {
        sheet: first().question.words(),
        room,
    };
    let tight_kernel = |room: usize| Call::Kernel {
        sheet: first().kernel_sheet().words(),
        room,
    };
    vec![
        unsolved("p = 1001", [1001, 1, 3, 265, 877, 3, 46], 3),
        row(
            "p = 1001 on a certificate",
            Call::check(&composite),
            Reply::number(3),
        ),
        // a = b = 0 fails question 7, so question 4 was passed.
        unsolved("l = 5 over 11 passes question 4", [11, 0, 0, 0, 6, 5, 0], 7),
        unsolved("l = 7 over 11", [11, 0, 1, 0, 6, 7, 0], 4),
        unsolved("l = 7 over 11 before a = b = 0", [11, 0, 0, 0, 6, 7, 0], 4),
        unsolved("l = 6", [1009, 1, 3, 265, 877, 6, 46], 4),
        row("a ninth word", Call::solve(&ninth_word), Reply::refused(6)),
        unsolved("a = b = 0", [1009, 0, 0, 265, 877, 3, 46], 7),
        row(
            "a = b = 0 on a certificate",
            Call::check(&singular),
            Reply::number(7),
        ),
        checked("leading 2", &leading_two, 8),
        row(
            "leading 2 on a kernel sheet",
            Call::kernel(&kernel_sheet(1009, 1, 3, 3, &[-23, 2])),
            Reply::refused(8),
        ),
        row("a buffer of 391", tight(391), Reply::refused(1)),
        row("a buffer of 392", tight(392), Reply::refused(1)),
        row(
            "a buffer of 393",
            tight(393),
            Reply::written(first().words()),
        ),
        row(
            "a buffer of 392 for kernel",
            tight_kernel(392),
            Reply::refused(1),
        ),
        row(
            "name of (1, 3) over 1009",
            Call::Name {
                p: 1009,
                a: 1,
                b: 3,
            },
            Reply::number(269),
        ),
    ]
}

/// Request E2: A = p is A = 0 on a question, and p + 1 is 1 on a kernel sheet. On a
/// certificate, and for name, A = p is refused as document 01 has it.
fn unreduced() -> Vec<Row> {
    let kernel = KernelSheet {
        p: 11,
        a: 11,
        b: 12,
        l: 3,
        g: vec![11, 12],
    };
    let mut large = first();
    large.question.a = 1009;
    let large_name = Call::Name {
        p: 1009,
        a: 1009,
        b: 3,
    };
    vec![
        row(
            "a = p over 11",
            Call::solve(&Question::of([11, 11, 1, 0, 6, 3, 0]).words()),
            Reply::written(smallest().words()),
        ),
        // a = 0 wants 15 s_2 = 5 h_1 = -265, but sigma = 46 makes s_2 = 2 * 23^2.
        unsolved("a = p over 1009", [1009, 1009, 3, 265, 877, 3, 46], 11),
        unsolved("a = b = p", [1009, 1009, 1009, 265, 877, 3, 46], 7),
        row(
            "kernel with values from p on",
            Call::kernel(&kernel.words()),
            Reply::written(smallest().words()),
        ),
        checked("a = p on a certificate", &large, 5),
        row("a = p for name", large_name, Reply::refused(5)),
    ]
}

/// Request E6: a count of any size that is not the right one gets 9, the word in
/// another place, or another number of times, gets 6.
fn rational() -> Vec<Row> {
    let changed = |change: fn(&mut Vec<u32>)| {
        let mut words = first().words();
        change(&mut words);
        Call::check(&words)
    };
    let claims = |rational: u64| {
        let certificate = Certificate {
            rational,
            ..first()
        };
        Call::check(&certificate.words())
    };
    let mut wrong_n = first();
    (wrong_n.n[0], wrong_n.rational) = (950, 0);
    let mut wrong_codomain = first();
    (wrong_codomain.question.b_t, wrong_codomain.rational) = (878, 2);
    vec![
        row("count 0", claims(0), Reply::number(9)),
        row("count 2", claims(2), Reply::number(9)),
        row("count p", claims(1009), Reply::number(9)),
        row("count p + 1", claims(1010), Reply::number(9)),
        row("count 2^28 - 1", claims((1 << 28) - 1), Reply::number(9)),
        checked("N and count wrong", &wrong_n, 9),
        checked("codomain and count wrong", &wrong_codomain, 9),
        row(
            "without the count",
            changed(|words| {
                words.remove(13);
            }),
            Reply::number(6),
        ),
        row(
            "the count twice",
            changed(|words| words.insert(13, word(RATIONAL, 1))),
            Reply::number(6),
        ),
        row(
            "the count before N",
            changed(|words| words[9..14].rotate_right(1)),
            Reply::number(6),
        ),
        row(
            "the count after the end",
            changed(|words| words.swap(13, 14)),
            Reply::number(6),
        ),
    ]
}

/// Request E1's case, what its questions 13 and 14 refuse beside it, and its room, which
/// is that of request E6.
fn composed() -> Vec<Row> {
    let (first, second, smallest) = (first().words(), second().words(), smallest().words());
    let compose = |room: usize| Call::Compose {
        first: first.clone(),
        second: second.clone(),
        room,
    };
    let whole = Reply::written(not_cyclic().words());
    let refused = |name, first: &[u32], second: &[u32], number| {
        row(name, Call::compose(first, second), Reply::refused(number))
    };
    // g = x takes (0, b) to (0, -27b); 2 * 9 - 1 is not below 11.
    let meets = certificate([11, 0, 6, 0, 3, 3, 0], &[0, 1], &[2, 0, 0, 1]).words();
    let mut leading = second.clone();
    leading[8] = word(8, 2);
    vec![
        solved("the second map", &self::second()),
        row("two maps as one", compose(393), whole.clone()),
        row("two maps as one, more room", compose(394), whole),
        row("two maps in a room of 392", compose(392), Reply::refused(1)),
        refused("the second map first", &second, &first, 13),
        refused("the first map twice", &first, &first, 13),
        refused("maps over two primes", &first, &smallest, 13),
        refused("degree 9 over 11", &smallest, &meets, 14),
        refused("the second has leading 2", &first, &leading, 8),
        refused("the first has leading 2", &leading, &smallest[1..], 8),
    ]
}
