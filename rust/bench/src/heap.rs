//! The best plain programs we know for the divisor methods and largest remainders, exact like the
//! reference but quicker: claims in small heaps, from nothing or from rounded seats.

use reference::{check_problem, Method};
use std::cmp::{Ordering, Reverse};
use std::collections::binary_heap::PeekMut;
use std::collections::BinaryHeap;

/// A quotient p / d(a) as a fraction of 64-bit numbers, squared under Hill, whose products fit in
/// 128 bits. Where d(a) is 0 the lower number is 0, and the quotient is above every other.
#[derive(Clone, Copy)]
struct Quotient {
    over: u64,
    under: u64,
}

impl Quotient {
    /// The quotient of a state of population p with a seats that wants one more.
    fn of(method: Method, p: u64, a: u64) -> Quotient {
        let (over, under) = match method {
            Method::Adams => (p, a),
            Method::Dean => (p * (2 * a + 1), 2 * a * (a + 1)),
            Method::Hill => (p * p, a * (a + 1)),
            Method::Webster => (2 * p, 2 * a + 1),
            Method::Jefferson => (p, a + 1),
            Method::Leximin | Method::Remainders | Method::Quota => {
                unreachable!("not a divisor method")
            }
        };
        Quotient { over, under }
    }

    fn order(&self, other: &Quotient) -> Ordering {
        let left = self.over as u128 * other.under as u128;
        let right = other.over as u128 * self.under as u128;
        left.cmp(&right)
    }
}

/// A state's claim to a seat. The greater one comes first: the larger quotient, of equal ones the
/// earlier state's.
#[derive(Clone, Copy)]
struct Claim {
    quotient: Quotient,
    state: usize,
}

impl Ord for Claim {
    fn cmp(&self, other: &Self) -> Ordering {
        let quotients = self.quotient.order(&other.quotient);
        quotients.then_with(|| other.state.cmp(&self.state))
    }
}

impl PartialOrd for Claim {
    fn partial_cmp(&self, other: &Self) -> Option<Ordering> {
        Some(self.cmp(other))
    }
}

impl PartialEq for Claim {
    fn eq(&self, other: &Self) -> bool {
        self.cmp(other) == Ordering::Equal
    }
}

impl Eq for Claim {}

/// A divisor method from nothing: the first H claims are met one by one.
pub fn from_nothing(method: Method, house: u64, populations: &[u64], seats: &mut [u64]) {
    check_problem(populations, house).expect("a sound problem");
    seats.fill(0);
    place(method, populations, seats, house);
}

/// A divisor method from the shares p × H / P, rounded as the method rounds.
pub fn from_rounded(method: Method, house: u64, populations: &[u64], seats: &mut [u64]) {
    from_aim(method, house, house, populations, seats);
}

/// Adams or Jefferson from rounded shares of a smaller or larger house: the one rounds up and the
/// other down, by half a seat a state on the average.
pub fn from_shifted(method: Method, house: u64, populations: &[u64], seats: &mut [u64]) {
    let half = populations.len() as u64 / 2;
    let aim = match method {
        Method::Adams => house - half,
        _ => house + half,
    };
    from_aim(method, house, aim, populations, seats);
}

/// All claims whose quotient is at least P / aim are met at once, and the others to the house are
/// met, or met ones given up, one by one.
fn from_aim(method: Method, house: u64, aim: u64, populations: &[u64], seats: &mut [u64]) {
    check_problem(populations, house).expect("a sound problem");
    let sum: u64 = populations.iter().sum();
    let least = match method {
        Method::Hill => Quotient {
            over: sum * sum,
            under: aim * aim,
        },
        _ => Quotient {
            over: sum,
            under: aim,
        },
    };
    let mut total = 0;
    for (seats, &p) in seats.iter_mut().zip(populations) {
        // d(a) lies from a to a + 1, so the claims below the whole part are met, and none above
        // it but perhaps the next.
        let whole = p * aim / sum;
        let one_more = Quotient::of(method, p, whole).order(&least).is_ge();
        *seats = whole + one_more as u64;
        total += *seats;
    }
    if total < house {
        place(method, populations, seats, house - total);
    } else if total > house {
        withdraw(method, populations, seats, total - house);
    }
}

/// Meets the next claims.
fn place(method: Method, populations: &[u64], seats: &mut [u64], count: u64) {
    let claim = |state: usize, seats: u64| Claim {
        quotient: Quotient::of(method, populations[state], seats),
        state,
    };
    let claims: Vec<Claim> = (0..seats.len()).map(|i| claim(i, seats[i])).collect();
    let mut claims = BinaryHeap::from(claims);
    for _ in 0..count {
        let mut first = claims.peek_mut().expect("every state has a claim");
        let i = first.state;
        seats[i] += 1;
        *first = claim(i, seats[i]);
    }
}

/// Gives up the last claims met.
fn withdraw(method: Method, populations: &[u64], seats: &mut [u64], count: u64) {
    let claim = |state: usize, seats: u64| {
        Reverse(Claim {
            quotient: Quotient::of(method, populations[state], seats - 1),
            state,
        })
    };
    let seated = (0..seats.len()).filter(|&i| seats[i] > 0);
    let claims: Vec<Reverse<Claim>> = seated.map(|i| claim(i, seats[i])).collect();
    let mut claims = BinaryHeap::from(claims);
    for _ in 0..count {
        let mut last = claims.peek_mut().expect("a claim that was met");
        let i = last.0.state;
        seats[i] -= 1;
        if seats[i] == 0 {
            PeekMut::pop(last);
        } else {
            *last = claim(i, seats[i]);
        }
    }
}

/// Largest remainders without sorting all of them: those with a seat are parted from the others.
/// Of equal remainders the larger population comes first, of equal populations the earlier state.
pub fn parted_remainders(_: Method, house: u64, populations: &[u64], seats: &mut [u64]) {
    check_problem(populations, house).expect("a sound problem");
    let sum: u64 = populations.iter().sum();
    let mut left = house;
    let mut remainders = Vec::with_capacity(seats.len());
    for (i, &p) in populations.iter().enumerate() {
        seats[i] = p * house / sum;
        left -= seats[i];
        remainders.push((Reverse((p * house % sum, p)), i));
    }
    if left > 0 {
        remainders.select_nth_unstable(left as usize);
        for &(_, i) in &remainders[..left as usize] {
            seats[i] += 1;
        }
    }
}
