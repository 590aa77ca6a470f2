//! Leximin by steps against the search through every allotment, on small problems where equal
//! sizes abound: every total that is passed on the way to the house has its least list.

use reference::*;

/// Moves from the start to the house by one seat at a time and compares each placing on the way with
/// the search.
fn compare_on_the_way(populations: &[u64], house: u64) {
    let mut placing = open(populations, house).unwrap();
    loop {
        let seats = &placing.seats[..populations.len()];
        let least = search(populations, house, placing.total);
        assert_eq!(
            Some(seats),
            least.as_deref(),
            "{populations:?} with a house of {house} at {}",
            placing.total
        );
        if placing.advance(1).unwrap() == 0 {
            assert_eq!(placing.total, house);
            return;
        }
    }
}

/// Every list of a given length with populations from 1 to a limit, times a factor each.
fn each_list(states: u32, limit: u64, mut visit: impl FnMut(&[u64])) {
    for code in 0..limit.pow(states) {
        let list: Vec<u64> = (0..states)
            .map(|k| 1 + code / limit.pow(k) % limit)
            .collect();
        visit(&list);
    }
}

#[test]
fn two_and_three_states() {
    each_list(2, 14, |list| {
        for house in 2..=16 {
            compare_on_the_way(list, house);
        }
    });
    each_list(3, 8, |list| {
        for house in 3..=11 {
            compare_on_the_way(list, house);
        }
    });
}

#[test]
fn four_and_five_states() {
    each_list(4, 4, |list| {
        for house in 4..=9 {
            compare_on_the_way(list, house);
        }
    });
    each_list(5, 3, |list| {
        for house in 5..=9 {
            compare_on_the_way(list, house);
        }
    });
}

#[test]
fn populations_with_many_divisors() {
    let values = [84, 105, 126, 133, 140, 210, 238, 252];
    each_list(3, values.len() as u64, |list| {
        let populations: Vec<u64> = list.iter().map(|&k| values[k as usize - 1]).collect();
        for house in 3..=9 {
            compare_on_the_way(&populations, house);
        }
    });
}
