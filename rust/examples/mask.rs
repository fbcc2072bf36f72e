//! Masks over rows: one that a second filter narrows, a stack of three filters over a table, and one that another
//! thread reads too.

use row_mask::Mask;
use std::thread;

#[derive(Clone, Copy)]
struct Order {
    number: u32,
    country: [u8; 2],
    amount: u32,
    is_paid: bool,
}

const ORDERS: [Order; 6] = [
    Order { number: 1, country: *b"NL", amount: 40, is_paid: true },
    Order { number: 2, country: *b"BE", amount: 90, is_paid: false },
    Order { number: 3, country: *b"NL", amount: 75, is_paid: false },
    Order { number: 4, country: *b"NL", amount: 20, is_paid: false },
    Order { number: 5, country: *b"NL", amount: 60, is_paid: true },
    Order { number: 6, country: *b"NL", amount: 95, is_paid: false },
];

fn main() {
    narrowed();
    shared(stacked());
}

/// A filter chooses the rows 0, 3, 4, 5 and 7 of eight. A second one ran over these five.
fn narrowed() {
    let both = mask("10011101").intersect_by_rank(&mask("00101"));
    println!("{both}");
    assert_eq!(both, mask("00001001"));
}

fn mask(values: &str) -> Mask {
    values.chars().map(|value| value == '1').collect()
}

/// Each predicate is asked of the orders that those before it kept. One mask stands for all three.
fn stacked() -> Mask {
    let is_dutch = Mask::from_rows(&ORDERS, |order| order.country == *b"NL");
    let dutch = is_dutch.choose(&ORDERS);
    let is_large = Mask::from_rows(&dutch, |order| order.amount > 50);
    let large = is_large.choose(&dutch);
    let is_open = Mask::from_rows(&large, |order| !order.is_paid);
    println!("{is_dutch} {is_large} {is_open}");
    assert_eq!([&is_dutch, &is_large, &is_open].map(Mask::to_string), ["101111", "01011", "101"]);

    let all = is_dutch.intersect_all_by_rank(&[is_large, is_open]);
    let numbers: Vec<u32> = all.choose(&ORDERS).iter().map(|order| order.number).collect();
    println!("{all} chooses {numbers:?}");
    assert_eq!(numbers, [3, 6]);
    all
}

/// A clone shares the bits, also with another thread.
fn shared(rows: Mask) {
    let theirs = rows.clone();
    let last = thread::spawn(move || theirs.last());
    let others = !rows;
    let last = last.join().expect("it only reads");
    println!("{others} are the others, and row {last:?} is the last");
    assert_eq!((others, last), (mask("110110"), Some(5)));
}
