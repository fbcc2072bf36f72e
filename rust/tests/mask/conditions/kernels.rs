//! Deposits, extracts and selections of a word, the steps that count them, and the kernels.

use super::{Row, bits, done, ok, thirds};
use row_mask::intersect_by_rank::{
    DepositBits, ExtractBits, Portable, PortableLoop, SelectBit, Steps, deposit_two_holes,
    deposit_two_lowest, intersect_bit_buffer_by_rank_indices, intersect_bit_buffers,
    intersect_by_rank_indices, intersect_mask_driven,
};

const MAX: usize = usize::MAX;

fn word_of_thirds(len: usize, i: usize) {
    done(Steps::new().word(&thirds(len).chunks(), i));
}

fn select(word: u64, rank: usize) {
    done(Portable::select_bit_position(word, rank));
}

/// The kernel over five values, of which three are true, by ranks that an iterator yields.
fn driven(ranks: &[usize], true_count: usize) {
    let ranks = ranks.iter().copied();
    ok(intersect_mask_driven::<Portable, _>(&bits("10110"), ranks, true_count));
}

fn at_ranks(ranks: &[usize]) {
    ok(intersect_bit_buffer_by_rank_indices::<Portable>(&bits("10110"), ranks));
}

fn by_bits(ranks: &str, true_count: usize) {
    ok(intersect_bit_buffers::<PortableLoop>(&bits("10110"), &bits(ranks), true_count));
}

fn by_lists(indices: &[usize], ranks: &[usize]) {
    ok(intersect_by_rank_indices(5, indices, ranks));
}

pub const ROWS: &[Row] = &[
    (
        "deposit_two_lowest",
        "",
        "`deposit_two_lowest` needs `mask.count_ones() <= 2`: ",
        &[
            (|| done(deposit_two_lowest(0, 0b111)), "3 is not at most 2"),
            (|| done(deposit_two_lowest(0, u64::MAX)), "64 is not at most 2"),
        ],
        &[|| done(deposit_two_lowest(1, 0b101)), || done(deposit_two_lowest(1, 0))],
    ),
    (
        "deposit_two_holes",
        "",
        "`deposit_two_holes` needs `mask.count_ones() >= 62`: ",
        &[
            (|| done(deposit_two_holes(0, !0b111)), "61 is not at least 62"),
            (|| done(deposit_two_holes(0, 0)), "0 is not at least 62"),
        ],
        &[|| done(deposit_two_holes(1, !0b101)), || done(deposit_two_holes(1, u64::MAX))],
    ),
    (
        "DepositBits::deposit_bits",
        "",
        "`deposit_bits` needs `mask_count == mask.count_ones()`: ",
        &[
            (|| done(Portable::deposit_bits(1, 0b1011, 2)), "2 is not 3"),
            (|| done(Portable::deposit_bits(1, 0b1011, 4)), "4 is not 3"),
            (|| done(PortableLoop::deposit_bits(1, 0b1011, 2)), "2 is not 3"),
            (|| done(PortableLoop::deposit_bits(1, 0, MAX)), "18446744073709551615 is not 0"),
        ],
        &[
            || done(Portable::deposit_bits(1, 0b1011, 3)),
            || done(PortableLoop::deposit_bits(1, u64::MAX, 64)),
        ],
    ),
    (
        "DepositBits::deposit_two",
        "counted_first",
        "`deposit_two` needs `mask_counts[0] == masks[0].count_ones()`: ",
        &[
            (|| done(Portable::deposit_two([1, 1], [0b1011, 0b1], [2, 1])), "2 is not 3"),
            (|| done(Portable::deposit_two([1, 1], [0b1011, 0b1], [4, 1])), "4 is not 3"),
            (
                || done(PortableLoop::deposit_two([1, 1], [0, 0b1], [MAX, 1])),
                "18446744073709551615 is not 0",
            ),
        ],
        &[|| done(Portable::deposit_two([1, 1], [0b1011, 0b1], [3, 1]))],
    ),
    (
        "DepositBits::deposit_two",
        "counted_second",
        "`deposit_two` needs `mask_counts[1] == masks[1].count_ones()`: ",
        &[
            (|| done(Portable::deposit_two([1, 1], [0b1, 0b1011], [1, 2])), "2 is not 3"),
            (|| done(Portable::deposit_two([1, 1], [0b1, 0b1011], [1, 4])), "4 is not 3"),
            (
                || done(PortableLoop::deposit_two([1, 1], [0b1, 0], [1, MAX])),
                "18446744073709551615 is not 0",
            ),
        ],
        &[|| done(PortableLoop::deposit_two([1, 1], [0b1, 0b1011], [1, 3]))],
    ),
    (
        "ExtractBits::extract_bits",
        "",
        "`extract_bits` needs `mask_count == mask.count_ones()`: ",
        &[
            (|| done(Portable::extract_bits(1, 0b1011, 2)), "2 is not 3"),
            (|| done(Portable::extract_bits(1, 0b1011, 4)), "4 is not 3"),
        ],
        &[|| done(Portable::extract_bits(1, 0b1011, 3)), || done(Portable::extract_bits(1, 0, 0))],
    ),
    (
        "SelectBit::select_bit_position",
        "",
        "`select_bit_position` needs `rank < word.count_ones()`: ",
        &[
            (|| select(0b1011, 3), "3 is not below 3"),
            (|| select(0, 0), "0 is not below 0"),
            (|| select(u64::MAX, 64), "64 is not below 64"),
            (|| select(1, MAX), "18446744073709551615 is not below 1"),
        ],
        &[|| select(0b1011, 2), || select(u64::MAX, 63), || select(1, 0)],
    ),
    (
        "Steps::deposit",
        "room",
        "`deposit` needs a count of deposits below `usize::MAX`: ",
        &[],
        &[|| done(Steps::new().deposit::<Portable>(1, 0b1011, 3))],
    ),
    (
        "Steps::deposit",
        "counted",
        "`deposit` needs `mask_count == mask.count_ones()`: ",
        &[
            (|| done(Steps::new().deposit::<Portable>(1, 0b1011, 2)), "2 is not 3"),
            (|| done(Steps::new().deposit::<Portable>(1, 0b1011, 4)), "4 is not 3"),
        ],
        &[|| done(Steps::new().deposit::<Portable>(1, 0b1011, 3))],
    ),
    (
        "Steps::word",
        "room",
        "`word` needs a count of words below `usize::MAX`: ",
        &[],
        &[|| word_of_thirds(130, 0)],
    ),
    (
        "Steps::word",
        "there",
        "`word` needs a word whose first value is there: ",
        &[
            (|| word_of_thirds(130, 3), "192 is not below 130"),
            (|| word_of_thirds(128, 2), "128 is not below 128"),
            (|| word_of_thirds(0, 0), "0 is not below 0"),
            (|| word_of_thirds(130, MAX), "1180591620717411303360 is not below 130"), // (64 times that is 0 in 64 bits)
            (|| word_of_thirds(130, 1 << 58), "18446744073709551616 is not below 130"),
        ],
        &[|| word_of_thirds(130, 2), || word_of_thirds(128, 1)],
    ),
    (
        "Steps::select",
        "room",
        "`select` needs a count of selections below `usize::MAX`: ",
        &[],
        &[|| done(Steps::new().select::<Portable>(0b1011, 2))],
    ),
    (
        "Steps::select",
        "inside",
        "`select` needs `rank < word.count_ones()`: ",
        &[
            (|| done(Steps::new().select::<Portable>(0b1011, 3)), "3 is not below 3"),
            (|| done(Steps::new().select::<Portable>(0, 0)), "0 is not below 0"),
            (
                || done(Steps::new().select::<Portable>(u64::MAX, MAX)),
                "18446744073709551615 is not below 64",
            ),
        ],
        &[|| done(Steps::new().select::<Portable>(0b1011, 2))],
    ),
    (
        "intersect_bit_buffers",
        "fitting",
        "`intersect_bit_buffers` needs `mask_buffer.len() == self_buffer.true_count()`: ",
        &[
            (|| by_bits("10", 1), "2 is not 3"),
            (|| by_bits("1011", 3), "4 is not 3"),
            (|| by_bits("", 0), "0 is not 3"),
        ],
        &[|| by_bits("101", 2), || by_bits("000", 0)],
    ),
    (
        "intersect_bit_buffers",
        "counted",
        "`intersect_bit_buffers` needs `true_count == mask_buffer.true_count()`: ",
        &[
            (|| by_bits("101", 1), "1 is not 2"),
            (|| by_bits("101", 3), "3 is not 2"),
            (|| by_bits("101", MAX), "18446744073709551615 is not 2"),
            (|| by_bits("000", 1), "1 is not 0"),
        ],
        &[|| by_bits("101", 2), || by_bits("111", 3)],
    ),
    (
        "intersect_by_rank_indices",
        "self_ascending",
        "`intersect_by_rank_indices` needs each of `self_indices` above the one before it: ",
        &[
            (|| by_lists(&[1, 1], &[0]), "item 1 is 1, not above 1"),
            (|| by_lists(&[2, 1], &[]), "item 1 is 1, not above 2"),
            (|| by_lists(&[0, 1, 3, 2], &[0]), "item 3 is 2, not above 3"),
        ],
        &[|| by_lists(&[0, 1, 4], &[0]), || by_lists(&[], &[])],
    ),
    (
        "intersect_by_rank_indices",
        "self_within",
        "`intersect_by_rank_indices` needs each of `self_indices` below `len`: ",
        &[
            (|| by_lists(&[0, 5], &[0]), "item 1 is 5, not below 5"),
            (|| by_lists(&[MAX], &[]), "item 0 is 18446744073709551615, not below 5"),
        ],
        &[|| by_lists(&[0, 4], &[0])],
    ),
    (
        "intersect_by_rank_indices",
        "mask_ascending",
        "`intersect_by_rank_indices` needs each of `mask_indices` above the one before it: ",
        &[
            (|| by_lists(&[0, 1, 4], &[1, 1]), "item 1 is 1, not above 1"),
            (|| by_lists(&[0, 1, 4], &[0, 2, 1]), "item 2 is 1, not above 2"),
        ],
        &[|| by_lists(&[0, 1, 4], &[0, 1, 2])],
    ),
    (
        "intersect_by_rank_indices",
        "mask_within",
        "`intersect_by_rank_indices` needs each of `mask_indices` below `self_indices.len()`: ",
        &[
            (|| by_lists(&[0, 1, 4], &[0, 3]), "item 1 is 3, not below 3"),
            (|| by_lists(&[], &[0]), "item 0 is 0, not below 0"),
            (|| by_lists(&[0, 1, 4], &[MAX]), "item 0 is 18446744073709551615, not below 3"),
        ],
        &[|| by_lists(&[0, 1, 4], &[2])],
    ),
    (
        "intersect_mask_driven",
        "",
        "`intersect_mask_driven` needs `true_count` ascending `mask_indices` below `self_buffer.true_count()`: ",
        &[
            (|| driven(&[0, 0], 2), "item 1 is 0, not above 0"),
            (|| driven(&[1, 0], 2), "item 1 is 0, not above 1"),
            (|| driven(&[0, 2, 1], 3), "item 2 is 1, not above 2"),
            (|| driven(&[0, 3], 2), "item 1 is 3, not below 3"),
            (|| driven(&[MAX], 1), "item 0 is 18446744073709551615, not below 3"),
            (|| driven(&[0, 1], 1), "there are 2, not 1"),
            (|| driven(&[0, 1], 3), "there are 2, not 3"),
            (|| driven(&[], 1), "there are 0, not 1"),
            (|| driven(&[], MAX), "there are 0, not 18446744073709551615"),
        ],
        &[|| driven(&[0, 2], 2), || driven(&[0, 1, 2], 3), || driven(&[], 0)],
    ),
    (
        "intersect_bit_buffer_by_rank_indices",
        "ascending",
        "`intersect_bit_buffer_by_rank_indices` needs each of `mask_indices` above the one before it: ",
        &[
            (|| at_ranks(&[0, 0]), "item 1 is 0, not above 0"),
            (|| at_ranks(&[1, 0]), "item 1 is 0, not above 1"),
            (|| at_ranks(&[0, 2, 1]), "item 2 is 1, not above 2"),
        ],
        &[|| at_ranks(&[0, 1, 2]), || at_ranks(&[])],
    ),
    (
        "intersect_bit_buffer_by_rank_indices",
        "within",
        "`intersect_bit_buffer_by_rank_indices` needs each of `mask_indices` below `self_buffer.true_count()`: ",
        &[
            (|| at_ranks(&[0, 3]), "item 1 is 3, not below 3"),
            (|| at_ranks(&[3]), "item 0 is 3, not below 3"),
            (|| at_ranks(&[MAX]), "item 0 is 18446744073709551615, not below 3"),
        ],
        &[|| at_ranks(&[0, 2])],
    ),
];
