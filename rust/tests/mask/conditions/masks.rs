//! Masks, their values, and shares.

use super::{Row, bits, done, mask, ok};
use row_mask::{Fraction, Mask, MaskValues};

const MAX: usize = usize::MAX;

/// A mask of five values, three of them true.
fn five() -> Mask {
    mask("10110")
}

fn values() -> MaskValues {
    five().values().unwrap().try_clone().unwrap()
}

fn share(num: usize, den: usize) -> Fraction {
    Fraction { num, den }
}

fn with_ranges(text: &str, ranges: &[(usize, usize)]) {
    ok(Mask::try_from_buffer_with_slices(bits(text), ranges.to_vec()));
}

fn common(lhs: &[usize], rhs: &[usize]) {
    ok(Mask::try_from_intersection_indices(9, lhs.iter().copied(), rhs.iter().copied()));
}

/// Conditions of calls by hand.
pub const BY_HAND: &[Row] = &[
    (
        "Mask::try_threshold_iter",
        "",
        "`threshold_iter` needs `den > 0`: ",
        &[
            (|| ok(five().try_threshold_iter(0, 0)), "0 is not above 0"),
            (|| ok(Mask::AllTrue(5).try_threshold_iter(1, 0)), "0 is not above 0"),
        ],
        &[|| ok(five().try_threshold_iter(0, 1)), || ok(five().try_threshold_iter(MAX, 1))],
    ),
    (
        "MaskValues::try_threshold_iter",
        "",
        "`threshold_iter` needs `den > 0`: ",
        &[
            (|| ok(values().try_threshold_iter(0, 0)), "0 is not above 0"),
            (|| ok(values().try_threshold_iter(MAX, 0)), "0 is not above 0"),
        ],
        &[|| ok(values().try_threshold_iter(0, 1)), || ok(values().try_threshold_iter(MAX, MAX))],
    ),
];

pub const ROWS: &[Row] = &[
    (
        "Mask::value",
        "",
        "`value` needs `index < self.len()`: ",
        &[
            (|| done(five().value(5)), "5 is not below 5"),
            (|| done(Mask::AllTrue(5).value(5)), "5 is not below 5"),
            (|| done(Mask::AllFalse(5).value(MAX)), "18446744073709551615 is not below 5"),
            (|| done(Mask::AllTrue(0).value(0)), "0 is not below 0"),
        ],
        &[
            || done(five().value(4)),
            || done(Mask::AllTrue(5).value(4)),
            || done(Mask::AllFalse(5).value(4)),
        ],
    ),
    (
        "MaskValues::value",
        "",
        "`value` needs `index < self.len()`: ",
        &[
            (|| done(values().value(5)), "5 is not below 5"),
            (|| done(values().value(MAX)), "18446744073709551615 is not below 5"),
        ],
        &[|| {
            done(values().value(4));
        }],
    ),
    (
        "Mask::rank",
        "",
        "`rank`: Rank ",
        &[
            (|| done(five().rank(3)), "3 out of bounds for mask with true count 3"),
            (
                || done(five().rank(MAX)),
                "18446744073709551615 out of bounds for mask with true count 3",
            ),
            (|| done(Mask::AllTrue(5).rank(5)), "5 out of bounds for mask with true count 5"),
            (|| done(Mask::AllFalse(5).rank(0)), "0 out of bounds for mask with true count 0"),
        ],
        &[|| done(five().rank(2)), || done(Mask::AllTrue(5).rank(4))],
    ),
    (
        "Mask::count_range",
        "ordered",
        "`count_range` needs `start <= end`: ",
        &[
            (|| done(five().count_range(1, 0)), "1 is not at most 0"),
            (
                || done(Mask::AllTrue(5).count_range(MAX, 5)),
                "18446744073709551615 is not at most 5",
            ),
        ],
        &[|| done(five().count_range(0, 0)), || done(Mask::AllTrue(5).count_range(5, 5))],
    ),
    (
        "Mask::count_range",
        "within",
        "`count_range` needs `end <= self.len()`: ",
        &[
            (|| done(five().count_range(0, 6)), "6 is not at most 5"),
            (|| done(Mask::AllTrue(5).count_range(6, 6)), "6 is not at most 5"),
        ],
        &[|| done(five().count_range(0, 5)), || done(Mask::AllTrue(5).count_range(5, 5))],
    ),
    (
        "Mask::try_valid_counts_for_indices",
        "ascending",
        "`valid_counts_for_indices` needs each of `indices` at least the one before it: ",
        &[
            (|| ok(five().try_valid_counts_for_indices(&[1, 0])), "item 1 is 0, not at least 1"),
            (
                || ok(five().try_valid_counts_for_indices(&[0, 5, 5, 4])),
                "item 3 is 4, not at least 5",
            ),
            (
                || ok(Mask::AllTrue(5).try_valid_counts_for_indices(&[5, 4])),
                "item 1 is 4, not at least 5",
            ),
        ],
        &[
            || ok(five().try_valid_counts_for_indices(&[0, 0, 5, 5])),
            || ok(five().try_valid_counts_for_indices(&[])),
        ],
    ),
    (
        "Mask::try_valid_counts_for_indices",
        "within",
        "`valid_counts_for_indices`: Row indices exceed array length: ",
        &[
            (|| ok(five().try_valid_counts_for_indices(&[0, 6])), "item 1 is 6, not at most 5"),
            (
                || ok(Mask::AllTrue(5).try_valid_counts_for_indices(&[6])),
                "item 0 is 6, not at most 5",
            ),
            (
                || ok(Mask::AllFalse(5).try_valid_counts_for_indices(&[5, MAX])),
                "item 1 is 18446744073709551615, not at most 5",
            ),
        ],
        &[
            || ok(five().try_valid_counts_for_indices(&[0, 5])),
            || ok(Mask::AllFalse(5).try_valid_counts_for_indices(&[5])),
        ],
    ),
    (
        "Mask::try_slice",
        "ordered",
        "`slice` needs `start <= end`: ",
        &[
            (|| ok(five().try_slice(1, 0)), "1 is not at most 0"),
            (|| ok(Mask::AllTrue(5).try_slice(5, 4)), "5 is not at most 4"),
            (|| ok(five().try_slice(MAX, 5)), "18446744073709551615 is not at most 5"),
        ],
        &[
            || ok(five().try_slice(0, 0)),
            || ok(Mask::AllTrue(5).try_slice(5, 5)),
            || ok(five().try_slice(4, 5)),
        ],
    ),
    (
        "Mask::try_slice",
        "within",
        "`slice` needs `end <= self.len()`: ",
        &[
            (|| ok(five().try_slice(0, 6)), "6 is not at most 5"),
            (|| ok(Mask::AllTrue(5).try_slice(6, 6)), "6 is not at most 5"),
            (|| ok(five().try_slice(5, MAX)), "18446744073709551615 is not at most 5"),
        ],
        &[|| ok(five().try_slice(0, 5)), || ok(Mask::AllFalse(5).try_slice(5, 5))],
    ),
    (
        "Mask::try_groups",
        "",
        "`groups` needs `size > 0`: ",
        &[
            (|| ok(five().try_groups(0)), "0 is not above 0"),
            (|| ok(Mask::AllTrue(0).try_groups(0)), "0 is not above 0"),
        ],
        &[
            || ok(five().try_groups(1)),
            || ok(five().try_groups(MAX)),
            || ok(Mask::AllTrue(0).try_groups(1)),
        ],
    ),
    (
        "Mask::try_choose",
        "",
        "`choose` needs `rows.len() == self.len()`: ",
        &[
            (|| ok(five().try_choose(&[0; 4])), "4 is not 5"),
            (|| ok(five().try_choose(&[0; 6])), "6 is not 5"),
            (|| ok(Mask::AllTrue(1).try_choose(&[0; 2])), "2 is not 1"),
            (|| ok(Mask::AllFalse(1).try_choose::<u8>(&[])), "0 is not 1"),
        ],
        &[
            || ok(five().try_choose(&[0; 5])),
            || ok(Mask::AllTrue(1).try_choose(&[0])),
            || ok(mask("").try_choose::<u8>(&[])),
        ],
    ),
    (
        "Mask::try_choose_values",
        "",
        "`choose_values` needs `of.len() == self.len()`: ",
        &[
            (|| ok(five().try_choose_values(&mask("1011"))), "4 is not 5"),
            (|| ok(five().try_choose_values(&Mask::AllTrue(6))), "6 is not 5"),
            (|| ok(Mask::AllFalse(6).try_choose_values(&five())), "5 is not 6"),
        ],
        &[
            || ok(five().try_choose_values(&mask("10111"))),
            || ok(five().try_choose_values(&Mask::AllTrue(5))),
        ],
    ),
    (
        "Mask::try_and_rows",
        "",
        "`and_rows` needs `rows.len() == self.len()`: ",
        &[
            (|| ok(five().try_and_rows(&[0; 4], |it| *it == 0)), "4 is not 5"),
            (|| ok(Mask::AllTrue(5).try_and_rows(&[0; 6], |it| *it == 0)), "6 is not 5"),
            (|| ok(Mask::AllFalse(1).try_and_rows(&[0; 0], |it| *it == 0)), "0 is not 1"),
        ],
        &[
            || ok(five().try_and_rows(&[0; 5], |it| *it == 0)),
            || ok(Mask::AllTrue(1).try_and_rows(&[0], |it| *it == 0)),
            || ok(mask("").try_and_rows(&[0; 0], |it| *it == 0)),
        ],
    ),
    (
        "Mask::try_bitand",
        "",
        "`bitand`: Masks must have the same length: ",
        &[
            (|| ok(five().try_bitand(&mask("1011"))), "5 is not 4"),
            (|| ok(five().try_bitand(&Mask::AllTrue(6))), "5 is not 6"),
            (|| ok(Mask::AllTrue(4).try_bitand(&five())), "4 is not 5"),
        ],
        &[|| ok(five().try_bitand(&mask("10111"))), || ok(five().try_bitand(&Mask::AllTrue(5)))],
    ),
    (
        "Mask::try_bitor",
        "",
        "`bitor`: Masks must have the same length: ",
        &[
            (|| ok(five().try_bitor(&mask("1011"))), "5 is not 4"),
            (|| ok(five().try_bitor(&Mask::AllFalse(6))), "5 is not 6"),
            (|| ok(Mask::AllFalse(4).try_bitor(&five())), "4 is not 5"),
        ],
        &[|| ok(five().try_bitor(&mask("10111"))), || ok(five().try_bitor(&Mask::AllFalse(5)))],
    ),
    (
        "Mask::try_to_bitand_not",
        "",
        "`to_bitand_not`: Masks must have the same length: ",
        &[
            (|| ok(five().try_to_bitand_not(&mask("1011"))), "5 is not 4"),
            (|| ok(five().try_to_bitand_not(&Mask::AllFalse(6))), "5 is not 6"),
            (|| ok(Mask::AllTrue(4).try_to_bitand_not(&five())), "4 is not 5"),
        ],
        &[
            || ok(five().try_to_bitand_not(&mask("10111"))),
            || ok(five().try_to_bitand_not(&Mask::AllFalse(5))),
        ],
    ),
    (
        "Mask::try_into_bitand",
        "",
        "`into_bitand`: Masks must have the same length: ",
        &[
            (|| ok(five().try_into_bitand(&mask("1011"))), "5 is not 4"),
            (|| ok(five().try_into_bitand(&Mask::AllTrue(6))), "5 is not 6"),
            (|| ok(Mask::AllTrue(4).try_into_bitand(&five())), "4 is not 5"),
        ],
        &[
            || ok(five().try_into_bitand(&mask("10111"))),
            || ok(five().try_into_bitand(&Mask::AllTrue(5))),
        ],
    ),
    (
        "Mask::try_into_bitor",
        "",
        "`into_bitor`: Masks must have the same length: ",
        &[
            (|| ok(five().try_into_bitor(&mask("1011"))), "5 is not 4"),
            (|| ok(five().try_into_bitor(&Mask::AllFalse(6))), "5 is not 6"),
            (|| ok(Mask::AllFalse(4).try_into_bitor(&five())), "4 is not 5"),
        ],
        &[
            || ok(five().try_into_bitor(&mask("10111"))),
            || ok(five().try_into_bitor(&Mask::AllFalse(5))),
        ],
    ),
    (
        "Mask::try_bitand_not",
        "",
        "`bitand_not`: Masks must have the same length: ",
        &[
            (|| ok(five().try_bitand_not(&mask("1011"))), "5 is not 4"),
            (|| ok(five().try_bitand_not(&Mask::AllFalse(6))), "5 is not 6"),
            (|| ok(Mask::AllTrue(4).try_bitand_not(&five())), "4 is not 5"),
        ],
        &[
            || ok(five().try_bitand_not(&mask("10111"))),
            || ok(five().try_bitand_not(&Mask::AllFalse(5))),
        ],
    ),
    (
        "Fraction::at_least",
        "den",
        "`at_least` needs `self.den > 0`: ",
        &[
            (|| done(share(1, 0).at_least(share(1, 2))), "0 is not above 0"),
            (|| done(share(0, 0).at_least(share(0, 0))), "0 is not above 0"),
        ],
        &[
            || done(share(1, 1).at_least(share(1, 1))),
            || done(share(MAX, MAX).at_least(share(0, MAX))),
        ],
    ),
    (
        "Fraction::at_least",
        "other_den",
        "`at_least` needs `other.den > 0`: ",
        &[
            (|| done(share(1, 2).at_least(share(1, 0))), "0 is not above 0"),
            (|| done(share(0, 1).at_least(share(0, 0))), "0 is not above 0"),
        ],
        &[|| done(share(0, 1).at_least(share(1, 1)))],
    ),
    (
        "Mask::try_from_buffer_with_slices",
        "",
        "`from_buffer_with_slices`",
        &[
            // empty, turned round, past the end
            (
                || with_ranges("0110", &[(0, 0), (1, 3)]),
                " needs slices with `start < end` and `end <= 4`: got (0, 0)",
            ),
            (
                || with_ranges("0110", &[(3, 1)]),
                " needs slices with `start < end` and `end <= 4`: got (3, 1)",
            ),
            (
                || with_ranges("0111", &[(1, 5)]),
                " needs slices with `start < end` and `end <= 4`: got (1, 5)",
            ),
            (
                || with_ranges("0111", &[(1, MAX)]),
                " needs slices with `start < end` and `end <= 4`: got (1, 18446744073709551615)",
            ), // one over another, a later one first
            (
                || with_ranges("0110", &[(1, 3), (2, 3)]),
                ": Slices must be non-overlapping, got (1, 3) and (2, 3)",
            ),
            (
                || with_ranges("0111", &[(1, 3), (2, 3)]),
                ": Slices must be non-overlapping, got (1, 3) and (2, 3)",
            ),
            (
                || with_ranges("1011", &[(2, 4), (0, 1)]),
                ": Slices must be sorted, got (2, 4) and (0, 1)",
            ), // a true value left out, a false one held
            (
                || with_ranges("0110", &[(1, 2)]),
                ": Slices must cover every set bit of the buffer: 1 is not 2",
            ),
            (
                || with_ranges("0110", &[]),
                ": Slices must cover every set bit of the buffer: 0 is not 2",
            ),
            (|| with_ranges("0110", &[(1, 4)]), ": Slice (1, 4) is not fully set in the buffer"),
            (|| with_ranges("0000", &[(0, 1)]), ": Slice (0, 1) is not fully set in the buffer"),
            (|| with_ranges("1010", &[(0, 2)]), ": Slice (0, 2) is not fully set in the buffer"),
        ],
        &[
            || with_ranges("0110", &[(1, 3)]),
            || with_ranges("0110", &[(1, 2), (2, 3)]),
            || with_ranges("1011", &[(0, 1), (2, 4)]),
            || with_ranges("0000", &[]),
            || with_ranges("", &[]),
            || with_ranges(&"1".repeat(200), &[(0, 100), (100, 200)]),
        ],
    ),
    (
        "Mask::try_from_intersection_indices",
        "lhs_ascends",
        "`from_intersection_indices` needs each of `lhs` above the one before it: ",
        &[
            (|| common(&[1, 1], &[]), "item 1 is 1, not above 1"),
            (|| common(&[2, 1], &[1]), "item 1 is 1, not above 2"),
            (|| common(&[0, 1, 2, 3, 3], &[0, 1]), "item 4 is 3, not above 3"),
            (|| common(&[0, 100, 99], &[0]), "item 2 is 99, not above 100"),
        ],
        &[|| common(&[0, 1, 8, 100], &[1]), || common(&[], &[]), || common(&[MAX], &[0])],
    ),
    (
        "Mask::try_from_intersection_indices",
        "rhs_ascends",
        "`from_intersection_indices` needs each of `rhs` above the one before it: ",
        &[
            (|| common(&[], &[1, 1]), "item 1 is 1, not above 1"),
            (|| common(&[1], &[2, 1]), "item 1 is 1, not above 2"),
            (|| common(&[0, 1], &[0, 1, 2, 3, 3]), "item 4 is 3, not above 3"),
            (|| common(&[0], &[0, 100, 99]), "item 2 is 99, not above 100"),
        ],
        &[|| common(&[1], &[0, 1, 8, 100]), || common(&[0], &[MAX])],
    ),
    (
        "Mask::try_intersect_by_rank",
        "",
        "`intersect_by_rank` needs a rank mask as long as the mask's count of true values: ",
        &[
            (|| ok(five().try_intersect_by_rank(&mask("10"))), "2 is not 3"),
            (|| ok(five().try_intersect_by_rank(&mask("1011"))), "4 is not 3"),
            (|| ok(five().try_intersect_by_rank(&Mask::AllTrue(5))), "5 is not 3"),
            (|| ok(Mask::AllFalse(5).try_intersect_by_rank(&Mask::AllFalse(1))), "1 is not 0"),
        ],
        &[
            || ok(five().try_intersect_by_rank(&mask("101"))),
            || ok(five().try_intersect_by_rank(&Mask::AllTrue(3))),
            || ok(Mask::AllFalse(5).try_intersect_by_rank(&Mask::AllTrue(0))),
        ],
    ),
    (
        "Mask::try_intersect_by_rank_counted",
        "",
        "`intersect_by_rank_counted` needs a rank mask as long as the mask's count of true values: ",
        &[
            (|| ok(five().try_intersect_by_rank_counted(&mask("10"))), "2 is not 3"),
            (|| ok(five().try_intersect_by_rank_counted(&mask("1011"))), "4 is not 3"),
            (
                || ok(Mask::AllTrue(5).try_intersect_by_rank_counted(&Mask::AllFalse(4))),
                "4 is not 5",
            ),
        ],
        &[
            || ok(five().try_intersect_by_rank_counted(&mask("101"))),
            || ok(Mask::AllTrue(5).try_intersect_by_rank_counted(&five())),
        ],
    ),
    (
        "Mask::try_intersect_all_by_rank",
        "",
        "`intersect_all_by_rank` needs each mask as long as the one before it has true values: ",
        &[
            (|| ok(five().try_intersect_all_by_rank(&[mask("10")])), "item 0 has length 2, not 3"),
            (
                || ok(five().try_intersect_all_by_rank(&[mask("101"), mask("1")])),
                "item 1 has length 1, not 2",
            ),
            (
                || ok(five().try_intersect_all_by_rank(&[mask("101"), mask("101")])),
                "item 1 has length 3, not 2",
            ),
            (
                || ok(five().try_intersect_all_by_rank(&[mask("101"), mask("10"), mask("10")])),
                "item 2 has length 2, not 1",
            ),
            (
                || ok(five().try_intersect_all_by_rank(&[mask("000"), mask("1")])),
                "item 1 has length 1, not 0",
            ),
        ],
        &[
            || ok(five().try_intersect_all_by_rank(&[])),
            || ok(five().try_intersect_all_by_rank(&[mask("101"), mask("10"), mask("1")])),
            || ok(five().try_intersect_all_by_rank(&[mask("000"), mask("")])),
        ],
    ),
];
