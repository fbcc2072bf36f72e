//! Buffers, their builder, and their words.

use super::{Row, bits, done, ok, thirds};
use row_mask::intersect_by_rank::RankBits;
use row_mask::{BitBuffer, BitBufferMut, BitChunks, Bytes, NullableBitBuffer, Ranks};

fn bytes() -> Bytes {
    Bytes::from(vec![0xA5; 2])
}

fn nullable(values: usize, validity: Option<usize>) -> NullableBitBuffer {
    NullableBitBuffer::new(thirds(values), validity.map(thirds))
}

fn builder() -> BitBufferMut {
    BitBufferMut::try_new_set(5).unwrap()
}

const MAX: usize = usize::MAX;

pub const ROWS: &[Row] = &[
    (
        "BitBuffer::new",
        "",
        "`new` needs `len <= 8 * bytes.len()`: ",
        &[
            (|| done(BitBuffer::new(bytes(), 17)), "17 is not at most 16"),
            (|| done(BitBuffer::new(Bytes::new(), 1)), "1 is not at most 0"),
            (
                || {
                    done(BitBuffer::new(bytes(), MAX));
                },
                "18446744073709551615 is not at most 16",
            ),
        ],
        &[|| done(BitBuffer::new(bytes(), 16)), || done(BitBuffer::new(Bytes::new(), 0))],
    ),
    (
        "BitBuffer::new_with_offset",
        "covered",
        "`new_with_offset` needs `offset + len <= 8 * bytes.len()`: ",
        &[
            (|| done(BitBuffer::new_with_offset(bytes(), 0, 17)), "17 is not at most 16"),
            (|| done(BitBuffer::new_with_offset(bytes(), 9, 8)), "17 is not at most 16"),
            (|| done(BitBuffer::new_with_offset(bytes(), 17, 0)), "17 is not at most 16"),
            (
                || done(BitBuffer::new_with_offset(bytes(), 1, MAX)),
                "18446744073709551616 is not at most 16",
            ),
            (
                || done(BitBuffer::new_with_offset(bytes(), MAX, 1)),
                "18446744073709551616 is not at most 16",
            ),
            (
                || done(BitBuffer::new_with_offset(bytes(), MAX, MAX)),
                "36893488147419103230 is not at most 16",
            ),
        ],
        &[
            || done(BitBuffer::new_with_offset(bytes(), 0, 16)),
            || done(BitBuffer::new_with_offset(bytes(), 9, 7)),
            || done(BitBuffer::new_with_offset(bytes(), 16, 0)),
        ],
    ),
    (
        "BitBuffer::new_with_offset",
        "fits",
        "`new_with_offset` needs `offset + len <= usize::MAX`: ",
        &[],
        &[
            || done(BitBuffer::new_with_offset(bytes(), 9, 7)),
            || done(BitBuffer::new_with_offset(bytes(), 0, 0)),
        ],
    ),
    (
        "NullableBitBuffer::new",
        "",
        "`new` needs `validity` as long as `values`: ",
        &[
            (|| done(nullable(2, Some(3))), "3 is not 2"),
            (|| done(nullable(1, Some(0))), "0 is not 1"),
        ],
        &[|| done(nullable(2, Some(2))), || done(nullable(2, None))],
    ),
    (
        "NullableBitBuffer::try_and_kleene",
        "",
        "`and_kleene` needs `self.len() == other.len()`: ",
        &[(|| ok(nullable(2, None).try_and_kleene(&nullable(3, None))), "2 is not 3")],
        &[|| ok(nullable(2, None).try_and_kleene(&nullable(2, Some(2))))],
    ),
    (
        "NullableBitBuffer::try_or_kleene",
        "",
        "`or_kleene` needs `self.len() == other.len()`: ",
        &[(|| ok(nullable(2, Some(2)).try_or_kleene(&nullable(3, None))), "2 is not 3")],
        &[|| ok(nullable(2, None).try_or_kleene(&nullable(2, Some(2))))],
    ),
    (
        "Ranks::count_below",
        "",
        "`count_below` needs a number up to that of all values: ",
        &[
            (|| done(Ranks::new(thirds(600)).count_below(601)), "601 is not at most 600"),
            (
                || done(Ranks::new(thirds(0)).count_below(MAX)),
                "18446744073709551615 is not at most 0",
            ),
        ],
        &[
            || done(Ranks::new(thirds(600)).count_below(600)),
            || done(Ranks::new(thirds(0)).count_below(0)),
        ],
    ),
    (
        "BitBuffer::try_from_vec",
        "",
        "`from_vec` needs `len <= 8 * bytes.len()`: ",
        &[
            (|| ok(BitBuffer::try_from_vec(vec![0; 2], 17)), "17 is not at most 16"),
            (|| ok(BitBuffer::try_from_vec(vec![], MAX)), "18446744073709551615 is not at most 0"),
        ],
        &[
            || ok(BitBuffer::try_from_vec(vec![0; 2], 16)),
            || ok(BitBuffer::try_from_vec(vec![], 0)),
        ],
    ),
    (
        "BitBuffer::try_from_indices",
        "",
        "`from_indices` needs each of `indices` below `len`: ",
        &[
            (|| ok(BitBuffer::try_from_indices(5, &[0, 5])), "item 1 is 5, not below 5"),
            (
                || ok(BitBuffer::try_from_indices(5, &[MAX, 0])),
                "item 0 is 18446744073709551615, not below 5",
            ),
            (|| ok(BitBuffer::try_from_indices(0, &[0])), "item 0 is 0, not below 0"),
        ],
        &[
            || ok(BitBuffer::try_from_indices(5, &[4, 0, 4])),
            || ok(BitBuffer::try_from_indices(0, &[])),
        ],
    ),
    (
        "BitBuffer::try_slice",
        "ordered",
        "`slice` needs `start <= end`: ",
        &[
            (|| ok(thirds(5).try_slice(1, 0)), "1 is not at most 0"),
            (|| ok(thirds(5).try_slice(5, 4)), "5 is not at most 4"),
            (|| ok(thirds(5).try_slice(MAX, 5)), "18446744073709551615 is not at most 5"),
        ],
        &[
            || ok(thirds(5).try_slice(0, 0)),
            || ok(thirds(5).try_slice(5, 5)),
            || ok(thirds(5).try_slice(4, 5)),
        ],
    ),
    (
        "BitBuffer::try_slice",
        "within",
        "`slice` needs `end <= self.len()`: ",
        &[
            (|| ok(thirds(5).try_slice(0, 6)), "6 is not at most 5"),
            (|| ok(thirds(5).try_slice(6, 6)), "6 is not at most 5"),
            (|| ok(thirds(5).try_slice(5, MAX)), "18446744073709551615 is not at most 5"),
        ],
        &[|| ok(thirds(5).try_slice(0, 5)), || ok(thirds(5).try_slice(5, 5))],
    ),
    (
        "BitBuffer::count_range",
        "ordered",
        "`count_range` needs `start <= end`: ",
        &[
            (|| done(thirds(5).count_range(1, 0)), "1 is not at most 0"),
            (|| done(thirds(5).count_range(MAX, 5)), "18446744073709551615 is not at most 5"),
        ],
        &[|| done(thirds(5).count_range(0, 0)), || done(thirds(5).count_range(5, 5))],
    ),
    (
        "BitBuffer::count_range",
        "within",
        "`count_range` needs `end <= self.len()`: ",
        &[
            (|| done(thirds(5).count_range(0, 6)), "6 is not at most 5"),
            (|| done(thirds(5).count_range(5, MAX)), "18446744073709551615 is not at most 5"),
        ],
        &[|| done(thirds(5).count_range(0, 5)), || done(thirds(5).count_range(4, 5))],
    ),
    (
        "BitBuffer::value",
        "",
        "`value` needs `i < self.len()`: ",
        &[
            (|| done(thirds(5).value(5)), "5 is not below 5"),
            (|| done(thirds(5).value(MAX)), "18446744073709551615 is not below 5"),
            (|| done(thirds(0).value(0)), "0 is not below 0"),
        ],
        &[|| done(thirds(5).value(4)), || done(thirds(5).value(0))],
    ),
    (
        "BitBuffer::first_from",
        "",
        "`first_from` needs `from <= self.len()`: ",
        &[
            (|| done(thirds(5).first_from(6, true)), "6 is not at most 5"),
            (|| done(thirds(65).first_from(MAX, false)), "18446744073709551615 is not at most 65"),
        ],
        &[|| done(thirds(5).first_from(5, true)), || done(thirds(0).first_from(0, false))],
    ),
    (
        "BitBuffer::try_indices",
        "",
        "`indices` needs `true_count == self.true_count()`: ",
        &[
            (|| ok(thirds(5).try_indices(1)), "1 is not 2"),
            (|| ok(thirds(5).try_indices(3)), "3 is not 2"),
            (|| ok(thirds(200).try_indices(66)), "66 is not 67"),
            (|| ok(thirds(200).try_indices(MAX)), "18446744073709551615 is not 67"),
        ],
        &[
            || ok(thirds(5).try_indices(2)),
            || ok(thirds(200).try_indices(67)),
            || ok(thirds(0).try_indices(0)),
        ],
    ),
    (
        "BitBuffer::try_bitand",
        "",
        "`bitand` needs `self.len() == other.len()`: ",
        &[
            (|| ok(bits("10").try_bitand(&bits("101"))), "2 is not 3"),
            (|| ok(bits("10").try_bitand(&bits("1"))), "2 is not 1"),
        ],
        &[|| ok(bits("10").try_bitand(&bits("01"))), || ok(bits("").try_bitand(&bits("")))],
    ),
    (
        "BitBuffer::try_bitor",
        "",
        "`bitor` needs `self.len() == other.len()`: ",
        &[
            (|| ok(bits("10").try_bitor(&bits("101"))), "2 is not 3"),
            (|| ok(bits("10").try_bitor(&bits("1"))), "2 is not 1"),
        ],
        &[|| ok(bits("10").try_bitor(&bits("01"))), || ok(bits("").try_bitor(&bits("")))],
    ),
    (
        "BitBuffer::try_bitand_not",
        "",
        "`bitand_not` needs `self.len() == other.len()`: ",
        &[
            (|| ok(bits("10").try_bitand_not(&bits("101"))), "2 is not 3"),
            (|| ok(bits("10").try_bitand_not(&bits("1"))), "2 is not 1"),
        ],
        &[|| ok(bits("10").try_bitand_not(&bits("01"))), || ok(bits("").try_bitand_not(&bits("")))],
    ),
    (
        "BitBuffer::try_into_bitand",
        "",
        "`into_bitand` needs `self.len() == other.len()`: ",
        &[
            (|| ok(bits("10").try_into_bitand(&bits("101"))), "2 is not 3"),
            (|| ok(bits("10").try_into_bitand(&bits("1"))), "2 is not 1"),
        ],
        &[
            || ok(bits("10").try_into_bitand(&bits("01"))),
            || ok(bits("").try_into_bitand(&bits(""))),
        ],
    ),
    (
        "BitBuffer::try_into_bitor",
        "",
        "`into_bitor` needs `self.len() == other.len()`: ",
        &[
            (|| ok(bits("10").try_into_bitor(&bits("101"))), "2 is not 3"),
            (|| ok(bits("10").try_into_bitor(&bits("1"))), "2 is not 1"),
        ],
        &[|| ok(bits("10").try_into_bitor(&bits("01"))), || ok(bits("").try_into_bitor(&bits("")))],
    ),
    (
        "BitBuffer::try_into_bitand_not",
        "",
        "`into_bitand_not` needs `self.len() == other.len()`: ",
        &[
            (|| ok(bits("10").try_into_bitand_not(&bits("101"))), "2 is not 3"),
            (|| ok(bits("10").try_into_bitand_not(&bits("1"))), "2 is not 1"),
        ],
        &[
            || ok(bits("10").try_into_bitand_not(&bits("01"))),
            || ok(bits("").try_into_bitand_not(&bits(""))),
        ],
    ),
    (
        "BitBuffer::try_choose_values",
        "",
        "`choose_values` needs `of.len() == self.len()`: ",
        &[
            (|| ok(bits("10").try_choose_values(&bits("101"))), "3 is not 2"),
            (|| ok(bits("10").try_choose_values(&bits("1"))), "1 is not 2"),
        ],
        &[
            || ok(bits("10").try_choose_values(&bits("01"))),
            || ok(bits("").try_choose_values(&bits(""))),
        ],
    ),
    (
        "BitBuffer::try_and_rows",
        "",
        "`and_rows` needs `rows.len() == self.len()`: ",
        &[
            (|| ok(bits("10").try_and_rows(&[0; 3], |it| *it == 0)), "3 is not 2"),
            (|| ok(bits("10").try_and_rows(&[0; 1], |it| *it == 0)), "1 is not 2"),
        ],
        &[
            || ok(bits("10").try_and_rows(&[0; 2], |it| *it == 0)),
            || ok(bits("").try_and_rows(&[0; 0], |it| *it == 0)),
        ],
    ),
    (
        "BitBufferMut::set",
        "",
        "`set` needs `i < self.len()`: ",
        &[
            (|| builder().set(5), "5 is not below 5"),
            (|| builder().set(MAX), "18446744073709551615 is not below 5"),
            (|| BitBufferMut::default().set(0), "0 is not below 0"),
        ],
        &[|| builder().set(4), || builder().set(0)],
    ),
    (
        "BitBufferMut::unset",
        "",
        "`unset` needs `i < self.len()`: ",
        &[
            (|| builder().unset(5), "5 is not below 5"),
            (|| builder().unset(MAX), "18446744073709551615 is not below 5"),
            (|| BitBufferMut::default().unset(0), "0 is not below 0"),
        ],
        &[|| builder().unset(4), || builder().unset(0)],
    ),
    (
        "BitBufferMut::try_append_n",
        "",
        "`append_n` needs `self.len() + n <= usize::MAX`: ",
        &[
            (
                || ok(builder().try_append_n(true, MAX - 4)),
                "18446744073709551616 is not at most 18446744073709551615",
            ),
            (
                || ok(builder().try_append_n(false, MAX)),
                "18446744073709551620 is not at most 18446744073709551615",
            ),
        ], // (there is no memory for as many)
        &[
            || assert!(builder().try_append_n(true, MAX - 5).is_err()),
            || ok(builder().try_append_n(true, 200)),
        ],
    ),
    (
        "BitBufferMut::try_append_buffer",
        "",
        "`append_buffer` needs `self.len() + other.len() <= usize::MAX`: ",
        &[],
        &[
            || ok(builder().try_append_buffer(&thirds(200))),
            || ok(builder().try_append_buffer(&bits(""))),
        ],
    ),
    (
        "BitBufferMut::try_push_word",
        "fits",
        "`push_word` needs `self.len() + count <= usize::MAX`: ",
        &[],
        &[
            || ok(builder().try_push_word(1, 64)),
            || ok(BitBufferMut::default().try_push_word(1, 0)),
        ],
    ),
    (
        "BitBufferMut::try_push_word",
        "few",
        "`push_word` needs `count <= 64`: ",
        &[
            (|| ok(builder().try_push_word(0, 65)), "65 is not at most 64"),
            (|| ok(builder().try_push_word(0, MAX)), "18446744073709551615 is not at most 64"),
        ],
        &[|| ok(builder().try_push_word(0, 64)), || ok(builder().try_push_word(0, 0))],
    ),
    (
        "BitChunks::new",
        "",
        "`new` needs `offset + len <= 8 * bytes.len()`: ",
        &[
            (|| done(BitChunks::new(&[0; 2], 0, 17)), "17 is not at most 16"),
            (|| done(BitChunks::new(&[0; 2], 9, 8)), "17 is not at most 16"),
            (|| done(BitChunks::new(&[0; 2], 17, 0)), "17 is not at most 16"),
            (|| done(BitChunks::new(&[0; 2], 1, MAX)), "18446744073709551616 is not at most 16"),
            (|| done(BitChunks::new(&[0; 2], MAX, 1)), "18446744073709551616 is not at most 16"),
        ],
        &[
            || done(BitChunks::new(&[0; 2], 0, 16)),
            || done(BitChunks::new(&[0; 2], 9, 7)),
            || done(BitChunks::new(&[0; 2], 16, 0)),
            || done(BitChunks::new(&[], 0, 0)),
        ],
    ),
    (
        "BitChunks::word",
        "",
        "`word` needs the index of a whole word: ",
        &[
            (|| done(thirds(130).chunks().word(2)), "2 is not below 2"),
            (|| done(thirds(63).chunks().word(0)), "0 is not below 0"),
            (|| done(thirds(130).chunks().word(MAX)), "18446744073709551615 is not below 2"),
        ],
        &[|| done(thirds(130).chunks().word(1)), || done(thirds(64).chunks().word(0))],
    ),
    (
        "BitChunks::started_word",
        "",
        "`started_word` needs the index of a started word: ",
        &[
            (|| done(thirds(130).chunks().started_word(3)), "3 is not below 3"),
            (|| done(thirds(128).chunks().started_word(2)), "2 is not below 2"),
            (|| done(thirds(0).chunks().started_word(0)), "0 is not below 0"),
            (
                || done(thirds(130).chunks().started_word(MAX)),
                "18446744073709551615 is not below 3",
            ),
        ],
        &[
            || done(thirds(130).chunks().started_word(2)),
            || done(thirds(128).chunks().started_word(1)),
        ],
    ),
    (
        "BitChunks::first_from",
        "",
        "`first_from` needs an index up to the number of values: ",
        &[
            (|| done(thirds(130).chunks().first_from(131, true)), "131 is not at most 130"),
            (
                || done(thirds(0).chunks().first_from(MAX, true)),
                "18446744073709551615 is not at most 0",
            ),
        ],
        &[
            || done(thirds(130).chunks().first_from(130, true)),
            || done(thirds(0).chunks().first_from(0, true)),
        ],
    ),
    (
        "RankBits::over",
        "",
        "`over` needs `offset + len <= 8 * bytes.len()`: ",
        &[
            (|| done(RankBits::over(&[0; 2], 0, 17)), "17 is not at most 16"),
            (|| done(RankBits::over(&[0; 2], 9, 8)), "17 is not at most 16"),
            (|| done(RankBits::over(&[0; 2], 17, 0)), "17 is not at most 16"),
            (|| done(RankBits::over(&[0; 2], MAX, 1)), "18446744073709551616 is not at most 16"),
        ],
        &[|| done(RankBits::over(&[0; 2], 9, 7)), || done(RankBits::over(&[0; 2], 16, 0))],
    ),
    (
        "RankBits::read",
        "",
        "`read` needs `offset` and the bits' own offset to fit a `usize`: ",
        &[
            (
                || done(RankBits::over(&[0; 2], 9, 7).read(MAX - 8)),
                "18446744073709551616 is not at most 18446744073709551615",
            ),
            (
                || done(RankBits::over(&[0; 2], 1, 0).read(MAX)),
                "18446744073709551616 is not at most 18446744073709551615",
            ),
        ],
        &[
            || done(RankBits::over(&[0; 2], 9, 7).read(MAX - 9)),
            || done(RankBits::over(&[0; 2], 0, 0).read(MAX)),
        ],
    ),
];
