//! What is refused, and by which words.

use super::Chosen;
use super::lent::{Column, Random};
use row_mask::Error;
use row_mask::arrow::{ArrowError, filter};
use std::ptr::null;

#[track_caller]
fn refused(column: &Column, chosen: &Chosen) -> ArrowError {
    // SAFETY: the column is as Arrow says, but for what is refused before it is read.
    unsafe { filter(&column.schema, &column.array, &chosen.rows) }.unwrap_err()
}

fn bad(what: &'static str) -> ArrowError {
    ArrowError::BadArray { column: "a".into(), what }
}

#[test]
fn other_formats_are_refused_by_name() {
    let others = [
        "n",
        "v",
        "vx",
        "vuu",
        "+ll",
        "+lu",
        "+vl",
        "+w:3",
        "+m",
        "+ud:0,1",
        "+us:0,1",
        "+r",
        "",
        "x",
        "cc",
        "bb",
        "w",
        "w:",
        "w:0",
        "w:03",
        "w:-1",
        "w:+1",
        "w:3x",
        "w:2147483648",
        "w:99999999999999999999",
        "d",
        "d:",
        "d:3",
        "d:3,1,",
        "d:3,1,7",
        "d:3,1,129",
        "d:x,y",
        "d:,",
        "d:3,",
        "d:,1",
        "d:x,1",
        "d:3,y",
        "d:0,1",
        "d:03,1",
        "d:-3,1",
        "d:+3,1",
        "d:3,-",
        "d:3,--1",
        "d:3,+1",
        "d:3, 1",
        "d:3,1,x",
        "d:3,1,-32",
        "d:3,1,032",
        "d:3,1,32,7",
        "d:3,1x32",
        "d:3,2147483648",
        "d:2147483648,1",
        "t",
        "td",
        "tdx",
        "tt",
        "ttx",
        "ts",
        "tsx:",
        "tss",
        "tD",
        "tDx",
        "ti",
        "tix",
        "+",
        "+S",
    ];
    let mut random = Random(5);
    let mut column = Column::new(&mut random, "i", 9, 3, 1);
    let mut parent = Column::new(&mut random, "+s", 9, 3, 1);
    let chosen = Chosen::new(&mut random, 9, 128);
    for format in others {
        let named = ArrowError::NotSupported { column: "a".into(), format: format.into() };
        column.set_format(format);
        assert_eq!(refused(&column, &chosen), named);
        parent.children[7].set_format(format);
        assert_eq!(refused(&parent, &chosen), named);
    }
    let text = "column 'a' of format 'tix' is not supported";
    column.set_format("tix");
    assert_eq!(refused(&column, &chosen).to_string(), text);
}

#[test]
fn numbers_that_do_not_fit_are_refused() {
    let mut random = Random(6);
    for format in ["i", "b", "w:37", "u", "Z", "+s"] {
        let mut column = Column::new(&mut random, format, 9, 3, 1);
        let chosen = Chosen::new(&mut random, 9, 128);
        let longer = Chosen::new(&mut random, 10, 128);
        assert_eq!(refused(&column, &longer), Error::RowsDiffer { rows: 9, len: 10 }.into());
        column.array.length = -1;
        assert_eq!(refused(&column, &chosen), Error::RowsDiffer { rows: 0, len: 9 }.into());
        column.array.length = 9;
        for offset in [-1, i64::MAX - 8, i64::MAX] {
            column.array.offset = offset;
            assert_eq!(refused(&column, &chosen), bad("length or offset"));
        }
        column.array.offset = 3;
        for more in [1, -1, -9] {
            column.array.n_buffers += more;
            assert_eq!(refused(&column, &chosen), bad("number of buffers"));
            column.array.n_buffers -= more;
            column.array.n_children += more;
            assert_eq!(refused(&column, &chosen), bad("number of children"));
            column.array.n_children -= more;
            column.schema.n_children += more;
            assert_eq!(refused(&column, &chosen), bad("number of children"));
            column.schema.n_children -= more;
        }
        for buffer in 1..column.array.n_buffers as usize {
            let start = column.set_start(buffer, null());
            assert_eq!(refused(&column, &chosen), bad("buffer"), "{format}");
            column.set_start(buffer, start);
        }
        if let Some(child) = column.children.first_mut() {
            child.array.length = 11;
            assert_eq!(refused(&column, &chosen), bad("length or offset"));
        }
    }
}

/// Offsets of strings that go back, begin below 0, or don't stand where a number may.
#[test]
fn offsets_that_descend_are_refused() {
    let mut random = Random(7);
    for format in ["u", "Z"] {
        let chosen = Chosen::new(&mut random, 9, 128);
        for i in 0..=9 {
            let mut column = Column::new(&mut random, format, 9, 3, 1);
            column.set_offset(3 + i, if i == 9 { 0 } else { 0x8080_8080_8080_8080 });
            let error = refused(&column, &chosen);
            assert!(
                matches!(error, ArrowError::Refused(Error::UnsortedOffsets { .. })),
                "{i}: {error}"
            );
        }
        let mut column = Column::new(&mut random, format, 9, 3, 1);
        column.move_rows();
        assert_eq!(refused(&column, &chosen), bad("buffer"));
    }
}
