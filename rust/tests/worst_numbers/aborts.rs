//! Calls that return no `Result`: where there is no memory they abort the process, and do nothing else.

use crate::MANY;
use crate::memory::limit;
use row_mask::{BitBuffer, BitBufferMut, Bitmap, BitmapBuf, Mask, Selection};
use std::hint::black_box;
use std::os::unix::process::ExitStatusExt;
use std::process::Command;
use std::{env, iter};

/// By its name, a call that returns no `Result`, where there is no memory.
fn call_that_aborts(name: &str) {
    let _alone = limit();
    let many = BitmapBuf::all_false(8 * (600 << 20));
    let rows = many.as_bitmap();
    let len = match name {
        "with_capacity" => BitmapBuf::with_capacity(usize::MAX).len(),
        "all_false" => BitmapBuf::all_false(usize::MAX).len(),
        "all_true" => BitmapBuf::all_true(usize::MAX).len(),
        "from_fn" => BitmapBuf::from_fn(usize::MAX, |_| true).len(),
        "from_rows" => BitmapBuf::from_rows(&[(); usize::MAX], |()| true).len(),
        "from" => BitmapBuf::from(rows).len(),
        "to_buf" => rows.to_buf().len(),
        "concat" => BitmapBuf::concat([rows, rows]).len(),
        "to_words" => rows.to_words().len(),
        "not" => (!rows).len(),
        "to_string" => rows.to_string().len(),
        "clone" => black_box(many.clone()).len(),
        "collect" => iter::repeat_n(true, usize::MAX).collect::<BitmapBuf>().len(),
        "append" => {
            let (mut longer, three) = (many, BitmapBuf::all_true(9));
            longer.append(three.as_bitmap());
            longer.len()
        }
        "extend" => {
            let mut longer = many;
            longer.extend([true; 9]);
            longer.len()
        }
        "push" => {
            let mut longer = many;
            longer.push(true);
            longer.len()
        }
        "append_n" => {
            let mut longer = BitmapBuf::all_true(9);
            longer.append_n(false, usize::MAX);
            longer.len()
        }
        "resize" => {
            let mut longer = BitmapBuf::all_true(9);
            longer.resize(usize::MAX, true);
            longer.len()
        }
        "to mask" => {
            Mask::from(Bitmap::new(&[1; 9], 0, 9).unwrap()).len()
                + Mask::from(rows).len()
                + BitmapBuf::from(Mask::new_true(usize::MAX)).len()
        }
        "to buffer" => BitBuffer::from(rows).len(),
        "ranks" => rows.ranks().len(),
        "reserve" => {
            let mut longer = BitmapBuf::all_true(9);
            longer.reserve(usize::MAX);
            longer.len()
        }
        "to_indices" => BitmapBuf::all_true(MANY).as_bitmap().to_indices().len(),
        "selection" => {
            let each_other = BitmapBuf::from_vec(vec![0b0101_0101; MANY / 8], 0, MANY).unwrap();
            Selection::new(each_other.as_bitmap()).len()
        }
        _ => unreachable!("{name}"),
    };
    println!("{name} made {len}");
}

/// By its name, an operator or a maker of masks, where there is no memory.
fn mask_call_that_aborts(name: &str) {
    let _alone = limit();
    let len = 8 * (600 << 20);
    let mut bytes = vec![0; len / 8];
    bytes[0] = 1;
    let rows = Mask::from(BitBuffer::from_vec(bytes, len));
    let same = rows.clone();
    let len = match name {
        "and" => (&rows & &same).len(),
        "or" => (&rows | &same).len(),
        "not" => (!&rows).len(),
        "and of a clone" => (rows & &same).len(),
        "or of a clone" => (rows | &same).len(),
        "not of a clone" => (!rows).len(),
        "collect masks" => [rows, same].into_iter().collect::<Mask>().len(),
        "collect values" => iter::repeat_n(true, 1 << 40).collect::<Mask>().len(),
        "to_string" => rows.to_string().len(),
        "from_indices" => Mask::from_indices(len, [1]).len(),
        "from_slices" => Mask::from_slices(len, vec![(1, 2)]).len(),
        "to_limited" => rows.to_limited(0).len() + Mask::AllTrue(len).to_limited(3).len(),
        "without_first" => Mask::AllTrue(len).without_first(3).len(),
        "bitand_not" => rows.bitand_not(&same).len(),
        "intersect_by_rank" => Mask::AllTrue(len).intersect_by_rank(&rows).len() + (!&rows).len(),
        "to_bit_buffer" => Mask::AllTrue(len).to_bit_buffer().len(),
        "indices of its own" => {
            let most = Mask::from_buffer(BitBuffer::from_vec(vec![0x7F; len / 64], len / 8));
            drop((rows, same));
            most.values().unwrap().indices().len()
        }
        "extend" => {
            drop((rows, same));
            let mut builder = BitBufferMut::new_unset(len);
            builder.extend([true; 9]);
            builder.len()
        }
        _ => unreachable!("{name}"),
    };
    println!("{name} made {len}");
}

/// In a process of its own, a test's call of this name aborts.
fn aborts(test: &str, name: &str) {
    let mut child = Command::new(env::current_exe().unwrap());
    child.args(["--exact", &format!("aborts::{test}"), "--nocapture"]);
    let done = child.env("CALL_THAT_ABORTS", name).output().unwrap();
    let said = String::from_utf8_lossy(&done.stderr);
    assert!(said.contains("memory allocation of"), "{name}: {said}");
    // (SIGABRT)
    assert_eq!(done.status.signal(), Some(6), "{name}: {said}");
}

#[test]
fn what_aborts_is_what_the_page_says() {
    if let Ok(name) = env::var("CALL_THAT_ABORTS") {
        return call_that_aborts(&name);
    }
    let makers = [
        "with_capacity",
        "all_false",
        "all_true",
        "from_fn",
        "from_rows",
        "from",
        "to_buf",
        "concat",
    ];
    let others = [
        "to_words",
        "not",
        "to_string",
        "clone",
        "collect",
        "append",
        "extend",
        "push",
        "append_n",
        "resize",
        "to mask",
        "to buffer",
        "ranks",
        "reserve",
        "to_indices",
        "selection",
    ];
    for name in makers.into_iter().chain(others) {
        aborts("what_aborts_is_what_the_page_says", name);
    }
}

#[test]
fn operators_and_makers_of_masks_abort() {
    if let Ok(name) = env::var("CALL_THAT_ABORTS") {
        return mask_call_that_aborts(&name);
    }
    let operators = ["and", "or", "not", "and of a clone", "or of a clone", "not of a clone"];
    let others = ["collect masks", "collect values", "to_string", "extend"];
    let plain = [
        "from_indices",
        "from_slices",
        "to_limited",
        "without_first",
        "bitand_not",
        "intersect_by_rank",
        "to_bit_buffer",
        "indices of its own",
    ];
    for name in operators.into_iter().chain(others).chain(plain) {
        aborts("operators_and_makers_of_masks_abort", name);
    }
}
