//! A filter chooses the rows 0, 3, 4, 5 and 7 of eight. A second one ran over these five. Prints the
//! filter that stands for both.

use row_mask::{Bitmap, Error};

fn main() -> Result<(), Error> {
    let rows = Bitmap::new(&[0b1011_1001], 0, 8)?;
    let ranks = Bitmap::new(&[0b1_0100], 0, 5)?;
    println!("{}", rows.intersect_by_rank(ranks)?);
    Ok(())
}
