//! Times `row-mask` beside loops as one writes them by hand, and beside bitmap libraries.
//!
//!     cargo run --release                           prints the tables, and what they were taken on
//!     cargo run --release -- --only CALL            prints the lines of one call
//!     cargo run --release -- README.md density.svg  writes the tables into a page, and the picture
//!
//! With `--cfg row_mask_one_level` it has the table of calls without `pdep` and `pext` alone.
//!
//! A cell is the least time of one call, of many. The answers of `row-mask` and of the loops by hand are compared before
//! they are timed. `turns` runs it by `--lines`, which prints the lines that there are, and by `--turn` with the words of
//! one and the number of a round, which prints the time of `row-mask` alone, and what is to be taken off it.

mod by_hand;
#[cfg(feature = "fixedbitset")]
mod fixed;
mod lists;
mod ours;
mod page;
mod peers;
mod picture;
#[cfg(feature = "roaring")]
mod roaring;
mod table;
mod timed;

use std::env;
use std::process::exit;
use table::TABLES;

/// A call of a peer: it answers a digest of its result.
pub type Call<'a> = Box<dyn FnMut() -> u64 + 'a>;

fn main() {
    let words: Vec<String> = env::args().skip(1).collect();
    let load = timed::load();
    match words.iter().map(String::as_str).collect::<Vec<_>>()[..] {
        [] => {
            for table in TABLES {
                println!("{}\n{}\n", table.timed(|_| true), table.taken_on(&load));
            }
        }
        ["--only", name] if table::calls().any(|it| it == name) => {
            for table in TABLES {
                print!("{}", table.timed(|it| it == name));
            }
        }
        ["--only", name] => {
            let calls: Vec<&str> = table::calls().collect();
            eprintln!("there is no call `{name}`: the calls are {}", calls.join("; "));
            exit(2);
        }
        ["--lines"] => {
            for (name, len, share) in table::lines() {
                println!("{name}\t{len}\t{share}");
            }
        }
        ["--turn", name, len, share, round] => {
            let number = |word: &str| word.parse::<usize>().expect("a number");
            let share = number(share) as u64;
            let (time, beside) = table::turn(name, number(len), share, number(round));
            println!("{time} {beside}");
        }
        [page] => write(page, &load),
        [page, image] => {
            write(page, &load);
            picture::write(image);
        }
        _ => {
            eprintln!("a page and a picture to write, one call, or nothing");
            exit(2);
        }
    }
}

fn write(page: &str, load: &str) {
    for table in TABLES {
        let lines = table.timed(|_| true);
        page::write(page, table.heading, &lines, &table.taken_on(load));
    }
}
