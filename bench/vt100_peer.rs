//! Feeds a file to the terminal of the vt100 crate and prints its screen: ROWS COLS FILE.
use std::{env, fs};

fn main() {
    let words: Vec<String> = env::args().collect();
    let (rows, cols) = (words[1].parse().unwrap(), words[2].parse().unwrap());
    let bytes = fs::read(&words[3]).unwrap();
    let mut parser = vt100::Parser::new(rows, cols, 0);
    parser.process(&bytes);
    println!("{}", parser.screen().contents());
}
