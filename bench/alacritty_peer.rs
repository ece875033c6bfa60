//! Feeds a file to the terminal of the alacritty_terminal crate, without history, and prints its text: ROWS COLS FILE.
use alacritty_terminal::ansi::Processor;
use alacritty_terminal::config::Config;
use alacritty_terminal::event::VoidListener;
use alacritty_terminal::grid::Dimensions;
use alacritty_terminal::index::{Column, Line};
use alacritty_terminal::term::Term;
use std::{env, fs};

struct Size {
    rows: usize,
    cols: usize,
}

impl Dimensions for Size {
    fn total_lines(&self) -> usize {
        self.rows
    }
    fn screen_lines(&self) -> usize {
        self.rows
    }
    fn columns(&self) -> usize {
        self.cols
    }
}

fn main() {
    let words: Vec<String> = env::args().collect();
    let size = Size { rows: words[1].parse().unwrap(), cols: words[2].parse().unwrap() };
    let bytes = fs::read(&words[3]).unwrap();
    let mut config = Config::default();
    config.scrolling.set_history(0);
    let mut term = Term::new(&config, &size, VoidListener);
    let mut processor = Processor::new();
    for byte in bytes {
        processor.advance(&mut term, byte);
    }
    for row in 0..size.rows {
        let cells = (0..size.cols).map(|col| term.grid()[Line(row as i32)][Column(col)].c);
        // where a tab was, a cell keeps it
        let text: String = cells.map(|it| if it == '\t' { ' ' } else { it }).collect();
        println!("{}", text);
    }
}
