//! Reads standard input into the crate alacritty_terminal, and prints the page as vtcat does.
use alacritty_terminal::ansi::Processor;
use alacritty_terminal::config::Config;
use alacritty_terminal::event::{Event, EventListener};
use alacritty_terminal::grid::Dimensions;
use alacritty_terminal::index::{Column, Line};
use alacritty_terminal::term::cell::Flags;
use alacritty_terminal::term::Term;
use std::io::{self, Read, Write};

struct Size {
    rows: usize,
    cols: usize,
}

impl Dimensions for Size {
    fn total_lines(&self) -> usize {
        self.rows
    }
    fn screen_lines(&self) -> usize {
        self.rows
    }
    fn columns(&self) -> usize {
        self.cols
    }
}

struct Nobody;

impl EventListener for Nobody {
    fn send_event(&self, _: Event) {}
}

fn main() -> io::Result<()> {
    let mut arguments = std::env::args().skip(1).filter_map(|word| word.parse().ok());
    let rows: usize = arguments.next().unwrap_or(24);
    let cols: usize = arguments.next().unwrap_or(80);
    let mut config = Config::default();
    config.scrolling.set_history(0);
    let mut term = Term::new(&config, &Size { rows, cols }, Nobody);
    let mut parser = Processor::new();
    let mut buffer = vec![0; 65536];
    let mut input = io::stdin().lock();
    loop {
        let count = input.read(&mut buffer)?;
        if count == 0 {
            break;
        }
        for &byte in &buffer[..count] {
            parser.advance(&mut term, byte);
        }
    }
    let mut page = String::new();
    for row in 0..rows {
        page.push('|');
        for col in 0..cols {
            let cell = &term.grid()[Line(row as i32)][Column(col)];
            if cell.flags.contains(Flags::WIDE_CHAR_SPACER) {
                continue;
            }
            page.push(cell.c);
            page.extend(cell.zerowidth().unwrap_or(&[]));
        }
        page.push_str("|\n");
    }
    io::stdout().write_all(page.as_bytes())
}
