//! Reads standard input into the crate vt100, and prints the page as vtcat does.
use std::io::{self, Read, Write};

fn main() -> io::Result<()> {
    let mut arguments = std::env::args().skip(1).filter_map(|word| word.parse().ok());
    let rows: u16 = arguments.next().unwrap_or(24);
    let cols: u16 = arguments.next().unwrap_or(80);
    let mut parser = vt100::Parser::new(rows, cols, 0);
    let mut buffer = vec![0; 65536];
    let mut input = io::stdin().lock();
    loop {
        let count = input.read(&mut buffer)?;
        if count == 0 {
            break;
        }
        parser.process(&buffer[..count]);
    }
    let mut page = String::new();
    for row in 0..rows {
        page.push('|');
        for col in 0..cols {
            match parser.screen().cell(row, col) {
                Some(cell) if cell.is_wide_continuation() => {}
                Some(cell) if cell.has_contents() => page.push_str(&cell.contents()),
                _ => page.push(' '),
            }
        }
        page.push_str("|\n");
    }
    io::stdout().write_all(page.as_bytes())
}
