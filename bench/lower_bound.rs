//! A lower bound for the time of any N-Quads loader: reads standard input block by block, as a pipe has to be read,
//! finds every line end and checks that the text is UTF-8. It parses nothing and keeps nothing.
//!
//! rustc -C opt-level=3 --edition 2021 -o lower_bound lower_bound.rs
//! ./lower_bound < FILE     prints the number of line ends
use std::io::Read;

const BLOCK: usize = 1 << 18;

/// Checks that the bytes are UTF-8 and returns the number of line ends in them.
fn line_ends(bytes: &[u8]) -> usize {
    std::str::from_utf8(bytes).expect("UTF-8").matches('\n').count()
}

fn main() {
    let mut input = std::io::stdin().lock();
    let mut block = vec![0; BLOCK];
    let (mut kept, mut ends) = (0, 0);
    loop {
        let read = input.read(&mut block[kept..]).expect("input");
        if read == 0 {
            break;
        }
        let filled = kept + read;
        let whole_lines = block[..filled].iter().rposition(|byte| *byte == b'\n').map_or(0, |end| end + 1);
        ends += line_ends(&block[..whole_lines]);
        block.copy_within(whole_lines..filled, 0);
        kept = filled - whole_lines;
        if kept == block.len() {
            block.resize(2 * kept, 0);
        }
    }
    println!("{} line ends", ends + line_ends(&block[..kept]));
}
