//! Says of each function of a file which handlers it has, or why it has none.

use bisquepond::parsing::{self, Why};
use bisquepond::{Layout, function};

/// A legacy header that has flags and an info_offset, and else zeros.
fn header(info_offset: u32, flags: u8) -> [u8; 16] {
    let mut header = [0; 16];
    header[8..12].copy_from_slice(&info_offset.to_le_bytes());
    header[15] = flags;
    header
}

fn main() -> bisquepond::Result<()> {
    // Nine functions, then what their info_offsets lead to.
    let headers = [
        header(144, 8),
        header(170, 9), // a place is rounded up to a multiple of 4
        header(144, 0),
        header(0, 8),
        header(211, 8),
        header(209, 8),
        header(188, 8),
        header(192, 8),
        header(196, 8),
    ];
    let words = [
        [2, 10, 40, 52].as_slice(), // at 144 a count of 2 and two handlers
        &[44, 60, 71],
        &[1, 5, 9, 30], // at 172 one handler
        &[0, 5000],     // at 188 a count of 0, at 192 one of 5000
        &[2, 7, 8],     // at 196 a count of 2, and the file ends within the first
    ];
    let mut file = headers.concat();
    file.extend(words.concat().into_iter().flat_map(u32::to_le_bytes));
    file.extend([0; 3]);

    let table = function::read_functions(&file, Layout::Legacy16, 0, 9)?;
    let handlers = parsing::read_handlers(&file, &table, 9)?;
    for row in &table {
        let why = parsing::why_no_handlers(&file, &table, row.id())?;
        println!("function {}: {why}", row.id());
        if let Why::Shown(_) = why {
            for handler in parsing::handlers_of(&handlers, row.id()) {
                let (start, end) = (handler.start(), handler.end());
                println!("  bytes {start} to {end} go on at {}", handler.target());
            }
        }
    }
    // A function that is not there is refused.
    println!(
        "{}",
        parsing::why_no_handlers(&file, &table, 9).unwrap_err()
    );
    Ok(())
}
