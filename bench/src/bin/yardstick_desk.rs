//! The yardstick's desk program: a sheet on standard input, its frames on standard output.

use std::io::{self, ErrorKind, Read};
use yardstick::{desk, LONGEST_SHEET};

fn main() {
    // As in the product: a sheet that can't be read is unknown and gets nothing, and a failed write ends the program.
    if let Ok(sheet) = read_sheet(io::stdin().lock()) {
        let _ = desk::run(&sheet, io::stdout().lock());
    }
}

/// The whole sheet, or one byte more than the longest where it is too long. A file is read by one call; read_to_end
/// feels its way with several.
fn read_sheet(mut input: impl Read) -> io::Result<Vec<u8>> {
    let mut sheet = vec![0; LONGEST_SHEET + 1];
    let mut filled = 0;
    while filled < sheet.len() {
        match input.read(&mut sheet[filled..]) {
            Ok(0) => break,
            Ok(count) => filled += count,
            Err(error) if error.kind() == ErrorKind::Interrupted => {}
            Err(error) => return Err(error),
        }
    }
    sheet.truncate(filled);
    Ok(sheet)
}
