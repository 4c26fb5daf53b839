//! Makes a sheet or a list on which two planners differ as small as it goes: lines or numbers out, then bytes out, then digits
//! down.

/// What ends a piece: a line of a sheet, or a number of a list.
pub const LINE_END: u8 = b'\n';
pub const NUMBER_END: u8 = b' ';

/// Shrinks while `differs` holds. A probe costs one and one more for every 256 bytes; at the end of the budget the best so far
/// stands.
pub fn shrink(sheet: &[u8], end: u8, budget: usize, differs: &mut dyn FnMut(&[u8]) -> bool) -> Vec<u8> {
    let mut shrinker = Shrinker { best: sheet.to_vec(), end, budget, differs };
    loop {
        let before = shrinker.best.clone();
        shrinker.drop_pieces();
        shrinker.drop_bytes();
        shrinker.lower_digits();
        if shrinker.best == before || shrinker.budget == 0 {
            return shrinker.best;
        }
    }
}

struct Shrinker<'a> {
    best: Vec<u8>,
    end: u8,
    budget: usize,
    differs: &'a mut dyn FnMut(&[u8]) -> bool,
}

impl Shrinker<'_> {
    fn try_instead(&mut self, sheet: Vec<u8>) -> bool {
        if self.budget == 0 || sheet == self.best {
            return false;
        }
        self.budget = self.budget.saturating_sub(1 + sheet.len() / 256);
        let better = (self.differs)(&sheet);
        if better {
            self.best = sheet;
        }
        better
    }

    /// Drops runs of pieces, the long runs first.
    fn drop_pieces(&mut self) {
        let mut run = self.ends_of_pieces().len() - 1;
        while run > 0 {
            let mut start = 0;
            let mut ends = self.ends_of_pieces();
            while start + 1 < ends.len() && self.budget > 0 {
                let end = (start + run).min(ends.len() - 1);
                let rest = [&self.best[..ends[start]], &self.best[ends[end]..]].concat();
                if self.try_instead(rest) {
                    ends = self.ends_of_pieces();
                } else {
                    start += run;
                }
            }
            run /= 2;
        }
    }

    /// Drops bytes one by one and in pairs, which keep a line even. Long sheets are left to the pieces.
    fn drop_bytes(&mut self) {
        for run in [8, 2, 1] {
            let mut start = 0;
            while start + run <= self.best.len() && self.best.len() < 400 {
                let mut sheet = self.best.clone();
                sheet.drain(start..start + run);
                if !self.try_instead(sheet) {
                    start += 1;
                }
            }
        }
    }

    /// Puts 0, 1, 2 or the next lower digit for each digit.
    fn lower_digits(&mut self) {
        for place in 0..self.best.len().min(400) {
            let byte = self.best[place].to_ascii_uppercase();
            if !byte.is_ascii_hexdigit() {
                continue;
            }
            let next = if byte == b'A' { b'9' } else { byte - 1 };
            for lower in [b'0', b'1', b'2', next, byte] {
                let is_lower = lower < byte || (lower == byte && self.best[place] != byte);
                let mut sheet = self.best.clone();
                sheet[place] = lower;
                if is_lower && self.try_instead(sheet) {
                    break;
                }
            }
        }
    }

    /// 0, then where each piece ends, the byte that ends it included.
    fn ends_of_pieces(&self) -> Vec<usize> {
        let mut ends = vec![0];
        for piece in self.best.split_inclusive(|&byte| byte == self.end) {
            ends.push(ends[ends.len() - 1] + piece.len());
        }
        ends
    }
}

/// The sheet as text, with the bytes that do not print shown as \xNN.
pub fn shown(sheet: &[u8]) -> String {
    let mut text = String::new();
    for &byte in sheet {
        match byte {
            b'\n' => text.push_str("\\n\n"),
            b' '..=b'~' => text.push(char::from(byte)),
            _ => text.push_str(&format!("\\x{byte:02X}")),
        }
    }
    text
}
