//! Frequency lists: as boxes have them, and any others.

use crate::random::Random;

const ENDINGS: [&str; 4] = ["", " ", "\n", " \n"];

/// The list as the system prints it: a blank after every number, and a line feed.
pub fn printed(numbers: &[u32]) -> Vec<u8> {
    let words: String = numbers.iter().map(|number| format!("{number} ")).collect();
    format!("{words}\n").into_bytes()
}

/// So many numbers from the lowest on, one gap apart.
pub fn even(lowest: u32, gap: u32, count: u32) -> Vec<u32> {
    (0..count).map(|level| lowest + level * gap).collect()
}

/// Some list of numbers, accepted or refused, now and then damaged.
pub fn any(random: &mut Random) -> Vec<u8> {
    let mut numbers = any_numbers(random);
    match random.between(1, 4) {
        1 => numbers.sort_unstable(),
        2 => numbers.sort_unstable_by(|a, b| b.cmp(a)),
        _ => random.shuffle(&mut numbers),
    }
    let words: Vec<String> = numbers.iter().map(u32::to_string).collect();
    let mut list = format!("{}{}", words.join(" "), random.choose(&ENDINGS)).into_bytes();
    if random.one_in(4) {
        damage(&mut list, random);
    }
    list
}

/// Even gaps up to a top speed in its range or a little beyond, seldom with one number moved, in any unit.
fn any_numbers(random: &mut Random) -> Vec<u32> {
    let count = random.choose(&[1, 2, 3, 5, 13, 31, 32, 32, 33]);
    let top = random.choose(&[40, 256, 256, 257, 70_000]);
    let gap = random.between(1, (top - 1) / count);
    let highest = top - (count - 1) * gap;
    let lowest = if random.one_in(2) { highest } else { random.between(1, highest) };
    let mut numbers = even(lowest, gap, count);
    match random.between(1, 8) {
        1 => numbers[random.index(count as usize)] += 1,
        2 => numbers[random.index(count as usize)] = random.between(1, top),
        _ => {}
    }
    let most = u32::MAX / (top + 1);
    let any_unit = random.between(1, most);
    let unit = random.choose(&[1, 100_000.min(most), most, any_unit]);
    numbers.iter().map(|number| number * unit).collect()
}

/// A byte put in, taken out or changed, digits put in, or an end cut off.
fn damage(list: &mut Vec<u8>, random: &mut Random) {
    let place = random.index(list.len());
    let byte = if random.one_in(2) { random.choose(b" \n\t\r0+-,") } else { random.between(0, 255) as u8 };
    match random.between(1, 6) {
        1 => list.insert(place, byte),
        2 => list[place] = byte,
        3 => list.push(byte),
        4 => {
            list.remove(place);
        }
        5 => {
            let digits: Vec<u8> = (0..random.between(1, 30)).map(|_| random.between(48, 57) as u8).collect();
            list.splice(place..place, digits);
        }
        _ => list.truncate(place),
    }
}
