//! Damages bytes at random.

use trials::captures::{parts, Layout, FILE_HEADER, LAYOUTS, RECORD_HEADER};
use trials::{lines, Random};

/// Bytes that such files are made of, and some that they are not.
const COMMON: &[u8] =
    b"0123456789012345678901234567890123456789,,,,,,\n\n\n\r\r\r \t;\"-+.%x\0\xff";

const NUMBERS: [&str; 21] = [
    "0",
    "00",
    "0840",
    "1",
    "756",
    "840",
    "841",
    "2048",
    "2049",
    "9000",
    "9001",
    "65535",
    "65536",
    "65537",
    "705600",
    "2147483648",
    "4294967295",
    "4294967296",
    "9223372036854775808",
    "18446744073709551616",
    "99999999999999999999999999999999999999999",
];

/// What a word of a capture may be given as.
const WORDS: [u32; 12] = [
    0,
    1,
    19,
    20,
    101,
    9000,
    9001,
    999_999,
    1_000_000,
    999_999_999,
    1 << 31,
    u32::MAX,
];

/// Bytes that one damage puts in, takes out or repeats at most.
const STRETCH: usize = 12;

/// How often a line is repeated at most, and bytes that this adds but for one line.
const OFTEN: usize = 300;
const LONG: usize = 100_000;

/// Damages the bytes once; `other` is what they may be spliced with. Where it is gentle,
/// what is left can mostly be read.
pub fn damage(bytes: &mut Vec<u8>, other: &[u8], gentle: bool, random: &mut Random) {
    match random.below(if gentle { 5 } else { 13 }) {
        0 | 1 => number(bytes, gentle, random),
        2..=4 => whole_parts(bytes, lines, gentle, random),
        5 => flip(bytes, random),
        6 | 7 => change(bytes, random),
        8 => insert(bytes, random),
        9 => drop(bytes.drain(stretch(bytes, random))),
        10 => repeat(bytes, random),
        11 => line_end(bytes, random),
        _ if random.one_in(2) => bytes.truncate(random.below(bytes.len() + 1)),
        _ => splice(bytes, other, random),
    }
}

/// Damages a capture once.
pub fn damage_capture(bytes: &mut Vec<u8>, other: &[u8], gentle: bool, random: &mut Random) {
    match random.below(if gentle { 6 } else { 11 }) {
        0..=3 => word(bytes, random),
        4 | 5 => whole_parts(bytes, parts, true, random),
        6 => flip(bytes, random),
        7 => insert(bytes, random),
        8 => drop(bytes.drain(stretch(bytes, random))),
        9 => bytes.truncate(random.below(bytes.len() + 1)),
        _ => splice(bytes, other, random),
    }
}

/// Puts another word in the place of one of some header.
fn word(bytes: &mut [u8], random: &mut Random) {
    let layout = Layout::of(bytes).unwrap_or(LAYOUTS[0]);
    let all = parts(bytes);
    let part = random.below(all.len().max(1));
    let words = if part == 0 {
        FILE_HEADER
    } else {
        RECORD_HEADER
    } / 4;
    let before: usize = all.iter().take(part).map(Vec::len).sum();
    let place = before + 4 * random.below(words);
    let Some(old) = bytes.get_mut(place..place + 4) else {
        return;
    };
    let new = match random.below(4) {
        0 => layout.word(random.pick(&WORDS)),
        1 => layout.word(random.word() >> random.below(32)),
        2 => layout.word(random.below(2000) as u32),
        // Beside what it was, in either byte order.
        _ => [old[0] ^ 1, old[1], old[2], old[3] ^ 1],
    };
    old.copy_from_slice(&new);
}

/// A short stretch of these bytes, perhaps empty.
fn stretch(bytes: &[u8], random: &mut Random) -> std::ops::Range<usize> {
    let start = random.below(bytes.len() + 1);
    let end = bytes.len().min(start + random.below(STRETCH));
    start..end
}

fn flip(bytes: &mut [u8], random: &mut Random) {
    let place = random.below(bytes.len().max(1));
    if let Some(byte) = bytes.get_mut(place) {
        *byte ^= 1 << random.below(8);
    }
}

fn change(bytes: &mut [u8], random: &mut Random) {
    let place = random.below(bytes.len().max(1));
    if let Some(byte) = bytes.get_mut(place) {
        *byte = random.pick(COMMON);
    }
}

fn insert(bytes: &mut Vec<u8>, random: &mut Random) {
    let place = random.below(bytes.len() + 1);
    let count = random.between(1, STRETCH);
    let new: Vec<u8> = match random.one_in(3) {
        true => (0..count).map(|_| random.below(256) as u8).collect(),
        false => (0..count).map(|_| random.pick(COMMON)).collect(),
    };
    bytes.splice(place..place, new);
}

fn repeat(bytes: &mut Vec<u8>, random: &mut Random) {
    let range = stretch(bytes, random);
    let again = bytes[range.clone()].to_vec();
    bytes.splice(range.end..range.end, again);
}

/// Ends some line in another way.
fn line_end(bytes: &mut Vec<u8>, random: &mut Random) {
    let mut all = lines(bytes);
    let place = random.below(all.len().max(1));
    if let Some(line) = all.get_mut(place) {
        line.truncate(line.trim_ascii_end().len());
        line.extend(random.pick(&[&b"\n"[..], b"\r\n", b"\r", b"\r\r\n", b""]));
        *bytes = all.concat();
    }
}

/// The beginning of one and the end of the other.
fn splice(bytes: &mut Vec<u8>, other: &[u8], random: &mut Random) {
    bytes.truncate(random.below(bytes.len() + 1));
    bytes.extend(&other[random.below(other.len() + 1)..]);
}

/// Puts another number in the place of one, at times another of these bytes' own.
fn number(bytes: &mut Vec<u8>, gentle: bool, random: &mut Random) {
    let begins = |place: &usize| {
        let before = place.checked_sub(1).map(|p| bytes[p]);
        bytes[*place].is_ascii_digit() && !before.is_some_and(|b| b.is_ascii_digit())
    };
    let places: Vec<usize> = (0..bytes.len()).filter(begins).collect();
    if places.is_empty() {
        return;
    }
    let digits = |start: usize| -> Vec<u8> {
        let digits = bytes[start..].iter().take_while(|b| b.is_ascii_digit());
        digits.copied().collect()
    };
    let start = random.pick(&places);
    let end = start + digits(start).len();
    let new = match random.below(if gentle { 3 } else { 4 }) {
        0 => digits(random.pick(&places)),
        1 => {
            // Mostly numbers that may be a share or a length.
            let limit = random.pick(&[1000, 3000, 10_000]);
            random.below(limit).to_string().into_bytes()
        }
        2 => random.word().to_string().into_bytes(),
        _ => random.pick(&NUMBERS).as_bytes().to_vec(),
    };
    bytes.splice(start..end, new);
}

/// Takes a line or a record out, repeats it, or puts it elsewhere; not the heading where it is
/// gentle.
fn whole_parts(
    bytes: &mut Vec<u8>,
    split: fn(&[u8]) -> Vec<Vec<u8>>,
    gentle: bool,
    random: &mut Random,
) {
    let mut all = split(bytes);
    let first = usize::from(gentle);
    if all.len() <= first {
        return;
    }
    let [one, other] = [(); 2].map(|()| random.between(first, all.len() - 1));
    match random.below(4) {
        0 => drop(all.remove(one)),
        1 => all.insert(one, all[other].clone()),
        2 => all.swap(one, other),
        _ => {
            let most = OFTEN.min(1 + LONG / all[one].len());
            let often = vec![all[one].clone(); random.between(1, most)];
            all.splice(other..other, often);
        }
    }
    *bytes = all.concat();
}

#[cfg(test)]
mod tests {
    use super::*;
    use trials::captures::Capture;

    #[test]
    fn any_bytes_can_be_damaged_and_most_are_changed() {
        let texts: [&[u8]; 4] = [b"", b"\n", b"7", b"class,length\n10,100\n0,0\n"];
        let mut changed = 0;
        for number in 0..4000 {
            let mut random = Random::new(1, number);
            let before = texts[number as usize % texts.len()];
            let mut bytes = before.to_vec();
            damage(&mut bytes, texts[3], random.one_in(2), &mut random);
            changed += usize::from(bytes != before);
        }
        assert!(changed > 1500);
    }

    #[test]
    fn any_capture_can_be_damaged_and_most_are_changed() {
        let records = [0, 5]
            .map(|stamp| LAYOUTS[3].record(stamp, 100, 46))
            .to_vec();
        let capture = Capture::new(LAYOUTS[3], records).bytes();
        let mut changed = 0;
        for number in 0..4000 {
            let mut random = Random::new(1, number);
            let before = &capture[..random.pick(&[0, 3, 30, 50, capture.len()])];
            let mut bytes = before.to_vec();
            damage_capture(&mut bytes, &capture, random.one_in(2), &mut random);
            changed += usize::from(bytes != before);
        }
        assert!(changed > 1500, "{changed}");
    }

    #[test]
    fn a_number_takes_the_place_of_a_whole_number() {
        for list in 0..100 {
            let mut bytes = b"x,123,y".to_vec();
            number(&mut bytes, list % 2 == 0, &mut Random::new(2, list));
            let middle = bytes
                .strip_prefix(b"x,")
                .and_then(|b| b.strip_suffix(b",y"));
            assert!(middle.is_some_and(|m| m.iter().all(u8::is_ascii_digit)));
        }
    }
}
