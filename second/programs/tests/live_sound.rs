//! When a state is sound: each condition at its edge, and words of any kind.

use second::live::is_sound;

use crate::common::live::{
    fresh_state, in_use, state_after, take, ACCEPTED, BYTES, BYTES_THEN, DEPTH, FINISH_TAG, HEAD,
    HEAD_CLASS, HEAD_LENGTH, HELD, IDENTIFIER, PACKET_CLASS, PACKET_LENGTH, PACKET_NAME, PARENT,
    PARENT_BYTES_THEN, ROW_COUNT, SHARE, START, VIRTUAL, WORDS,
};
use crate::common::{chain, Event, Row, FINISH, HALVES, P4_ROWS, ROOT};

/// What the longest packet costs a class with share 1.
const MOST_CHARGE: u64 = 705_600 * 9_000;

/// Four packets held, one of them on the line, and one gone.
const EVENTS: [Event; 6] = [(4, 100), (3, 200), (5, 300), (4, 400), FINISH, (4, 9_000)];

fn busy() -> Vec<u64> {
    state_after(&P4_ROWS, &EVENTS)
}

/// Whether a state is sound with these words in these places.
fn with(words: &[u64], changes: &[(usize, u64)]) -> bool {
    let mut words = words[..WORDS].to_vec();
    for (place, word) in changes {
        words[*place] = *word;
    }
    is_sound(&words)
}

/// The word may have the first value and not the second.
fn edge(words: &[u64], place: usize, sound: u64, unsound: u64) {
    assert!(with(words, &[(place, sound)]), "word {place} as {sound}");
    assert!(
        !with(words, &[(place, unsound)]),
        "word {place} as {unsound}"
    );
}

/// The word may have no other value.
fn fixed(words: &[u64], places: impl IntoIterator<Item = usize>) {
    for place in places {
        let word = words[place];
        for other in [
            0,
            1,
            2,
            word.wrapping_sub(1),
            word.wrapping_add(1),
            u64::MAX,
            1 << 32,
        ] {
            assert_eq!(
                with(words, &[(place, other)]),
                other == word,
                "{place}: {other}"
            );
        }
    }
}

#[test]
fn the_words_in_use_decide() {
    let words = busy();
    assert!(is_sound(&words[..WORDS]));
    for place in 0..WORDS {
        if !in_use(&words, place) {
            assert!(with(&words, &[(place, 0)]) && with(&words, &[(place, u64::MAX)]));
        }
    }
}

#[test]
fn counts() {
    let words = busy();
    for count in [0, 4, 6, 257, u64::MAX, 1 << 32 | 5] {
        assert!(!with(&words, &[(ROW_COUNT, count)]), "{count} rows");
    }
    // A line without classes can be.
    assert!(with(&fresh_state(&HALVES), &[(ROW_COUNT, 1)]));
    edge(&words, ACCEPTED, 2_147_483_647, 2_147_483_648);
    let fresh = fresh_state(&HALVES);
    edge(&fresh, ACCEPTED, 0, u64::MAX);
    let held = state_after(&HALVES, &[(10, 1), (10, 1)]);
    edge(&held, ACCEPTED, 2, 1);
    for held in [0, 3, 5, 1_025, u64::MAX, 1 << 32 | 4] {
        assert!(!with(&words, &[(HELD, held)]), "{held} held");
    }
}

#[test]
fn the_root() {
    for words in [busy(), fresh_state(&HALVES)] {
        fixed(&words, [PARENT, DEPTH, SHARE, START, FINISH_TAG]);
    }
}

#[test]
fn identifiers() {
    let words = fresh_state(&HALVES);
    for row in 0..3 {
        edge(&words, IDENTIFIER + row, 65_535, 65_536);
        edge(&words, IDENTIFIER + row, 5, 0);
        edge(&words, IDENTIFIER + row, 11, (1 << 32) + 11);
        let other = words[IDENTIFIER + (row + 1) % 3];
        edge(&words, IDENTIFIER + row, 7, other);
    }
}

#[test]
fn a_class_stands_below_a_row_in_use() {
    let words = fresh_state(&HALVES);
    for parent in [1, 3, 255, 256, 1 << 32, u64::MAX] {
        // Row 1 below itself too.
        assert!(!with(&words, &[(PARENT + 1, parent)]), "parent {parent}");
        assert!(!with(&words, &[(PARENT + 1, parent), (DEPTH + 1, 2)]));
    }
    // Below a later row, which is then no sending class.
    assert!(with(&words, &[(PARENT + 1, 2), (DEPTH + 1, 2)]));
    assert!(!with(&words, &[(PARENT + 1, 2), (PARENT + 2, 1)]));
    fixed(&words, [DEPTH + 1, DEPTH + 2]);
}

#[test]
fn depths() {
    let mut words = fresh_state(&chain(8));
    assert!(is_sound(&words[..WORDS]));
    // A ninth class, below the seventh and then below the eighth.
    words[ROW_COUNT] = 10;
    for list in (IDENTIFIER..PACKET_CLASS).step_by(256) {
        words[list + 9] = 0;
    }
    (words[IDENTIFIER + 9], words[SHARE + 9]) = (77, 1);
    (words[SHARE + 8], words[PARENT + 9], words[DEPTH + 9]) = (839, 7, 8);
    assert!(is_sound(&words[..WORDS]));
    assert!(!with(&words, &[(PARENT + 9, 8), (DEPTH + 9, 9)]));
    assert!(!with(&words, &[(DEPTH + 9, 9)]));
}

#[test]
fn shares() {
    let rows = [ROOT, (10, 1, 400), (20, 1, 420), (30, 1, 20)];
    let words = fresh_state(&rows);
    edge(&words, SHARE + 1, 1, 0);
    edge(&words, SHARE + 1, 400, 401);
    edge(&words, SHARE + 3, 20, u64::MAX);
    edge(&fresh_state(&[ROOT, (10, 1, 5)]), SHARE + 1, 840, 841);
    // Over 64 bits together.
    assert!(!with(&words, &[(SHARE + 1, u64::MAX), (SHARE + 2, 2)]));
}

#[test]
fn packets() {
    let words = busy();
    // The last one is no head.
    let last = 3;
    edge(&words, PACKET_LENGTH + last, 1, 0);
    edge(&words, PACKET_LENGTH + last, 9_000, 9_001);
    edge(&words, PACKET_NAME + last, 5, 6);
    edge(&words, PACKET_NAME + last, 4, 3);
    for class in [0, 1, 5, 1 << 32 | 3, u64::MAX] {
        assert!(
            !with(&words, &[(PACKET_CLASS + last, class)]),
            "class {class}"
        );
    }
    // For another class, with what is held.
    let moved = [(PACKET_CLASS + last, 4), (HELD + 3, 1), (HELD + 4, 2)];
    assert!(with(&words, &moved));
    assert!(!with(&words, &moved[..2]) && !with(&words, &moved[1..]));
}

#[test]
fn holding() {
    let words = busy();
    fixed(&words, [HELD + 1, HELD + 2, HELD + 3, HELD + 4]);
    for list in [HEAD, HEAD_LENGTH, HEAD_CLASS] {
        fixed(&words, list..list + 5);
    }
    let idle = fresh_state(&P4_ROWS);
    for list in [HEAD, HEAD_LENGTH, HEAD_CLASS, HELD] {
        fixed(&idle, list..list + 5);
    }
    fixed(&words, VIRTUAL + 2..VIRTUAL + 5);
    fixed(&idle, VIRTUAL + 2..VIRTUAL + 5);
}

/// A row may have the head of any of its children, if the tags go with it.
#[test]
fn a_head_is_that_of_a_child() {
    let words = state_after(&HALVES, &[(10, 100), (20, 100), (10, 7)]);
    let other = [(HEAD, 2), (HEAD_LENGTH, 100), (HEAD_CLASS, 2)];
    assert!(with(&words, &other));
    assert!(!with(&words, &other[..2]) && !with(&words, &other[1..]));
    // The packet that waits behind a head is nobody's.
    assert!(!with(&words, &[(HEAD, 3), (HEAD_LENGTH, 7)]));
}

#[test]
fn tags() {
    let words = busy();
    for row in 1..5 {
        fixed(&words, [START + row, FINISH_TAG + row]);
    }
    // Both together, as far as sizes go.
    let both = |more: u64| {
        let more = |place: usize| (place, words[place] + more);
        with(&words, &[more(START + 2), more(FINISH_TAG + 2)])
    };
    assert!(both(1) && !both(MOST_CHARGE * 2));
    let idle = state_after(&HALVES, &[(10, 100), FINISH]);
    let finish = idle[FINISH_TAG + 1];
    edge(&idle, START + 1, finish, finish + 1);
    edge(&idle, START + 1, 0, u64::MAX);
    edge(&idle, FINISH_TAG + 1, idle[START + 1], u64::MAX);
}

#[test]
fn charges_are_rounded_up() {
    let words = state_after(&[ROOT, (10, 1, 11), (20, 1, 11)], &[(10, 1), (20, 1)]);
    assert_eq!(words[FINISH_TAG + 1], 64_146);
    fixed(&words, [FINISH_TAG + 1, FINISH_TAG + 2]);
}

#[test]
fn virtual_times_have_a_size() {
    let words = busy();
    // One packet has left, and both rows have a head.
    for row in [0, 1] {
        edge(&words, VIRTUAL + row, 2 * MOST_CHARGE, 2 * MOST_CHARGE + 1);
    }
    let idle = state_after(&P4_ROWS, &[(4, 100), FINISH]);
    for row in [0, 1] {
        edge(&idle, VIRTUAL + row, MOST_CHARGE, MOST_CHARGE + 1);
    }
    edge(&fresh_state(&P4_ROWS), VIRTUAL, 0, 1);
}

#[test]
fn the_tag_that_counts_has_a_size() {
    let most = 2 * MOST_CHARGE;
    let words = busy();
    let charge = |row: usize| words[FINISH_TAG + row] - words[START + row];
    let with_start = |row: usize, start: u64| {
        let finish = start + charge(row);
        with(&words, &[(START + row, start), (FINISH_TAG + row, finish)])
    };
    // Class 3 is on the line, class 2 waits; class 4 waits below it, class 5 has been taken.
    assert_eq!(words[HEAD_CLASS..HEAD_CLASS + 5], [2, 4, 2, 3, 4]);
    for row in [1, 3] {
        assert!(
            with_start(row, most) && !with_start(row, most + 1),
            "row {row}"
        );
    }
    for row in [2, 4] {
        let start = most - charge(row);
        assert!(
            with_start(row, start) && !with_start(row, start + 1),
            "row {row}"
        );
    }
    let idle = state_after(&P4_ROWS, &[(4, 100), FINISH]);
    for row in 1..5 {
        edge(&idle, FINISH_TAG + row, MOST_CHARGE, MOST_CHARGE + 1);
    }
    // A row without a head below one that has one.
    let other = state_after(&HALVES, &[(10, 100)]);
    edge(&other, FINISH_TAG + 2, MOST_CHARGE, MOST_CHARGE + 1);
}

#[test]
fn byte_counts() {
    let words = busy();
    for row in 0..5 {
        let fits = [(BYTES + row, 9_000), (BYTES_THEN + row, 9_000)];
        assert!(with(&words, &fits), "row {row}");
        let over = [(BYTES + row, 9_001)];
        assert!(!with(&words, &over), "row {row}");
        let own = words[BYTES + row];
        edge(&words, BYTES_THEN + row, own, own + 1);
        let parents = words[BYTES + [0, 0, 0, 1, 1][row]];
        edge(&words, PARENT_BYTES_THEN + row, parents, parents + 1);
    }
}

/// Numbers in a row, the same each time.
struct Numbers(u64);

impl Numbers {
    fn next(&mut self) -> u64 {
        self.0 = self
            .0
            .wrapping_mul(6_364_136_223_846_793_005)
            .wrapping_add(1);
        self.0 >> 33
    }

    fn any_word(&mut self) -> u64 {
        match self.next() % 8 {
            0 => 0,
            1 => u64::MAX,
            2 => 1 << (self.next() % 64),
            3 => (1 << (self.next() % 64)) - 1,
            4 => self.next() % 300,
            5 => self.next() % 9_002,
            _ => self.next() << 33 | self.next(),
        }
    }
}

/// Whatever the words hold, an answer comes, and a sound state stays sound.
#[test]
fn any_words_have_an_answer() {
    let mut numbers = Numbers(5);
    let rows: [&[Row]; 3] = [&HALVES, &P4_ROWS, &chain(8)];
    for round in 0..3_000 {
        let mut words = match round % 4 {
            0 => (0..WORDS).map(|_| numbers.any_word()).collect(),
            1 => vec![numbers.any_word(); WORDS],
            _ => state_after(rows[round % 3], &EVENTS[..0])[..WORDS].to_vec(),
        };
        for _ in 0..1 + numbers.next() % 3 {
            let places = [ROW_COUNT, ACCEPTED, HELD, numbers.next() as usize % WORDS];
            let list = 256 * (1 + numbers.next() as usize % 14) + numbers.next() as usize % 9;
            let place = [places[numbers.next() as usize % 4], list][numbers.next() as usize % 2];
            words[place] = numbers.any_word();
        }
        let sound = is_sound(&words);
        for event in [(10, 5), (4, 9_000), FINISH, (80, 1), FINISH] {
            let taken = take(&mut words, event);
            assert_eq!(taken == Err(20), !sound);
            assert_eq!(is_sound(&words), sound);
        }
    }
}
