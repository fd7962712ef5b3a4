//! The engines over byte slices: plain ones and, where these are linked, the proved ones.

use second::{run, Answer, EventSlices, Room, TableSlices};

/// The proved engine that looks through a row's children, by its C function.
#[cfg(feature = "linked")]
pub fn looking(read: [&[u8]; 5], written: [&mut [u8]; 5]) -> u32 {
    marginlilac::bytes::run(linked(read, written))
}

/// The proved engine with heaps, by its C function.
#[cfg(feature = "linked")]
pub fn heaps(read: [&[u8]; 5], written: [&mut [u8]; 5]) -> u32 {
    marginlilac::bytes::run_heaps(linked(read, written))
}

#[cfg(feature = "linked")]
fn linked<'a>(read: [&'a [u8]; 5], written: [&'a mut [u8]; 5]) -> marginlilac::bytes::Bytes<'a> {
    let [identifiers, parents, shares, classes, lengths] = read;
    let [order, report, lags, working, answer] = written;
    marginlilac::bytes::Bytes {
        identifiers,
        parents,
        shares,
        classes,
        lengths,
        order,
        report,
        lags,
        working,
        answer,
    }
}

/// The replayer that is written for speed.
pub fn replayer(read: [&[u8]; 5], written: [&mut [u8]; 5]) -> u32 {
    let [identifiers, parents, shares, classes, lengths] = read;
    let [order, report, lags, working, answer] = written;
    replayer::run(replayer::Lent {
        identifiers,
        parents,
        shares,
        classes,
        lengths,
        order,
        report,
        lags,
        working,
        answer,
    })
}

/// The independent replayer, whose words are taken from the bytes and put back.
pub fn second(read: [&[u8]; 5], written: [&mut [u8]; 5]) -> u32 {
    let [order, report, lags, working, answer] = written;
    let room = || {
        Some(Room {
            order: words(order, u32::from_le_bytes)?,
            report: words(report, u64::from_le_bytes)?,
            lags: words(lags, i64::from_le_bytes)?,
            working: words(working, u32::from_le_bytes)?,
        })
    };
    let columns = read.map(|column| words(column, u32::from_le_bytes));
    let [Some(identifiers), Some(parents), Some(shares), Some(classes), Some(lengths)] = &columns
    else {
        return 3;
    };
    let (Some(mut room), 16) = (room(), answer.len()) else {
        return 3;
    };
    let table = TableSlices {
        identifiers,
        parents,
        shares,
    };
    let answered = run(table, EventSlices { classes, lengths }, room.lend());
    put(order, &room.order, u32::to_le_bytes);
    put(report, &room.report, u64::to_le_bytes);
    put(lags, &room.lags, i64::to_le_bytes);
    put(working, &room.working, u32::to_le_bytes);
    put(answer, &numbers(answered), u32::to_le_bytes);
    answered.number
}

fn numbers(answer: Answer) -> [u32; 4] {
    [answer.number, answer.place, answer.second, answer.count]
}

/// Nothing if the bytes are no whole number of words.
fn words<T, const BYTES: usize>(bytes: &[u8], word: fn([u8; BYTES]) -> T) -> Option<Vec<T>> {
    let (words, rest) = bytes.as_chunks();
    rest.is_empty()
        .then(|| words.iter().copied().map(word).collect())
}

fn put<T: Copy, const BYTES: usize>(bytes: &mut [u8], words: &[T], of: fn(T) -> [u8; BYTES]) {
    for (place, word) in bytes.as_chunks_mut().0.iter_mut().zip(words) {
        *place = of(*word);
    }
}

#[cfg(test)]
mod tests {
    use super::*;
    use crate::{even_table, steady_case, Buffers, Case, FINISH};

    #[test]
    fn both_plain_replayers_do_a_list_alike() {
        for fans in [&[7][..], &[3, 2], &[1, 2, 1, 2, 1, 2, 1, 2]] {
            let mut both = [second, replayer].map(|engine| {
                let mut buffers = Buffers::of(&steady_case(fans, 500));
                (buffers.call(engine), buffers)
            });
            assert_eq!(both[0].0, 0);
            assert_eq!(both[0], both[1]);
            both[0].1 .0[9].clear();
            assert_eq!(both[0].1.call(second), 3);
        }
    }

    #[test]
    fn a_refusal_writes_the_answer_alone() {
        let case = Case {
            rows: even_table(&[2]),
            events: vec![FINISH],
        };
        let before = Buffers::of(&case);
        let mut after = before.clone();
        assert_eq!(after.call(second), 14);
        assert_eq!(after.0[..9], before.0[..9]);
        assert_eq!(after.0[9], [14, 0, 0, 0].map(u32::to_le_bytes).concat());
    }
}
