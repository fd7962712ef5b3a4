//! Days of a live box, event by event: names, room, and what it shares with the run.

use second::live::{is_sound, LiveAnswer};

use crate::common::live::{
    fresh_state, list, outcome, state_after, take, take_all, ACCEPTED, BYTES, BYTES_THEN, DEPTH,
    HEAD, HEAD_CLASS, HEAD_LENGTH, HELD, IDENTIFIER, PACKET_CLASS, PACKET_LENGTH, PACKET_NAME,
    PARENT, PARENT_BYTES_THEN, ROW_COUNT, SHARE, START, VIRTUAL, WORDS,
};
use crate::common::{
    accepted, chain, wide, Event, Row, FINISH, HALVES, P1_EVENTS, P3_EVENTS, P4_ROWS, ROOT, THIRDS,
    TWO_LEVELS,
};

/// Tables with lists that are accepted: the worked runs and some longer ones.
fn days() -> Vec<(Vec<Row>, Vec<Event>)> {
    let p4 = [(4, 100), (3, 100), (5, 100), FINISH, FINISH, FINISH];
    let mut deep: Vec<Event> = (1..40).map(|length| (80, length * 37)).collect();
    deep.extend([FINISH; 39]);
    let many = wide(256).into_iter().skip(1).map(|row| (row.0, 9_000));
    let mut many: Vec<Event> = many.collect();
    many.extend([FINISH; 100]);
    many.extend(many.clone());
    vec![
        (HALVES.to_vec(), P1_EVENTS.to_vec()),
        (THIRDS.to_vec(), P3_EVENTS.to_vec()),
        (P4_ROWS.to_vec(), [p4, p4].concat()),
        (
            vec![ROOT, (10, 1, 105)],
            vec![(10, 100), (10, 100), FINISH, FINISH],
        ),
        (vec![ROOT, (10, 1, 756), (65_535, 1, 7)], unlike()),
        (chain(8), deep),
        (wide(256), many),
    ]
}

/// Packets of two classes by turns, of all sizes, with the line idle now and then.
fn unlike() -> Vec<Event> {
    let mut events = Vec::new();
    for round in 0..200_u32 {
        let length = 1 + round * 7919 % 9_000;
        events.extend([(10, length), (65_535, 9_001 - length), FINISH]);
        if round % 10 == 9 {
            events.extend([FINISH; 10]);
        }
    }
    events
}

#[test]
fn a_fresh_state_has_the_tree_and_zeros() {
    let words = fresh_state(&P4_ROWS);
    assert_eq!((words[ROW_COUNT], words[ACCEPTED]), (5, 0));
    assert_eq!(list(&words, IDENTIFIER, 5), [1, 2, 3, 4, 5]);
    assert_eq!(list(&words, PARENT, 5), [0, 0, 0, 1, 1]);
    assert_eq!(list(&words, DEPTH, 5), [0, 1, 1, 2, 2]);
    assert_eq!(list(&words, SHARE, 5), [0, 420, 420, 420, 420]);
    for first in (START..PACKET_CLASS).step_by(256) {
        assert_eq!(list(&words, first, 5), [0; 5]);
    }
    assert!(is_sound(&words[..WORDS]));
}

#[test]
fn the_words_of_a_day_stand_where_they_should() {
    let events = [(4, 100), (3, 200), (5, 300), (4, 400), FINISH];
    let words = state_after(&P4_ROWS, &events);
    assert_eq!(words[ACCEPTED], 4);
    // Packet 1 is on the line; class 2 has taken packet 2 in the place of packet 0.
    assert_eq!(list(&words, HEAD, 5), [2, 3, 2, 4, 3]);
    assert_eq!(list(&words, HEAD_LENGTH, 5), [200, 300, 200, 400, 300]);
    assert_eq!(list(&words, HEAD_CLASS, 5), [2, 4, 2, 3, 4]);
    assert_eq!(list(&words, BYTES, 5), [100, 100, 0, 100, 0]);
    assert_eq!(list(&words, HELD, 5), [3, 2, 1, 1, 1]);
    assert_eq!(list(&words, BYTES_THEN, 5), [0; 5]);
    assert_eq!(list(&words, PARENT_BYTES_THEN, 5), [0; 5]);
    assert_eq!(list(&words, PACKET_CLASS, 3), [2, 4, 3]);
    assert_eq!(list(&words, PACKET_LENGTH, 3), [200, 300, 400]);
    assert_eq!(list(&words, PACKET_NAME, 3), [1, 2, 3]);
    assert_eq!(words[VIRTUAL + 1], 84_000 + 252_000);
}

#[test]
fn a_finish_closes_the_gap_and_leaves_the_last_words() {
    let mut words = state_after(&HALVES, &P1_EVENTS[..3]);
    take_all(&mut words, &[FINISH]);
    assert_eq!(list(&words, PACKET_CLASS, 3), [2, 1, 1]);
    assert_eq!(list(&words, PACKET_NAME, 3), [1, 2, 2]);
    take_all(&mut words, &[FINISH, FINISH]);
    assert_eq!(list(&words, PACKET_NAME, 3), [2, 2, 2]);
    assert_eq!(words[HELD], 0);
}

/// What a lag starts from is noted for each row that held nothing, the root among them.
#[test]
fn a_backlog_begins_where_nothing_was_held() {
    let mut words = state_after(&P4_ROWS, &[(4, 100), FINISH, (3, 50), (5, 10)]);
    assert_eq!(list(&words, BYTES_THEN, 5), [100, 100, 0, 0, 0]);
    assert_eq!(list(&words, PARENT_BYTES_THEN, 5), [100, 100, 100, 0, 100]);
    take_all(&mut words, &[FINISH, (3, 1)]);
    assert_eq!(list(&words, BYTES_THEN, 5), [100, 100, 50, 0, 0]);
    assert_eq!(list(&words, PARENT_BYTES_THEN, 5), [100, 100, 150, 0, 100]);
}

#[test]
fn names_count_accepted_events() {
    let mut words = fresh_state(&HALVES);
    let day: [(Event, Result<Option<u32>, u32>); 15] = [
        (FINISH, Err(14)),
        ((0, 1), Err(13)),
        ((10, 100), Ok(Some(0))),
        ((30, 100), Err(11)),
        ((20, 100), Ok(None)),
        ((1, 100), Err(12)),
        ((10, 0), Err(13)),
        ((10, 9_001), Err(13)),
        ((10, 100), Ok(None)),
        (FINISH, Ok(Some(1))),
        ((0, u32::MAX), Err(13)),
        (FINISH, Ok(Some(2))),
        (FINISH, Ok(None)),
        (FINISH, Err(14)),
        ((20, 1), Ok(Some(6))),
    ];
    for (event, answer) in day {
        assert_eq!(take(&mut words, event), answer, "{event:?}");
    }
    // P1's report, with one more packet of class 20 on the line.
    let outcome = outcome(&words, 3, &[]);
    assert_eq!(outcome.report[1], [200, 168_000, 336_000, 0, 0]);
    assert_eq!(outcome.report[2], [100, 252_000, 253_680, 0, 1]);
}

#[test]
fn every_answer_and_report_is_the_runs() {
    for (rows, events) in days() {
        let mut words = fresh_state(&rows);
        let mut order = Vec::new();
        for (place, event) in events.iter().enumerate() {
            order.extend(take(&mut words, *event).expect("it is accepted"));
            // Looking at each of them takes as long as the run.
            if place % 10 == 0 || place + 1 == events.len() {
                let run = accepted(&rows, &events[..=place]);
                assert_eq!(outcome(&words, rows.len(), &order), run);
                assert!(is_sound(&words[..WORDS]));
            }
        }
    }
}

#[test]
fn refused_events_count_for_nothing() {
    let mut plain = fresh_state(&TWO_LEVELS);
    let mut mixed = plain.clone();
    let wrong = [(2, 1), (4, 1), (3, 0), (3, 9_001), (0, 7)];
    for (round, event) in [(3, 5), (3, 6), FINISH, FINISH, (3, 7)]
        .into_iter()
        .enumerate()
    {
        assert!(take(&mut mixed, wrong[round]).is_err());
        assert_eq!(take(&mut mixed, event), take(&mut plain, event));
        assert_eq!(mixed, plain);
    }
}

#[test]
fn room_is_used_again() {
    let mut words = fresh_state(&HALVES);
    for packet in 0..1_024 {
        let event = (10 + packet % 2 * 10, 1 + packet);
        let sent = (packet == 0).then_some(0);
        assert_eq!(take(&mut words, event), Ok(sent));
    }
    for _ in 0..3 {
        assert_eq!(take(&mut words, (10, 1)), Err(22));
        // What comes before 22 still does.
        assert_eq!(take(&mut words, (30, 1)), Err(11));
        assert_eq!(take(&mut words, (1, 1)), Err(12));
        assert_eq!(take(&mut words, (10, 0)), Err(13));
        assert!(take(&mut words, FINISH).is_ok_and(|sent| sent.is_some()));
        assert_eq!(take(&mut words, (20, 9_000)), Ok(None));
        assert!(is_sound(&words[..WORDS]));
    }
    assert_eq!(take(&mut words, (10, 1)), Err(22));
    for _ in 0..1_024 {
        assert!(take(&mut words, FINISH).is_ok());
    }
    assert_eq!(take(&mut words, FINISH), Err(14));
    let name = 1_024 + 2 * 3 + 1_024;
    assert_eq!(take(&mut words, (10, 1)), Ok(Some(name)));
}

#[test]
fn arrivals_end_after_the_last_that_is_counted() {
    let mut words = state_after(&HALVES, &[(10, 100), (20, 100)]);
    words[ACCEPTED] = 2_147_483_645;
    assert!(is_sound(&words[..WORDS]));
    // The accepted events before: all arrivals, and finishes of all packets but two.
    let name = 2 * 2_147_483_645 - 2;
    assert_eq!(take(&mut words, (10, 7)), Ok(None));
    assert_eq!(words[PACKET_NAME + 2], name);
    assert_eq!(take(&mut words, (20, 8)), Ok(None));
    for _ in 0..2 {
        assert_eq!(take(&mut words, (10, 1)), Err(21));
        assert_eq!(take(&mut words, (30, 1)), Err(11));
        assert_eq!(take(&mut words, (1, 1)), Err(12));
        assert_eq!(take(&mut words, (10, 9_001)), Err(13));
        assert_eq!(take(&mut words, (0, 1)), Err(13));
        assert!(is_sound(&words[..WORDS]));
    }
    let sent = [Some(1), Some(name as u32), Some(name as u32 + 1), None];
    for sent in sent {
        assert_eq!(take(&mut words, FINISH), Ok(sent));
        assert_eq!(take(&mut words, (20, 1)), Err(21));
    }
    assert_eq!(take(&mut words, FINISH), Err(14));
    assert_eq!(words[ACCEPTED], 2_147_483_647);
}

#[test]
fn no_count_left_comes_before_no_room() {
    let packets: Vec<Event> = vec![(10, 9_000); 1_024];
    let mut words = state_after(&HALVES, &packets);
    assert_eq!(take(&mut words, (10, 1)), Err(22));
    words[ACCEPTED] = 2_147_483_647;
    assert_eq!(take(&mut words, (10, 1)), Err(21));
    assert_eq!(take(&mut words, (10, 0)), Err(13));
    words[ACCEPTED] -= 1;
    assert_eq!(take(&mut words, (10, 1)), Err(22));
}

/// The greatest tags and byte counts that a state can have go on.
#[test]
fn tags_at_the_end_of_all_counting() {
    let mut words = state_after(&P4_ROWS, &[(4, 9_000), (3, 9_000), (5, 1)]);
    let more = 2_147_483_647 - 4;
    words[ACCEPTED] += more;
    let ticks = 705_600 * 9_000 * more;
    for row in 0..5 {
        words[BYTES + row] += 9_000 * more;
        words[BYTES_THEN + row] += 9_000 * more;
        words[PARENT_BYTES_THEN + row] += 9_000 * more;
        if row > 0 {
            words[START + row] += ticks;
            words[START + 256 + row] += ticks;
        }
        if row < 2 {
            words[VIRTUAL + row] += ticks;
        }
    }
    assert!(is_sound(&words[..WORDS]));
    let usual = state_after(
        &P4_ROWS,
        &[(4, 9_000), (3, 9_000), (5, 1), (3, 1), FINISH, FINISH],
    );
    take_all(&mut words, &[(3, 1), FINISH, FINISH]);
    assert!(is_sound(&words[..WORDS]));
    let [ours, usual] = [&words, &usual].map(|words| outcome(words, 5, &[]));
    assert_eq!(ours.lags, usual.lags);
    assert_eq!(ours.report[2][2], usual.report[2][2] + ticks);
    assert!(ours.report[0][3] > 1 << 63);
}

#[test]
fn an_answer_has_its_five_numbers() {
    let mut words = fresh_state(&HALVES);
    let LiveAnswer { answer, packet } = second::live::event(&mut words, 10, 5);
    assert_eq!((answer.number, answer.count, packet), (0, 1, 0));
    let LiveAnswer { answer, packet } = second::live::event(&mut words, 20, 5);
    assert_eq!((answer.number, answer.count, packet), (0, 0, 0));
}
