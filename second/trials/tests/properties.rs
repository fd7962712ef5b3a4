//! What must hold of every run, looked at over random lists from events, order and heads.
#![forbid(unsafe_code)]

use std::collections::BTreeSet;

use second::sheet::climb;
use second::{
    inside, is_exact, run, sentence, EventSlices, Room, TableSlices, MOST_BYTES, REPORT_WIDTH,
};
use trials::{any_share, random_events, random_table, Case, Event, Random, Row, FINISH, SHAPES};

const LISTS: u64 = 3000;

/// A random list, its results, and what events and order say by themselves.
struct Run {
    case: Case,
    /// For each row, the rows from it up to the root.
    paths: Vec<Vec<usize>>,
    results: Room,
    trace: Trace,
    random: Random,
}

/// The run as the order tells it.
struct Trace {
    /// For each event, the packet that it finished.
    finished: Vec<Option<usize>>,
    /// For each event, packets put on the line up to and with it.
    sent: Vec<usize>,
    /// For each event and row, packets held after it in the row and below.
    held: Vec<Vec<u64>>,
}

/// Shows each list in turn to a check.
fn each_list(mut check: impl FnMut(&mut Run)) {
    for list in 1..=LISTS {
        let mut random = Random::new(840, list);
        let rows = some_table(&mut random);
        let most = random.between(20, 300);
        let drains = random.one_in(4);
        let events = random_events(&rows, most, drains, &mut random);
        let case = Case { rows, events };
        let results = accepted(&case);
        let paths = paths(&case.rows);
        let trace = trace(&case, &paths, &results.order);
        check(&mut Run {
            case,
            paths,
            results,
            trace,
            random,
        });
    }
}

/// A table of any shape but the last, a full one, which takes long here.
fn some_table(random: &mut Random) -> Vec<Row> {
    let shape = random.pick(&SHAPES[..SHAPES.len() - 1]);
    random_table(shape, any_share(random), random)
}

/// The results of a list that must be accepted, the order without what is left of its slice.
fn accepted(case: &Case) -> Room {
    let mut room = Room::new(case.rows.len(), case.events.len());
    let answer = case.run(&mut room);
    assert_eq!((answer.number, answer.place, answer.second), (0, 0, 0));
    room.order.truncate(answer.count as usize);
    room
}

/// Follows the order; fails where the line would be idle while a packet waits,
/// or where it takes a packet that is not there.
fn trace(case: &Case, paths: &[Vec<usize>], order: &[u32]) -> Trace {
    let path =
        |event: &Event| paths[row_of(&case.rows, event.class).expect("the class has a row")].iter();
    let mut waiting = BTreeSet::new();
    let mut on_line = None;
    let mut sent = 0;
    let mut held = vec![0; case.rows.len()];
    let mut trace = Trace {
        finished: Vec::new(),
        sent: Vec::new(),
        held: Vec::new(),
    };
    for (place, event) in case.events.iter().enumerate() {
        let mut finished = None;
        if *event == FINISH {
            finished = on_line.take();
            let packet: usize = finished.expect("a finish has a packet on the line");
            path(&case.events[packet]).for_each(|row| held[*row] -= 1);
        } else {
            waiting.insert(place);
            path(event).for_each(|row| held[*row] += 1);
        }
        if on_line.is_none() && !waiting.is_empty() {
            let packet = order[sent] as usize;
            assert!(waiting.remove(&packet));
            on_line = Some(packet);
            sent += 1;
        }
        trace.finished.push(finished);
        trace.sent.push(sent);
        trace.held.push(held.clone());
    }
    assert_eq!(sent, order.len());
    trace
}

fn row_of(rows: &[Row], identifier: u32) -> Option<usize> {
    rows.iter().position(|row| row.identifier == identifier)
}

fn paths(rows: &[Row]) -> Vec<Vec<usize>> {
    let up = |row: &usize| row_of(rows, rows[*row].parent);
    let path = |row| std::iter::successors(Some(row), up).collect();
    (0..rows.len()).map(path).collect()
}

impl Run {
    fn largest(&self) -> u64 {
        let lengths = self.case.events.iter().map(|event| u64::from(event.length));
        lengths.max().unwrap_or(0)
    }

    /// Is this an arrival in the row or below it?
    fn is_below(&self, event: &Event, row: usize) -> bool {
        let class = row_of(&self.case.rows, event.class);
        class.is_some_and(|class| self.paths[class].contains(&row))
    }

    /// Packets of a row, or of one below it, that were finished in these events.
    fn finished(&self, row: usize, events: std::ops::Range<usize>) -> impl Iterator<Item = &Event> {
        let packets = self.trace.finished[events].iter().flatten();
        packets
            .map(|packet| &self.case.events[*packet])
            .filter(move |event| self.is_below(event, row))
    }

    /// Bytes that a row finished in these events.
    fn bytes(&self, row: usize, events: std::ops::Range<usize>) -> u64 {
        let lengths = self.finished(row, events).map(|event| event.length);
        lengths.map(u64::from).sum()
    }

    /// What rounding may add over these events: a tick for each packet that the row finished, and
    /// two more.
    fn ticks(&self, row: usize, events: std::ops::Range<usize>) -> u64 {
        self.finished(row, events).count() as u64 + 2
    }

    /// The first event of the stretch, up to this event, in which the row always holds packets.
    fn backlog_since(&self, row: usize, event: usize) -> Option<usize> {
        let holds = |e: &usize| self.trace.held[*e][row] > 0;
        (0..=event).rev().take_while(holds).last()
    }

    /// An event and the list that ends with it.
    fn cut(&mut self) -> (usize, Case) {
        let last = self.random.below(self.case.events.len());
        let cut = Case {
            rows: self.case.rows.clone(),
            events: self.case.events[..=last].to_vec(),
        };
        (last, cut)
    }

    fn children(&self, row: usize) -> Vec<usize> {
        let is_child = |child: &usize| self.paths[*child].get(1) == Some(&row);
        (0..self.case.rows.len()).filter(is_child).collect()
    }

    /// The packet of a sending class that came first of those it holds after this event.
    fn first_held(&self, class: usize, event: usize) -> Option<u32> {
        let arrived = |place: &usize| self.is_below(&self.case.events[*place], class);
        let finished = self.finished(class, 0..event + 1).count();
        let mut arrived = (0..=event).filter(arrived);
        arrived.nth(finished).map(|place| place as u32)
    }
}

/// The shares on a path, but for the root's.
fn shares(rows: &[Row], path: &[usize]) -> Vec<u32> {
    let classes = path.iter().filter(|row| **row != 0);
    classes.map(|row| rows[*row].share).collect()
}

/// A row's part of the report.
fn reported(results: &Room, row: usize) -> &[u64] {
    &results.report[row * REPORT_WIDTH..][..REPORT_WIDTH]
}

/// Room full of numbers that no run writes.
fn marked(rows: usize, events: usize) -> Room {
    let mut room = Room::new(rows, events);
    room.order.fill(4_000_000_000);
    room.report.fill(5_000_000_000_000_000_000);
    room.lags.fill(-6_000_000_000_000_000_000);
    room.working.fill(3_000_000_000);
    room
}

#[test]
fn nothing_but_the_results_is_written() {
    each_list(|run| {
        let (rows, events) = (run.case.rows.len(), run.case.events.len());
        let mut expected = marked(rows + 1, events + 1);
        let mut written = expected.clone();
        run.case.run(&mut written);
        let Room {
            order,
            report,
            lags,
            working,
        } = &run.results;
        expected.order[..order.len()].copy_from_slice(order);
        expected.report[..report.len()].copy_from_slice(report);
        expected.lags[..lags.len()].copy_from_slice(lags);
        expected.working[..working.len()].fill(0);
        assert_eq!(written, expected);
    });
}

#[test]
fn the_line_is_never_idle_while_a_packet_waits() {
    each_list(|run| {
        let (last, cut) = run.cut();
        let results = accepted(&cut);
        let sent = run.trace.sent[last];
        assert_eq!(results.order, run.results.order[..sent]);
        let finished = run.trace.finished[..=last].iter().flatten().count();
        let waits = usize::from(reported(&results, 0)[4] > 0);
        assert_eq!(sent, finished + waits);
    });
}

#[test]
fn packets_that_arrived_are_finished_or_held() {
    each_list(|run| {
        let all = 0..run.case.events.len();
        for row in 0..run.case.rows.len() {
            let below = |event: &&Event| run.is_below(event, row);
            let arrived = run.case.events.iter().filter(below).count();
            let finished = run.finished(row, all.clone()).count();
            let part = reported(&run.results, row);
            assert_eq!(arrived as u64, finished as u64 + part[4]);
            assert_eq!(part[0], run.bytes(row, all.clone()));
        }
    });
}

#[test]
fn each_packet_goes_on_the_line_at_most_once() {
    each_list(|run| {
        let packets: BTreeSet<u32> = run.results.order.iter().copied().collect();
        assert_eq!(packets.len(), run.results.order.len());
    });
}

#[test]
fn a_class_sends_its_packets_as_they_came() {
    each_list(|run| {
        for row in &run.case.rows {
            let own = |p: &&u32| run.case.events[**p as usize].class == row.identifier;
            let packets: Vec<&u32> = run.results.order.iter().filter(own).collect();
            assert!(packets.is_sorted());
        }
    });
}

#[test]
fn no_two_children_have_heads_of_the_same_place() {
    each_list(|run| {
        let (last, cut) = run.cut();
        let heads = cut.inside().expect("the list is accepted").heads;
        for (row, head) in heads.iter().enumerate() {
            let children = run.children(row);
            let below: Vec<u32> = children.iter().filter_map(|c| heads[*c]).collect();
            let places: BTreeSet<u32> = below.iter().copied().collect();
            assert_eq!(places.len(), below.len());
            // No place is made up, or lost on the way up.
            match head {
                _ if children.is_empty() => assert_eq!(*head, run.first_held(row, last)),
                Some(place) => assert!(places.contains(place)),
                None => assert!(places.is_empty()),
            }
        }
    });
}

#[test]
fn lags_are_those_the_order_tells_and_never_over_the_bound() {
    each_list(|run| {
        let (last, cut) = run.cut();
        let results = accepted(&cut);
        let largest = run.largest() as i64;
        assert_eq!(results.lags[0], 0);
        for (row, path) in run.paths.iter().enumerate().skip(1) {
            let Some(since) = run.backlog_since(row, last) else {
                assert_eq!(results.lags[row], 0);
                continue;
            };
            let stretch = since..last + 1;
            let [own, parents] = [row, path[1]].map(|r| run.bytes(r, stretch.clone()) as i64);
            let share = i64::from(run.case.rows[row].share);
            let lag = share * parents - 840 * own;
            assert_eq!(results.lags[row], lag);
            let ticks = run.ticks(row, stretch) as i64;
            assert!(840 * lag <= 840 * 2520 * largest + share * ticks);
        }
    });
}

#[test]
fn tags_and_byte_counts_are_never_over_the_bound() {
    each_list(|run| {
        let (last, cut) = run.cut();
        let results = accepted(&cut);
        let bound = (last as u64 + 1) * run.largest();
        for row in 0..run.case.rows.len() {
            let part = reported(&results, row);
            assert!(part[0] <= bound);
            assert!(part[1..4].iter().all(|tag| *tag <= 705_600 * bound));
        }
    });
}

/// The most the whole line can have sent while a class waited, as a numerator and a
/// denominator, from the class's own bytes and, for each step up, its share and its ticks.
fn most_of_the_line(steps: &[(u32, u64)], own: u32, three: u64) -> (u128, u128) {
    // The denominator is 840 times the product of the shares so far.
    let (mut numerator, mut product) = (840 * u128::from(own), 1);
    for (share, ticks) in steps {
        numerator = (numerator + 840 * u128::from(three) * product) * 840;
        product *= u128::from(*share);
        numerator += u128::from(*ticks) * product;
    }
    (numerator, 840 * product)
}

fn same_ticks(shares: &[u32], ticks: u64) -> Vec<(u32, u64)> {
    shares.iter().map(|share| (*share, ticks)).collect()
}

fn common_divisor(a: u128, b: u128) -> u128 {
    match b {
        0 => a,
        _ => common_divisor(b, a % b),
    }
}

/// The sheet's last figure is the same number in lowest terms, unless that is large unreduced.
fn sheet_agrees(shares: &[u32], own: u32, three: u64, ticks: u64) {
    let (numerator, denominator) = most_of_the_line(&same_ticks(shares, ticks), own, three);
    let figures = climb(own, three, ticks, shares);
    match figures.last().copied().flatten() {
        Some(figure) => {
            let divisor = common_divisor(numerator, denominator);
            assert_eq!(u128::from(figure.numerator), numerator / divisor);
            assert_eq!(u128::from(figure.denominator), denominator / divisor);
        }
        None => assert!(numerator > u128::from(u64::MAX)),
    }
}

/// Some stretch in which a class other than the root always held packets, if one is found.
fn some_stretch(run: &mut Run) -> Option<(usize, std::ops::Range<usize>)> {
    let class = run.random.between(1, run.case.rows.len() - 1);
    let last = run.random.below(run.case.events.len());
    let since = run.backlog_since(class, last)?;
    Some((class, run.random.between(since, last)..last + 1))
}

#[test]
fn a_waiting_class_gets_its_part_of_the_whole_line() {
    // Classes with a share on their way up that rounds, with one elsewhere, and with none.
    let mut seen = [0; 3];
    each_list(|run| {
        for _ in 0..20 {
            let Some((class, stretch)) = some_stretch(run) else {
                continue;
            };
            let own = run.bytes(class, stretch.clone()) as u32;
            let line = run.bytes(0, stretch.clone());
            let three = 3 * run.largest();
            let holds = |steps: &[(u32, u64)]| {
                let (numerator, denominator) = most_of_the_line(steps, own, three);
                u128::from(line) * denominator <= numerator
            };
            let shares = shares(&run.case.rows, &run.paths[class]);
            let rows = run.paths[class].iter().zip(&shares);
            let steps = rows.map(|(row, share)| (*share, run.ticks(*row, stretch.clone())));
            let steps: Vec<(u32, u64)> = steps.collect();
            assert!(holds(&steps));
            let exact = shares.iter().all(|share| is_exact(*share));
            assert!(!exact || holds(&same_ticks(&shares, 0)));
            let all_exact = run.case.rows[1..].iter().all(|row| is_exact(row.share));
            seen[usize::from(exact) + usize::from(all_exact)] += 1;
            // No row on the way up finished more packets than the last.
            let most = steps.last().map_or(2, |(_, ticks)| *ticks);
            let sheet = climb(own, three, most, &shares);
            if let Some(figure) = sheet.last().copied().flatten() {
                assert!(line <= figure.rounded_up());
            }
        }
    });
    assert!(seen.iter().all(|count| *count > 1000), "{seen:?}");
}

#[test]
fn a_sheet_has_the_number_for_the_line() {
    let mut random = Random::new(840, 1);
    for _ in 0..20_000 {
        let depth = random.between(1, 8);
        let shares: Vec<u32> = (0..depth).map(|_| any_share(&mut random)).collect();
        let three = 3 * random.between(1, MOST_BYTES as usize) as u64;
        let [own, packets] = [(); 2].map(|()| random.word() >> random.below(32));
        sheet_agrees(&shares, own, three, u64::from(packets) + 2);
        sheet_agrees(&shares, own, three, 0);
    }
}

#[test]
fn more_own_bytes_give_no_smaller_number() {
    let mut random = Random::new(840, 0);
    let mut grown = 0;
    for _ in 0..3000 {
        let rows = some_table(&mut random);
        let class = random.between(1, rows.len() - 1);
        let shares = shares(&rows, &paths(&rows)[class]);
        let three = 3 * random.between(1, MOST_BYTES as usize) as u64;
        let less = random.word() >> random.below(32);
        let more = less.saturating_add(random.word() >> random.below(32));
        let ticks = u64::from(random.word() >> random.below(32)) + 2;
        sheet_agrees(&shares, less, three, ticks);
        sheet_agrees(&shares, more, three, ticks);
        let last =
            [less, more].map(|own| climb(own, three, ticks, &shares).last().copied().flatten());
        if let [Some(one), Some(other)] = last {
            let products = [(one, other), (other, one)]
                .map(|(a, b)| u128::from(a.numerator) * u128::from(b.denominator));
            assert!(products[0] <= products[1]);
            assert_eq!(products[0] == products[1], less == more);
            grown += 1;
        }
    }
    assert!(grown > 2000);
}

#[test]
fn any_numbers_are_answered_and_a_refusal_writes_nothing() {
    let mut random = Random::new(840, 0);
    let mut numbers = BTreeSet::new();
    for _ in 0..30_000 {
        let [identifiers, parents, shares, classes, lengths] = careless_columns(&mut random);
        let table = TableSlices {
            identifiers: &identifiers,
            parents: &parents,
            shares: &shares,
        };
        let events = EventSlices {
            classes: &classes,
            lengths: &lengths,
        };
        let before = marked(random.below(7), random.below(7));
        let mut after = before.clone();
        let answer = run(table, events, after.lend());
        assert!(answer.number <= 15);
        assert!(answer.number == 0 || (after == before && answer.count == 0));
        assert_eq!(
            sentence(&answer, &table, &events).is_none(),
            answer.number == 0
        );
        // From inside there are no slices that could be too short.
        if answer.number != 3 {
            let refusal = (answer.number != 0).then_some(answer);
            assert_eq!(inside(table, events).err(), refusal);
        }
        numbers.insert(answer.number);
    }
    // Depth 9 needs more rows than these tables have.
    let expected: BTreeSet<u32> = (0..=15).filter(|n| *n != 9).collect();
    assert_eq!(numbers, expected);
}

/// Short columns with mostly plausible words: three of a table, then two of a list.
fn careless_columns(random: &mut Random) -> [Vec<u32>; 5] {
    let [rows, events] = [(); 2].map(|()| random.below(6));
    let plausible: [(usize, &[u32]); 5] = [
        (rows, &[1, 2, 3, 4, 5, 6, 7, 8, 9]),
        (rows, &[1, 2, 3, 4]),
        (rows, &[1, 2, 420, 840]),
        (events, &[0, 1, 2, 3, 4, 5]),
        (events, &[0, 0, 1, 100, 2049, MOST_BYTES]),
    ];
    let mut columns = plausible.map(|(length, words)| careless_column(length, words, random));
    if !random.one_in(10) {
        for (column, root) in columns.iter_mut().zip([1, 0, 0]) {
            column.first_mut().into_iter().for_each(|word| *word = root);
        }
    }
    columns
}

fn careless_column(length: usize, plausible: &[u32], random: &mut Random) -> Vec<u32> {
    let length = match random.one_in(20) {
        true => random.below(6),
        false => length,
    };
    let word = |_| match random.below(40) {
        0 => random.pick(&[0, u32::MAX]),
        1 => random.word(),
        _ => random.pick(plausible),
    };
    (0..length).map(word).collect()
}
