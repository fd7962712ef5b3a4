//! The examples, the worked runs among them, by both engines: each comes out as its stored answer
//! says.

use std::fs;
use std::path::{Path, PathBuf};

use marginlilac::bytes::{self, Bytes};
use marginlilac::{run, run_heaps, Answer, Events, Results, Table, REPORT_WORDS};

type Engine = fn(Table, Events, Results) -> Answer;

const ENGINES: [Engine; 2] = [run, run_heaps];

/// The columns of a table and of a list, and room for the results.
struct Day {
    table: Vec<Vec<u32>>,
    events: Vec<Vec<u32>>,
    order: Vec<u32>,
    report: Vec<u64>,
    lags: Vec<i64>,
    working: Vec<u32>,
}

impl Day {
    fn read(folder: &Path) -> Day {
        Day::new(
            columns(folder, "table.csv", 3),
            columns(folder, "events.csv", 2),
        )
    }

    /// Room that is a word longer than it must be, and full of words that no run writes.
    fn new(table: Vec<Vec<u32>>, events: Vec<Vec<u32>>) -> Day {
        let [rows, list] = [table[0].len(), events[0].len()];
        Day {
            table,
            events,
            order: vec![u32::MAX; list + 1],
            report: vec![u64::MAX; REPORT_WORDS * rows + 1],
            lags: vec![i64::MIN; rows + 1],
            working: vec![u32::MAX; list + 1],
        }
    }

    fn run(&mut self, engine: Engine) -> Answer {
        let table = Table {
            identifiers: &self.table[0],
            parents: &self.table[1],
            shares: &self.table[2],
        };
        let events = Events {
            classes: &self.events[0],
            lengths: &self.events[1],
        };
        let results = Results {
            order: &mut self.order,
            report: &mut self.report,
            lags: &mut self.lags,
            working: &mut self.working,
        };
        engine(table, events, results)
    }

    /// What is printed of the run, but for the sentence on a refusal.
    fn printed(&self, answer: Answer) -> String {
        let mut text = format!(
            "answer,place,second,count\r\n{},{},{},{}\r\n",
            answer.number, answer.place, answer.second_place, answer.count
        );
        if answer.number != 0 {
            return text;
        }
        text += "order\r\n";
        for place in &self.order[..answer.count as usize] {
            text += &format!("{place}\r\n");
        }
        text += "identifier,bytes,start,finish,virtual,held,lag\r\n";
        let rows = self.report.chunks_exact(REPORT_WORDS).zip(&self.lags);
        for (identifier, (numbers, lag)) in self.table[0].iter().zip(rows) {
            let numbers: String = numbers.iter().map(|number| format!("{number},")).collect();
            text += &format!("{identifier},{numbers}{lag}\r\n");
        }
        text
    }

    /// Whether the words after the results are as they were, and the working slice is zero.
    fn is_within(&self) -> bool {
        let working = self.working.split_last();
        self.order.last() == Some(&u32::MAX)
            && self.report.last() == Some(&u64::MAX)
            && self.lags.last() == Some(&i64::MIN)
            && working.is_some_and(|(last, rest)| *last == u32::MAX && rest.iter().all(|w| *w == 0))
    }
}

fn text(folder: &Path, name: &str) -> String {
    fs::read_to_string(folder.join(name)).expect("an example has its files")
}

fn columns(folder: &Path, name: &str, count: usize) -> Vec<Vec<u32>> {
    let mut columns = vec![Vec::new(); count];
    for line in text(folder, name).lines().skip(1) {
        for (column, field) in columns.iter_mut().zip(line.split(',')) {
            column.push(field.parse().expect("a field is a number"));
        }
    }
    columns
}

/// The folders of the examples that are runs.
fn folders() -> Vec<PathBuf> {
    let examples = Path::new(env!("CARGO_MANIFEST_DIR")).join("../../examples");
    let inside = |folder: &Path| {
        let entries = fs::read_dir(folder).expect("the examples are there");
        entries.map(|entry| entry.expect("an example can be read").path())
    };
    let all = inside(&examples).chain(inside(&examples.join("worked")));
    all.filter(|folder| folder.join("events.csv").exists())
        .collect()
}

/// Whether a stored answer is a fault of the table's text, which is not looked at here.
fn is_of_text(stored: &str) -> bool {
    let answer = stored.lines().nth(1).unwrap_or("");
    let number = answer.split(',').next().unwrap_or("");
    (40..=47).any(|fault: u32| number == fault.to_string())
}

#[test]
fn every_example_comes_out_as_stored() {
    let folders = folders();
    assert!(folders.len() > 30);
    for folder in folders {
        let stored = text(&folder, "answer.csv");
        if is_of_text(&stored) {
            continue;
        }
        let kept = stored
            .split_inclusive('\n')
            .filter(|line| !line.starts_with("refused "));
        let stored: String = kept.collect();
        for engine in ENGINES {
            let mut day = Day::read(&folder);
            let answer = day.run(engine);
            assert_eq!(day.printed(answer), stored, "{}", folder.display());
            assert!(answer.number != 0 || day.is_within());
        }
    }
}

#[test]
fn slices_that_are_too_short_are_refused() {
    let halves = vec![vec![1, 10, 20], vec![0, 1, 1], vec![0, 420, 420]];
    let cut: [fn(&mut Day); 4] = [
        |day| day.order.truncate(1),
        |day| day.report.truncate(14),
        |day| day.lags.truncate(2),
        |day| day.working.truncate(1),
    ];
    for engine in ENGINES {
        for cut in cut {
            let mut day = Day::new(halves.clone(), vec![vec![10, 0], vec![100, 0]]);
            cut(&mut day);
            let answer = day.run(engine);
            assert_eq!((answer.number, answer.count), (3, 0));
            assert!(day.order.iter().chain(&day.working).all(|w| *w == u32::MAX));
            assert!(day.report.iter().all(|w| *w == u64::MAX));
            assert!(day.lags.iter().all(|w| *w == i64::MIN));
        }
    }
}

#[test]
fn part_words_are_refused_before_all_else() {
    for engine in [bytes::run, bytes::run_heaps] {
        for (order, answer) in [(1, 16), (0, 15), (0, 17), (0, 0)] {
            let [mut order, mut answer] = [order, answer].map(|length| vec![7; length]);
            let number = engine(Bytes {
                identifiers: &[],
                parents: &[],
                shares: &[],
                classes: &[],
                lengths: &[],
                order: &mut order,
                report: &mut [],
                lags: &mut [],
                working: &mut [],
                answer: &mut answer,
            });
            assert_eq!(number, 3);
            assert!(order.iter().chain(&answer).all(|byte| *byte == 7));
        }
    }
}
