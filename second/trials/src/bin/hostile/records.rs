//! Captures whose records are odd or at the limits, and what each must be answered with.

use crate::captures::{
    done, of, over_table, refused, small, small_done, two, with_number, NUMBERS,
};
use crate::plan::{Input, Trial, Wanted};
use second::MOST_BYTES;
use trials::captures::{
    class_of, time, Capture, Layout, FILE_HEADER, LAYOUTS, MOST_CAPTURE, MOST_RECORDS,
    RECORD_HEADER,
};

pub fn odd_records() -> Vec<Trial> {
    let layouts = LAYOUTS.into_iter();
    let of_layouts = layouts.flat_map(|layout| {
        [
            included(layout),
            not_ipv4(layout),
            lengths(layout),
            stamps(layout),
        ]
    });
    let mut all: Vec<Trial> = of_layouts.flatten().collect();
    all.extend(ties());
    all.push(code_points());
    all.extend(rates());
    all.extend(classes());
    all.extend(many_records());
    all
}

/// More bytes said to be included than are there, and fewer than a packet's header has.
fn included(layout: Layout) -> Vec<Trial> {
    let mut all = Vec::new();
    for record in 0..2 {
        let name = |said: u32| format!("{layout}, record {record} includes {said}");
        let left = small(layout).offset(2) - small(layout).offset(record) - RECORD_HEADER;
        let far = [1 << 24, 1 << 31, (1 << 31) - 1, u32::MAX - 15, u32::MAX];
        for said in far.into_iter().chain([left as u32 + 1]) {
            let mut capture = small(layout);
            capture.records[record].included = said;
            all.push(of(name(said), &capture, refused(36, record)));
        }
        for said in [0, 1, 19] {
            let mut capture = small(layout);
            capture.records[record].packet.truncate(said as usize);
            capture.records[record].included = said;
            all.push(of(name(said), &capture, refused(37, record)));
        }
    }
    all
}

/// Each version and each length of a header.
fn not_ipv4(layout: Layout) -> Vec<Trial> {
    let versions = (0..16).map(|version| version << 4 | 5);
    let words = (0..16).map(|words| 4 << 4 | words);
    let with = |first: u8| {
        let mut capture = small(layout);
        capture.records[1].packet[0] = first;
        let wanted = match first {
            0x45..=0x4f => small_done(),
            _ => refused(37, 1),
        };
        of(
            format!("{layout}, a packet that begins {first:#04x}"),
            &capture,
            wanted,
        )
    };
    versions.chain(words).map(with).collect()
}

/// Original lengths of the first packet, and of the second, which is the second event.
fn lengths(layout: Layout) -> Vec<Trial> {
    let far = [(1 << 16) + 100, (1 << 31) + 100, u32::MAX];
    let lengths = [0, 1, MOST_BYTES, MOST_BYTES + 1].into_iter().chain(far);
    let with = |length: u32, record: usize| {
        let mut capture = small(layout);
        capture.records[record].original = length;
        let takes = time(length, 1_250_000);
        let wanted = match (length, record) {
            (1, 0) => done(["0,0,4,1,0,0,1", "2,1,3,1500,15,15,1215"].map(String::from)),
            (MOST_BYTES, 0) => done([
                format!("0,0,4,{length},0,0,{takes}"),
                format!("1,1,3,1500,15,{takes},{}", takes + 1200),
            ]),
            (1 | MOST_BYTES, _) => done([
                "0,0,4,100,0,0,80".to_string(),
                format!("1,1,3,{length},15,80,{}", 80 + takes),
            ]),
            _ => refused(13, record),
        };
        let name = format!("{layout}, record {record} of original length {length}");
        of(name, &capture, wanted)
    };
    lengths
        .flat_map(|length| [with(length, 0), with(length, 1)])
        .collect()
}

type Stamp = (u32, u32);

/// Two stamps, and where they are not refused by how many microseconds the second is later.
const STAMPS: [[(Stamp, Stamp, Option<u64>); 12]; 2] = [
    [
        ((1, 5), (1, 5), Some(0)),
        ((1, 5), (1, 4), None),
        ((5, 0), (4, 999_999), None),
        ((4, 999_999), (5, 0), Some(1)),
        ((0, 1_000_000), (1, 0), Some(0)),
        ((0, 1_000_001), (1, 0), None),
        ((0, u32::MAX), (4294, 967_295), Some(0)),
        ((0, u32::MAX), (4294, 967_294), None),
        ((u32::MAX, u32::MAX), (u32::MAX, u32::MAX), Some(0)),
        ((u32::MAX, u32::MAX), (u32::MAX, u32::MAX - 1), None),
        ((u32::MAX, u32::MAX), (0, 0), None),
        ((0, 0), (u32::MAX, u32::MAX), Some(4_294_971_589_967_295)),
    ],
    [
        ((1, 5001), (1, 5000), Some(0)),
        ((1, 5999), (1, 5000), Some(0)),
        ((1, 5000), (1, 4999), None),
        ((1, 5999), (1, 6000), Some(1)),
        ((5, 0), (4, 999_999_999), None),
        ((0, 1_000_000_999), (1, 0), Some(0)),
        ((0, 1_000_001_000), (1, 0), None),
        ((0, u32::MAX), (4, 294_967_000), Some(0)),
        ((0, u32::MAX), (4, 294_966_999), None),
        ((u32::MAX, u32::MAX), (u32::MAX, u32::MAX - 295), Some(0)),
        ((u32::MAX, u32::MAX), (u32::MAX, u32::MAX - 296), None),
        ((0, 0), (u32::MAX, u32::MAX), Some(4_294_967_299_294_967)),
    ],
];

fn stamps(layout: Layout) -> Vec<Trial> {
    let with = |(first, second, after): (Stamp, Stamp, Option<u64>)| {
        let mut capture = small(layout);
        for (record, stamp) in capture.records.iter_mut().zip([first, second]) {
            (record.seconds, record.fraction) = stamp;
        }
        let name = format!("{layout}, stamps {first:?}, {second:?}");
        of(name, &capture, after.map_or(refused(38, 1), two))
    };
    let stamps = STAMPS[usize::from(layout.nano)];
    stamps.into_iter().map(with).collect()
}

/// Arrivals a microsecond before, at and after a finish; and some at one with a packet waiting.
fn ties() -> Vec<Trial> {
    let layout = LAYOUTS[0];
    let mut all: Vec<Trial> = [79, 80, 81]
        .map(|after| {
            let records = vec![layout.record(0, 100, 46), layout.record(after, 1500, 8)];
            let name = format!("a second packet after {after}");
            of(name, &Capture::new(layout, records), two(after))
        })
        .into();
    let record = |(stamp, length, code_point)| layout.record(stamp, length, code_point);
    let waiting = [(7, 100, 46), (17, 9000, 8), (87, 1, 0), (7287, 1, 0)];
    let lines = [
        "0,0,4,100,0,0,80",
        "1,1,3,9000,10,80,7280",
        "3,2,5,1,80,7280,7281",
        "5,3,5,1,7280,7281,7282",
    ];
    let capture = Capture::new(layout, waiting.map(record).to_vec());
    all.push(of(
        "arrivals at a finish",
        &capture,
        done(lines.map(String::from)),
    ));
    all
}

/// Each value of the byte that a code point stands in, all of them on an idle line.
fn code_points() -> Trial {
    let record = |value: u8| {
        let mut record = LAYOUTS[3].record(10 * u64::from(value), 40, 0);
        record.packet[1] = value;
        record
    };
    let line = |value: u8| {
        let class = NUMBERS[class_of(value >> 2)];
        let (place, stamp) = (2 * u32::from(value), 10 * u32::from(value));
        format!("{place},{value},{class},40,{stamp},{stamp},{}", stamp + 1)
    };
    let capture = Capture::new(LAYOUTS[3], (0..=255).map(record).collect());
    let [first, second, third, _] = NUMBERS;
    over_table(
        "each code point",
        Input::Bytes(capture.bytes()),
        [first, second, third, "4294967295"],
        done((0..=255).map(line)),
    )
}

fn rates() -> Vec<Trial> {
    let slow = [
        "0,0,4,100,0,0,100000000",
        "1,1,3,1500,15,100000000,1600000000",
    ];
    let fast = ["0,0,4,100,0,0,1", "2,1,3,1500,15,15,16"];
    let rates = [
        ("0", refused(30, 0)),
        ("000", refused(30, 0)),
        ("1", done(slow.map(String::from))),
        ("0001", done(slow.map(String::from))),
        ("4294967295", done(fast.map(String::from))),
        ("1250001", two(15)),
    ];
    let of_rate = |(rate, wanted): (&'static str, Wanted)| {
        let capture = Input::Bytes(small(LAYOUTS[1]).bytes());
        over_table(
            format!("rate {rate}"),
            capture,
            with_number(3, rate),
            wanted,
        )
    };
    rates.into_iter().map(of_rate).collect()
}

/// Classes that are none, and what packets for them are answered with.
const CLASSES: [(&str, u32); 9] = [
    ("0", 13),
    ("1", 12),
    ("2", 12),
    ("6", 11),
    ("65535", 11),
    ("65536", 11),
    ("65539", 11),
    ("65540", 11),
    ("4294967295", 11),
];

/// Such a class as FIRST and SECOND, which have packets, of any length, and as THIRD, which has none.
fn classes() -> Vec<Trial> {
    let named = |place: usize, length: u32, (class, number): (&'static str, u32)| {
        let mut capture = small(LAYOUTS[2]);
        let wanted = match capture.records.get_mut(place) {
            Some(record) => {
                record.original = length;
                refused(number, place)
            }
            None => small_done(),
        };
        let name = format!("class {place} is {class}, length {length}");
        let capture = Input::Bytes(capture.bytes());
        over_table(name, capture, with_number(place, class), wanted)
    };
    let all =
        |class| [(0, 100), (0, 0), (1, 100), (1, 0), (2, 100)].map(|(p, l)| named(p, l, class));
    CLASSES.into_iter().flat_map(all).collect()
}

/// Records of one kind at the limits: of the list, of the file, and of time.
fn many_records() -> Vec<Trial> {
    let layout = LAYOUTS[2];
    let mut record = layout.record(0, MOST_BYTES, 46);
    (record.seconds, record.fraction) = (u32::MAX, u32::MAX);
    let with = |name: &str, count, edit: &dyn Fn(&mut Capture), wanted| {
        let mut capture = Capture::new(layout, vec![record.clone(); count]);
        edit(&mut capture);
        let capture = Input::Bytes(capture.bytes());
        over_table(
            format!("{count} records{name}"),
            capture,
            with_number(3, "1"),
            wanted,
        )
    };
    let each = time(MOST_BYTES, 1);
    let lines = (0..MOST_RECORDS as u64)
        .map(|i| format!("{i},{i},4,{MOST_BYTES},0,{},{}", i * each, (i + 1) * each));
    let [one_more, full] = [MOST_RECORDS + 1, (MOST_CAPTURE - FILE_HEADER) / 36];
    let back = |capture: &mut Capture| capture.records[MOST_RECORDS].fraction -= 1;
    let no_length = |capture: &mut Capture| capture.records[0].original = 0;
    let header = |capture: &mut Capture| capture.most = capture.offset(full - 1) + 15;
    let cut = |capture: &mut Capture| capture.most = MOST_CAPTURE;
    vec![
        with("", MOST_RECORDS, &|_| {}, done(lines)),
        with("", one_more, &|_| {}, refused(2, 0)),
        with(", one back", one_more, &back, refused(38, MOST_RECORDS)),
        with(", one of no length", one_more, &no_length, refused(2, 0)),
        with("", full, &|_| {}, refused(2, 0)),
        with(
            ", the last one's header cut",
            full,
            &header,
            refused(35, full - 1),
        ),
        with(", the last one cut", full + 1, &cut, refused(36, full)),
    ]
}
