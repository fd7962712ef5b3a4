//! Captures that are damaged, odd or at the limits, and what each must be answered with: what such
//! trials share, and the file's header.

use crate::capture_files::files_and_arguments;
use crate::plan::{bytes, plain, Input, Trial, Wanted, TABLE};
use crate::records::odd_records;
use trials::captures::{Capture, Layout, FILE_HEADER, LAYOUTS, RECORD_HEADER};
use trials::{Program, ANSWER, PACKETS};

/// Classes of the table that send, and a rate under which a byte takes four fifths of a microsecond.
pub const NUMBERS: [&str; 4] = ["4", "3", "5", "1250000"];

/// What a capture of one byte too many is answered with.
pub const TOO_LONG: &str = ": it has more than 4194304 bytes; \
                            cut its packets down, say with editcap -F pcap -s 64\n";

const MAGICS: [u32; 8] = [
    0x0a0d_0d0a,
    0xa1b2_cd34,
    0xa1b2_c3d5,
    0xa1b2_3c4c,
    0xb2a1_d4c3,
    0xc3d4_a1b2,
    0,
    u32::MAX,
];

const VERSIONS: [[u16; 2]; 9] = [
    [2, 3],
    [2, 5],
    [4, 2],
    [1, 4],
    [3, 4],
    [0, 0],
    [0x0102, 4],
    [2, 0x0104],
    [u16::MAX; 2],
];

const LINKS: [u32; 13] = [
    0,
    1,
    12,
    100,
    102,
    228,
    229,
    0x6500_0000,
    0x1000_0065,
    0x0001_0065,
    0x8000_0065,
    0x0000_6565,
    u32::MAX,
];

pub fn hostile_captures() -> Vec<Trial> {
    let of_layouts = LAYOUTS
        .into_iter()
        .flat_map(|layout| [headers(layout), fields(layout)]);
    let mut all: Vec<Trial> = of_layouts.flatten().collect();
    all.extend(cuts());
    all.extend(odd_records());
    all.extend(files_and_arguments());
    all
}

/// A trial over the table.
pub fn over_table(
    name: impl Into<String>,
    capture: Input,
    numbers: [&str; 4],
    wanted: Wanted,
) -> Trial {
    let numbers = numbers.map(plain);
    Trial {
        name: name.into(),
        program: Program::Capture,
        inputs: [&[capture, bytes(TABLE)], &numbers[..]].concat(),
        wanted: Some(wanted),
    }
}

/// One with the usual numbers.
pub fn of(name: impl Into<String>, capture: &Capture, wanted: Wanted) -> Trial {
    over_table(name, Input::Bytes(capture.bytes()), NUMBERS, wanted)
}

pub fn refused(number: u32, place: usize) -> Wanted {
    Wanted::Answer([number, place as u32])
}

pub fn done(packets: impl IntoIterator<Item = String>) -> Wanted {
    let packets: Vec<String> = packets.into_iter().collect();
    let answer = format!("0,0,0,{}", packets.len());
    let first = [ANSWER.to_string(), answer, PACKETS.to_string()];
    Wanted::Lines(first.into_iter().chain(packets).collect())
}

/// A packet of 100 bytes for class 4 and one of 1,500 for class 3, 15 microseconds later.
pub fn small(layout: Layout) -> Capture {
    let records = vec![layout.record(10, 100, 46), layout.record(25, 1500, 8)];
    Capture::new(layout, records)
}

/// What becomes of these two where the second arrives so many microseconds after the first, which
/// takes 80.
pub fn two(after: u64) -> Wanted {
    let place = if after < 80 { 1 } else { 2 };
    let sent = after.max(80);
    let finished = sent + 1200;
    done([
        "0,0,4,100,0,0,80".to_string(),
        format!("{place},1,3,1500,{after},{sent},{finished}"),
    ])
}

pub fn small_done() -> Wanted {
    two(15)
}

/// The usual numbers but one, the place of which is given.
pub fn with_number(place: usize, number: &str) -> [&str; 4] {
    let mut numbers = NUMBERS;
    numbers[place] = number;
    numbers
}

/// The small capture with its header edited.
fn edited(layout: Layout, name: &str, edit: impl Fn(&mut Capture), wanted: Wanted) -> Trial {
    let mut capture = small(layout);
    edit(&mut capture);
    of(format!("{layout}, {name}"), &capture, wanted)
}

fn headers(layout: Layout) -> Vec<Trial> {
    let with = |name, edit: fn(&mut Capture), wanted| edited(layout, name, edit, wanted);
    vec![
        with("whole", |_| {}, small_done()),
        with(
            "other unread words",
            |c| c.unread = [u32::MAX; 3],
            small_done(),
        ),
        with(
            "magic turned",
            |c| c.magic = c.magic.swap_bytes(),
            refused(33, 0),
        ),
        with(
            "link type turned",
            |c| c.link = c.link.swap_bytes(),
            refused(34, 0),
        ),
        with(
            "two wrong",
            |c| (c.version, c.link) = ([0; 2], 0),
            refused(33, 0),
        ),
        with(
            "all wrong",
            |c| (c.magic, c.version, c.link) = (1, [0; 2], 0),
            refused(32, 0),
        ),
    ]
}

/// Each field of the header in other forms.
fn fields(layout: Layout) -> Vec<Trial> {
    let magic = |magic: u32| {
        let name = format!("magic {magic:#010x}");
        edited(
            layout,
            &name,
            |capture| capture.magic = magic,
            refused(32, 0),
        )
    };
    let version = |version: [u16; 2]| {
        let name = format!("version {version:?}");
        edited(
            layout,
            &name,
            |capture| capture.version = version,
            refused(33, 0),
        )
    };
    let link = |link: u32| {
        let name = format!("link type {link:#010x}");
        edited(layout, &name, |capture| capture.link = link, refused(34, 0))
    };
    let magics = MAGICS.into_iter().map(magic);
    let versions = VERSIONS.into_iter().map(version);
    magics
        .chain(versions)
        .chain(LINKS.into_iter().map(link))
        .collect()
}

/// The small capture cut off at each place.
fn cuts() -> Vec<Trial> {
    let mut capture = small(LAYOUTS[0]);
    let cut = |most: usize| {
        capture.most = most;
        let record = usize::from(most >= capture.offset(1));
        let wanted = match most.checked_sub(capture.offset(record)) {
            _ if most < FILE_HEADER => refused(31, 0),
            Some(0) if record == 0 => done([]),
            Some(0) => done(["0,0,4,100,0,0,80".to_string()]),
            Some(left) if left < RECORD_HEADER => refused(35, record),
            _ => refused(36, record),
        };
        of(format!("cut after {most} bytes"), &capture, wanted)
    };
    (0..small(LAYOUTS[0]).offset(2)).map(cut).collect()
}
