//! The program's stored cases: the two files of each, and what document 01 and the Rust original say that the program
//! prints; with the border that the Rust has not (document 02, K2) its pixels are a plain restatement's (`line`).

use crate::degrees::{BEYOND, LAST};
use crate::reader::printed;
use std::path::Path;

/// The fields of a record, in the order of its bytes.
#[derive(Clone, Copy, Default)]
struct Record {
    width: u16,
    height: u16,
    direction: u8,
    border: u8,
    value: u8,
    filter: u8,
    length: u16,
    iterations: u16,
    q: u32,
    angle: f64,
    estimate: f64,
}

const DOCUMENT: Record = Record {
    width: 5,
    height: 1,
    direction: 0,
    border: 0,
    value: 0,
    filter: 1,
    length: 3,
    iterations: 1,
    q: 65536,
    angle: 0.0,
    estimate: 0.0,
};
const ROW: [u8; 5] = [10, 10, 40, 10, 10];

impl Record {
    fn bytes(&self) -> Vec<u8> {
        let mut bytes = Vec::new();
        bytes.extend(self.width.to_le_bytes());
        bytes.extend(self.height.to_le_bytes());
        bytes.extend([self.direction, self.border, self.value, self.filter]);
        bytes.extend(self.length.to_le_bytes());
        bytes.extend(self.iterations.to_le_bytes());
        bytes.extend(self.q.to_le_bytes());
        bytes.extend(self.angle.to_bits().to_le_bytes());
        bytes.extend(self.estimate.to_bits().to_le_bytes());
        bytes
    }
}

fn picture(width: usize, height: usize, at: impl Fn(usize, usize) -> u8) -> Vec<u8> {
    (0..width * height).map(|place| at(place % width, place / width)).collect()
}

/// Numbers that no filter leaves as they are.
fn mixed(width: usize, height: usize) -> Vec<u8> {
    picture(width, height, |c, r| ((c * c * 7 + r * 29 + c * r * 13) % 256) as u8)
}

/// Blocks of 8 by 8, smeared over 7 pixels along the rows, or along the columns.
fn smeared(side: usize, along_rows: bool) -> Vec<u8> {
    let block = |c: usize, r: usize| if (c / 8 * 5 + r / 8 * 3 + c / 8 * (r / 8)) % 2 == 0 { 40u32 } else { 210 };
    picture(side, side, |c, r| {
        let (along, across) = if along_rows { (c, r) } else { (r, c) };
        let places = (0..7).map(|i| (along + i).clamp(3, side + 2) - 3);
        let sum: u32 = places.map(|p| if along_rows { block(p, across) } else { block(across, p) }).sum();
        (sum / 7) as u8
    })
}

/// Nine long diagonals, each rising from end to end with a jump at both ends; stripes along the others.
fn long_rises(side: usize) -> Vec<u8> {
    picture(side, side, |c, r| {
        let (off, place, last) = (c.abs_diff(r), c.min(r), side - 1 - c.abs_diff(r));
        match place {
            _ if off > 4 => (off / 3 % 2 * 255) as u8,
            0 => 0,
            _ if place == last => 200,
            _ => (44 + 112 * place / last) as u8,
        }
    })
}

/// What stands by the name of a file that the program reads.
enum File {
    Missing,
    Folder,
    Bytes(Vec<u8>),
}
use File::{Bytes, Folder, Missing};

impl File {
    /// A missing file counts as empty; so does a folder, of which no byte can be read.
    fn read(&self) -> &[u8] {
        match self {
            Missing | Folder => &[],
            Bytes(bytes) => bytes,
        }
    }

    fn write(&self, path: &Path) -> std::io::Result<()> {
        match self {
            Missing => Ok(()),
            // git keeps no empty folder
            Folder => std::fs::create_dir_all(path).and_then(|()| std::fs::write(path.join("kept"), "")),
            Bytes(bytes) => std::fs::write(path, bytes),
        }
    }
}

struct Stored {
    name: &'static str,
    job: File,
    picture: File,
    expected: Vec<u8>,
}

fn stored(name: &'static str, job: File, picture: File) -> Stored {
    let expected = printed(job.read(), picture.read()).expect("no tie of direction");
    Stored { name, job, picture, expected }
}

fn case(name: &'static str, job: Record, picture: Vec<u8>) -> Stored {
    stored(name, Bytes(job.bytes()), Bytes(picture))
}

/// A case whose output begins so by a document's own words.
fn stated(case: Stored, words: &[u8]) -> Stored {
    assert_eq!(&case.expected[..words.len()], words, "{}", case.name);
    case
}

/// A file that is no job.
fn no_job(name: &'static str, job: File) -> Stored {
    stated(stored(name, job, Bytes(ROW.to_vec())), b"refused 13\n")
}

fn whole(width: u16, height: u16) -> Record {
    Record { width, height, length: 0, iterations: 3, ..DOCUMENT }
}

fn document() -> Vec<Stored> {
    let row = |name, job, pixels: [u8; 5]| stated(case(name, job, ROW.to_vec()), &pixels);
    let ramps = [0, 0, 0, 50, 100, 150, 200, 250, 250, 250].repeat(3);
    vec![
        row("restoration-one", DOCUMENT, [10, 0, 60, 0, 10]),
        row("restoration-two", Record { iterations: 2, ..DOCUMENT }, [14, 0, 80, 0, 14]),
        row("unsharp", Record { filter: 2, iterations: 0, q: 98304, ..DOCUMENT }, [10, 0, 70, 0, 10]),
        row("binomial", Record { width: 5, height: 1, filter: 3, ..Record::default() }, [8, 2, 59, 2, 8]),
        stated(case("whole-job-nothing", whole(10, 3), ramps), b"refused 11\n"),
    ]
}

/// Document 02, K2, "Drum labels": on the row a window of 3 reaches round an end, one of 11 goes round twice.
fn wraps() -> Vec<Stored> {
    let round = Record { border: 3, ..DOCUMENT };
    let row = |name, job, pixels: [u8; 5]| stated(case(name, job, vec![40, 10, 10, 10, 10]), &pixels);
    let line = Record { width: 16, height: 12, length: 7, iterations: 4, ..round };
    vec![
        row("restoration-row-wrap", round, [60, 0, 10, 10, 0]),
        row("restoration-row-wrap-twice-round", Record { length: 11, ..round }, [62, 5, 5, 5, 5]),
        case("restoration-down-right-wrap", Record { angle: 0.75, ..line }, mixed(16, 12)),
        case("restoration-down-left-wrap", Record { angle: 2.3, length: 31, q: 45875, ..line }, mixed(16, 12)),
        case("unsharp-vertical-wrap", Record { filter: 2, iterations: 0, angle: 1.6, ..line }, mixed(16, 12)),
        case("whole-job-wrap", Record { border: 3, ..whole(48, 48) }, smeared(48, true)),
    ]
}

fn filters() -> Vec<Stored> {
    let line = Record { width: 16, height: 12, length: 5, iterations: 4, q: 45875, ..DOCUMENT };
    let sharp = Record { filter: 2, iterations: 0, ..line };
    let pixels = || mixed(16, 12);
    vec![
        case("restoration-horizontal-reflect", Record { border: 1, ..line }, pixels()),
        case("restoration-down-right-replicate", Record { angle: 0.75, ..line }, pixels()),
        case(
            "restoration-vertical-constant",
            Record { angle: 1.5, border: 2, value: 90, length: 33, ..line },
            pixels(),
        ),
        case("restoration-down-left-22", Record { angle: -1.0, iterations: 22, q: 65536, border: 1, ..line }, pixels()),
        // document 02, K7
        case("restoration-last-angle", Record { angle: LAST, ..line }, pixels()),
        case("unsharp-last-angle-negated", Record { angle: -LAST, ..sharp }, pixels()),
        case("restoration-q-0", Record { angle: 3.0, q: 0, ..line }, pixels()),
        case("unsharp-vertical-reflect", Record { angle: 1.6, border: 1, q: 524288, ..sharp }, pixels()),
        case(
            "unsharp-down-left-constant",
            Record { angle: 2.3, border: 2, value: 255, q: 1, length: 31, ..sharp },
            pixels(),
        ),
        case("binomial-picture", Record { width: 16, height: 12, filter: 3, ..Record::default() }, pixels()),
        case("binomial-largest", Record { width: 64, height: 64, filter: 3, ..Record::default() }, mixed(64, 64)),
        case("whole-job-rows", whole(48, 48), smeared(48, true)),
        case("whole-job-columns", Record { border: 2, value: 128, q: 52429, ..whole(56, 56) }, smeared(56, false)),
        stated(case("whole-job-too-long", whole(40, 40), long_rises(40)), b"refused 12\n"),
    ]
}

/// Each way in which the two files can be there or not. Of a job 33 bytes are asked for, of a picture 4,096.
fn files() -> Vec<Stored> {
    let job = || DOCUMENT.bytes();
    let picture = |name, picture: File, words: &[u8]| stated(stored(name, Bytes(job()), picture), words);
    let no_picture = |name, file| picture(name, file, b"refused 4\n");
    let restored =
        |name, surplus: usize| picture(name, Bytes([&ROW[..], &vec![77; surplus]].concat()), &[10, 0, 60, 0, 10]);
    vec![
        no_job("job-missing", Missing),
        no_job("job-folder", Folder),
        no_job("job-empty", Bytes(Vec::new())),
        no_job("job-short", Bytes(job()[..31].to_vec())),
        no_job("job-long-by-1", Bytes([job(), vec![0]].concat())),
        no_job("job-longer-than-asked", Bytes(job().repeat(2))),
        no_picture("picture-missing", Missing),
        no_picture("picture-folder", Folder),
        no_picture("picture-empty", Bytes(Vec::new())),
        no_picture("picture-short", Bytes(ROW[..4].to_vec())),
        restored("picture-long-by-1", 1),
        restored("picture-longer-than-asked", 4096),
        stated(stored("both-missing", Missing, Missing), b"refused 13\n"),
        stated(stored("both-folders", Folder, Folder), b"refused 13\n"),
    ]
}

/// Standard output that takes nothing, as the name says it to `crates/smear/cases/run`: nothing is written.
fn outputs() -> Vec<Stored> {
    let unwritten = |name| Stored { expected: Vec::new(), ..case(name, DOCUMENT, ROW.to_vec()) };
    vec![unwritten("output-closed"), unwritten("output-full")]
}

fn refusals() -> Vec<Stored> {
    let huge = Record { width: 65, height: 64, length: 3, ..DOCUMENT };
    let large = |name, job: Record, picture| stated(stored(name, Bytes(job.bytes()), picture), b"too large\n");
    let record = |name, job: Record| no_job(name, Bytes(job.bytes()));
    vec![
        large("too-large", huge, Bytes(mixed(64, 64))),
        large("too-large-no-picture", Record { width: 1024, height: 1024, ..huge }, Missing),
        record("record-result", Record { direction: 2, angle: 1.5, ..DOCUMENT }),
        record("record-estimate", Record { estimate: 2.5, ..DOCUMENT }),
        record("record-width-0", Record { width: 0, ..DOCUMENT }),
        record("record-height-1025", Record { height: 1025, ..DOCUMENT }),
        record("record-length-13", Record { length: 13, ..DOCUMENT }),
        record("record-23-iterations", Record { iterations: 23, ..DOCUMENT }),
        record("record-q-65537", Record { q: 65537, ..DOCUMENT }),
        record("record-angle-infinite", Record { angle: f64::INFINITY, ..DOCUMENT }),
        // document 02, K7
        record("record-angle-beyond-degrees", Record { angle: BEYOND, ..DOCUMENT }),
        record("record-unsharp-angle-largest", Record { angle: f64::MAX, filter: 2, iterations: 0, ..DOCUMENT }),
        record("record-border-4", Record { border: 4, ..DOCUMENT }),
        record("record-wrap-value-7", Record { border: 3, value: 7, ..DOCUMENT }),
        record("record-filter-4", Record { filter: 4, ..DOCUMENT }),
        record("record-whole-job-angle", Record { angle: 0.75, ..whole(5, 1) }),
    ]
}

/// Writes a folder for each case: job.rec and picture.raw, unless they are missing, and expected.
pub fn write(dir: &str) {
    let cases: Vec<Stored> =
        [document(), wraps(), filters(), files(), outputs(), refusals()].into_iter().flatten().collect();
    println!("{} cases of the program written to {dir}", cases.len());
    for case in cases {
        let own = Path::new(dir).join(case.name);
        std::fs::create_dir_all(&own).expect("a case has a folder");
        for (name, file) in [("job.rec", case.job), ("picture.raw", case.picture), ("expected", Bytes(case.expected))] {
            file.write(&own.join(name)).expect("a case can be written");
        }
    }
}
