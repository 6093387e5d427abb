//! Compares the proved library with the Rust original: the same inputs, from a seeded generator, through the C
//! interface. What the original has not is compared with a plain restatement: the sheet (`sheet`), PGM files (`pgm`),
//! the floor of the whole job (`confidence`), and the line filters with Wrap (`line`), which are counted by themselves.
//! So are angles that have no direction (`degrees`), with which the original is not run. Of halvings it has one, which
//! runs again on its own answer for more (`halve`).
//! Ends with status 1 at the first difference, which it prints as small as it can make it; intended ones are shown
//! first (`differences`).

mod angle;
mod binomial;
mod case;
mod cases;
mod confidence;
mod degrees;
mod differences;
mod direction;
#[path = "../../bindings/src/raw.rs"]
mod ffi;
mod halve;
mod job;
mod length;
mod lent;
mod line;
mod pgm;
mod picture;
mod program;
mod random;
mod read_pgm;
mod reader;
mod record;
mod restoration;
mod settings;
mod sheet;
mod summarize;
mod vectors;
mod write_pgm;

use case::Tally;
use random::Random;
use restoration::Call;

const USAGE: &str = "usage: oracle [--seed N] [--count N] [--only CALL]
  --seed N        another run of the generator (default 1)
  --count N       inputs of each call, beside the fixed ones (default 30000)
  --only CALL     only the calls whose names begin so
  --vectors PATH  instead writes the Rust's answers to chosen inputs
  --cases DIR     instead writes the program's stored cases";

type Compare = fn(&mut Random, usize, &mut Tally);

const CALLS: [(&str, Compare); 34] = [
    ("from_angle", angle::compare),
    ("estimate_line_direction", direction::compare),
    ("estimate_line_length", length::compare),
    ("fixed_binomial_unsharp", binomial::compare),
    ("van_cittert_line", |random, count, tally| restoration::compare(random, count, tally, Call::Restore)),
    ("van_cittert_estimate", |random, count, tally| restoration::compare(random, count, tally, Call::Estimate)),
    ("directional_unsharp_line", |random, count, tally| restoration::compare(random, count, tally, Call::Unsharp)),
    ("rotated: Wrap", restoration::rotated::compare),
    ("restore", job::compare),
    ("smear_run: jobs", program::jobs),
    ("smear_run: prefixes", program::prefixes),
    ("smear_run: changed bytes", program::changes),
    ("smear_run: borders", program::borders),
    ("smear_run: angles", program::angles),
    ("smear_run: random bytes", program::noise),
    ("smear_run: short pictures", program::pictures),
    ("smear_run: room", program::room),
    ("summarize: files", summarize::files),
    ("summarize: changed bytes", summarize::changes),
    ("summarize: borders", summarize::borders),
    ("summarize: angles", summarize::angles),
    ("summarize: limits", summarize::limits),
    ("summarize: reordered", summarize::reordered),
    ("read_pgm: headers", read_pgm::headers),
    ("read_pgm: changed bytes", read_pgm::changes),
    ("read_pgm: prefixes", read_pgm::prefixes),
    ("read_pgm: short files", read_pgm::short),
    ("read_pgm: limits", read_pgm::limits),
    ("write_pgm: pictures", write_pgm::pictures),
    ("write_pgm: sides", write_pgm::sides),
    ("halve: shapes", halve::shapes),
    ("halve: pictures", halve::pictures),
    ("halve: sides", halve::sides),
    ("halve: sums", halve::sums),
];

fn usage() -> ! {
    eprintln!("{USAGE}");
    std::process::exit(2);
}

fn main() {
    let (mut seed, mut count, mut only) = (1, 30_000, String::new());
    let mut args = std::env::args().skip(1);
    while let Some(arg) = args.next() {
        let value = args.next().unwrap_or_else(|| usage());
        match arg.as_str() {
            "--seed" => seed = value.parse().unwrap_or_else(|_| usage()),
            "--count" => count = value.parse().unwrap_or_else(|_| usage()),
            "--only" => only = value,
            "--vectors" => return vectors::write(&value),
            "--cases" => return cases::write(&value),
            _ => usage(),
        }
    }
    // a name that is mistyped would compare nothing
    if !CALLS.iter().any(|(name, _)| name.starts_with(&only)) {
        usage();
    }
    if only.is_empty() {
        differences::check();
    }
    let mut all = Tally::new("all but from_angle");
    println!(
        "{:<28} {:>10} {:>10} {:>12} {:>10} {:>10}",
        "call", "alike", "Wrap", "no direction", "refused", "left out"
    );
    for (name, compare) in CALLS.into_iter().filter(|(name, _)| name.starts_with(&only)) {
        let mut tally = Tally::new(name);
        compare(&mut Random::new(seed), count, &mut tally);
        println!("{tally}");
        if name != "from_angle" {
            all.add(&tally);
        }
    }
    println!("{all}");
    println!(
        "Wrap: left out of the runs against the Rust, which has no such border; alike with a plain restatement, \
         and rotated with itself\n\
         no direction: the angle or its value in degrees is not finite; left out of the runs against the Rust, which \
         has a direction for it: from_angle answers 4, the other calls refuse; such a record counts as refused"
    );
}
