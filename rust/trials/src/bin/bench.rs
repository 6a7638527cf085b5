//! `bench [--clear] [--rounds N] [--slow | --worst]`: nanoseconds a byte of both
//! readers, on the same texts in one run, and their ratio; then of their UTF-8
//! checks alone, beside Rust's own; then of salvaging the logs that take longest.
//! `--slow` adds the slowest text known to the reader that compared all keys.
//! `--worst` times, in place of all these, the texts of `hostile`: objects of some
//! keys, and the worst for doubled keys.

use std::fmt::Write as _;
use std::hint::black_box;
use std::time::{Duration, Instant};

use trials::hostile::{self, Hostile};
use trials::salvaging::{self, Salvager};

/// A text to time, and the table's length in words.
struct Bench {
    name: String,
    text: Vec<u8>,
    words: usize,
    /// Number and place if it is refused.
    refusal: Option<(u32, u64)>,
    /// Calls in a row that are timed as one, for texts so short that looking at the
    /// clock would count.
    calls: u32,
}

impl Bench {
    fn new(name: impl Into<String>, text: Vec<u8>, words: usize) -> Bench {
        Bench { name: name.into(), text, words, refusal: None, calls: 1 }
    }

    fn of(hostile: Hostile) -> Bench {
        let Hostile { name, text, refusal } = hostile;
        // A table of all rows would take longer to clear than a short text to read.
        let is_short = text.len() < 100;
        let words = if is_short { 12 * text.len() / 4 } else { FULL };
        Bench { name, text, words, refusal, calls: if is_short { 1_000 } else { 1 } }
    }
}

type Reader = fn(&[u8], &mut [u32]) -> Result<usize, (u32, u64)>;

#[cfg(feature = "against")]
const READERS: &[(&str, Reader)] = &[
    ("duper", |text, table| {
        duper::read(text, table).map_err(|refusal| (refusal.number, refusal.place.into()))
    }),
    ("second", trials::check::second_read),
];
#[cfg(not(feature = "against"))]
const READERS: &[(&str, Reader)] = &[("second", trials::check::second_read)];

const SALVAGERS: &[(&str, Salvager)] = &[
    #[cfg(feature = "against")]
    ("duper", trials::against::SALVAGING.salvager),
    ("second", salvaging::second_salvage),
];

/// Answers the length of the longest front that is UTF-8.
type Check = fn(&[u8]) -> usize;

const CHECKS: &[(&str, Check)] = &[
    #[cfg(feature = "against")]
    ("duper", |bytes| duper::utf8(bytes).front),
    ("second", |bytes| second::utf8::check(bytes).front),
    ("std", |bytes| match std::str::from_utf8(bytes) {
        Ok(text) => text.len(),
        Err(error) => error.valid_up_to(),
    }),
];

/// Rows for every node a text can have.
const FULL: usize = 4096 * 12;

/// A season's record of a ball.
fn record(ball: usize) -> String {
    let height = match ball % 7 {
        0 => "null".to_string(),
        3 => format!("Millimetres({}.{})", ball % 900, ball % 10),
        _ => format!("{}.{:02}", ball % 900, ball % 100),
    };
    format!(
        "{{ ball: {ball}, rig: \"north end, camera 2\", height: {height}, \"pitch\\x20no\": {}, \
         seen: true }}",
        ball % 30
    )
}

/// A season's records, as many as fit, then spaces up to the length.
fn season(length: usize) -> Vec<u8> {
    let mut text = String::from("// Bounce heights in millimetres.\nSeason([\n");
    for ball in 0.. {
        let record = format!("  {}, // over {}\n", record(ball), ball / 6);
        if text.len() + record.len() + 3 > length {
            break;
        }
        text.push_str(&record);
    }
    text.push_str("])\n");
    let mut text = text.into_bytes();
    text.resize(length.max(text.len()), b' ');
    text
}

/// The same as JSON would have it, within 4,096 nodes.
fn json() -> Vec<u8> {
    let mut text = String::from("[");
    for number in 0..680 {
        let comma = if number == 0 { "" } else { "," };
        let _ = write!(
            text,
            "{comma}{{\"id\":{number},\"name\":\"record number {number}\",\"height\":{}.5,\
             \"valid\":{},\"note\":null}}",
            number % 400,
            number % 2 == 0
        );
    }
    text.push(']');
    text.into_bytes()
}

/// One object of 4,000 keys: this opening, a number, and this close.
fn keys(open: &str, close: &str) -> Vec<u8> {
    let pairs: Vec<_> = (0..4000).map(|n| format!("{open}{n:04}{close}:{}", n % 10)).collect();
    format!("{{{}}}", pairs.join(",")).into_bytes()
}

fn benches(slow: bool) -> Vec<Bench> {
    let long = format!("[\"{}\"]", "x".repeat(65_532)).into_bytes();
    // With the array itself that makes 4,096 nodes.
    let nulls = format!("[{}null]", "null,".repeat(4094)).into_bytes();
    let mut benches = vec![
        Bench::new("season file", season(65_536), FULL),
        Bench::new("JSON-like records", json(), FULL),
        Bench::new("one long string", long, FULL),
        Bench::new("4,000 keys, one object", keys("key", ""), FULL),
        Bench::new("4,000 keys in quotes", keys("\"key", "\""), FULL),
        Bench::new("4,000 keys, escapes", keys("\"\\x6b", "\""), FULL),
        Bench::new("4,095 nulls, one array", nulls, FULL),
    ];
    if slow {
        benches.push(Bench::of(hostile::spellings()));
    }
    for kib in [1, 2, 4, 8, 16, 32, 64] {
        let text = season(kib * 1024);
        // Growth is shown with a table that grows along: one row for every 16
        // bytes is what these records need.
        let words = text.len() / 16 * 12;
        benches.push(Bench::new(format!("season, {kib} KiB"), text, words));
    }
    benches
}

/// The median and least time of so many calls, one after the other each round;
/// `call` makes the one of that number and answers the time it took.
fn in_turn(
    calls: usize,
    rounds: usize,
    mut call: impl FnMut(usize) -> Duration,
) -> Vec<(Duration, Duration)> {
    let mut times = vec![Vec::with_capacity(rounds); calls];
    for round in 0..rounds + 2 {
        for (at, times) in times.iter_mut().enumerate() {
            let taken = call(at);
            // The first two rounds warm up.
            if round >= 2 {
                times.push(taken);
            }
        }
    }
    times
        .into_iter()
        .map(|mut times| {
            times.sort();
            (times[times.len() / 2], times[0])
        })
        .collect()
}

/// The times of each reader.
fn time(bench: &Bench, rounds: usize, clear: bool) -> Vec<(Duration, Duration)> {
    let mut tables = vec![vec![0u32; bench.words]; READERS.len()];
    in_turn(READERS.len(), rounds, |at| {
        let (_, reader) = READERS[at];
        if clear {
            tables[at].fill(0);
        }
        let mut answer = Ok(0);
        let started = Instant::now();
        for _ in 0..bench.calls {
            answer = reader(black_box(&bench.text), black_box(&mut tables[at]));
        }
        let taken = started.elapsed() / bench.calls;
        if answer.err() != bench.refusal {
            panic!("{}: answered {answer:?}", bench.name);
        }
        taken
    })
}

/// The times of each UTF-8 check.
fn time_checks(name: &str, text: &str, rounds: usize) -> Vec<(Duration, Duration)> {
    in_turn(CHECKS.len(), rounds, |at| {
        let (_, check) = CHECKS[at];
        let started = Instant::now();
        let front = black_box(check(black_box(text.as_bytes())));
        let taken = started.elapsed();
        assert_eq!(front, text.len(), "{name}");
        taken
    })
}

/// The UTF-8 checks alone, on texts of 65,536 bytes.
fn print_checks(rounds: usize) {
    println!();
    println!("The UTF-8 check alone. Nanoseconds a byte, median (least) of {rounds} rounds.");
    print!("{:<24}{:>7}", "text", "bytes");
    for (name, _) in CHECKS {
        print!("{name:>18}");
    }
    println!("{}", if cfg!(feature = "against") { "     ratio" } else { "" });
    let mixed = format!("{}é", "x".repeat(30));
    for (name, text) in [
        ("ASCII", "x".repeat(65_536)),
        ("é alone", "é".repeat(32_768)),
        ("one é in 32 bytes", mixed.repeat(2_048)),
    ] {
        print!("{name:<24}{:>7}", text.len());
        let times = time_checks(name, &text, rounds);
        let a_byte = |time: Duration| time.as_nanos() as f64 / text.len() as f64;
        for (median, least) in &times {
            print!("{:>9.3} ({:>6.3})", a_byte(*median), a_byte(*least));
        }
        // As above, that of `duper` to `second`.
        if let [(ours, _), (theirs, _), _] = times[..] {
            print!("{:>10.2}", ours.as_secs_f64() / theirs.as_secs_f64());
        }
        println!();
    }
}

/// A log to time, and the table's length in words.
struct Logged {
    name: &'static str,
    log: Vec<u8>,
    words: usize,
}

/// The logs that take longest: as many lines as can be, and as many nodes; a log as
/// rigs write it; and one line that is slow to read.
fn logs() -> Vec<Logged> {
    let records: Vec<_> = (0..660).map(|ball| record(ball) + "\n").collect();
    let records = records.concat().into_bytes();
    let cut = &records[..records.len() - 30];
    let logged = |name, log: &[u8], words| Logged { name, log: log.to_vec(), words };
    vec![
        logged("65,536 empty lines", &b"\n".repeat(65_536), FULL),
        logged("the same, table of a row", &b"\n".repeat(65_536), 12),
        logged("32,768 lines of [", &b"[\n".repeat(32_768), FULL),
        logged("21,845 lines of []", &b"[]\n".repeat(21_845), FULL),
        logged("4,095 lines of []", &b"[]\n".repeat(4_095), FULL),
        logged("season records, cut off", cut, FULL),
        logged("one line of 31 long keys", &hostile::long_keys().text, FULL),
    ]
}

/// The times of each salvager, and what they answer, which must be the same.
fn time_salvages(
    Logged { name, log, words }: &Logged,
    rounds: usize,
) -> (Vec<(Duration, Duration)>, salvaging::Answer) {
    let mut tables = vec![vec![0u32; *words]; SALVAGERS.len()];
    let (mut out, mut verdicts) = (vec![0; 65_536], vec![0; log.len()]);
    let mut answers = vec![None; SALVAGERS.len()];
    let times = in_turn(SALVAGERS.len(), rounds, |at| {
        let (_, salvager) = SALVAGERS[at];
        let started = Instant::now();
        let answer = salvager(black_box(log), &mut tables[at], &mut out, &mut verdicts);
        let taken = started.elapsed();
        answers[at] = Some(answer);
        taken
    });
    let answer = answers[0].unwrap_or(Ok((0, 0)));
    assert!(answers.iter().all(|&other| other == Some(answer)), "{name}: {answers:?}");
    (times, answer)
}

/// What is written, to be read; the log itself if no line is kept.
fn written(Logged { log, words, .. }: &Logged) -> Vec<u8> {
    let (mut out, mut verdicts) = (vec![0; 65_536], vec![0; log.len()]);
    match salvaging::second_salvage(log, &mut vec![0; *words], &mut out, &mut verdicts) {
        Ok((bytes, _)) if bytes > 3 => out[..bytes].to_vec(),
        _ => log.clone(),
    }
}

/// Salvaging these logs, beside reading what is written.
fn print_salvages(rounds: usize) {
    println!();
    println!("Salvaging logs, and reading what is written; the log itself if no line is kept.");
    println!("Median (least) of so many rounds, nanoseconds a byte and milliseconds a call.");
    print!("{:<26}{:>6}{:>7}{:>7}{:>7}", "log", "bytes", "lines", "nodes", "rounds");
    for (name, _) in SALVAGERS {
        print!("{:>22}{:>22}", format!("{name}, ns a byte"), format!("{name}, ms a call"));
    }
    println!("{:>22}", format!("{} reads, ms", READERS[0].0));
    for logged in logs() {
        let text = written(&logged);
        let mut table = vec![0; logged.words];
        let read = trials::check::second_read(&text, &mut table);
        let (once, answer) = time_salvages(&logged, 1);
        let rounds = rounds_in(once.iter().map(|(median, _)| *median).sum(), rounds);
        let lines = match answer {
            Ok((_, lines)) => lines.to_string(),
            Err((number, _)) => format!("no. {number}"),
        };
        let bytes = logged.log.len();
        print!("{:<26}{bytes:>6}{lines:>7}{:>7}{rounds:>7}", logged.name, read.unwrap_or(0));
        for (median, least) in time_salvages(&logged, rounds).0 {
            let a_byte = |time: Duration| time.as_nanos() as f64 / bytes as f64;
            print!("{:>11.2} ({:>8.2})", a_byte(median), a_byte(least));
            print!("{:>11} ({:>8})", a_call(median), a_call(least));
        }
        let bench = Bench { refusal: read.err(), ..Bench::new(logged.name, text, logged.words) };
        let (median, least) = time(&bench, rounds, false)[0];
        println!("{:>11} ({:>8})", a_call(median), a_call(least));
    }
}

/// The time of a call in milliseconds.
fn a_call(time: Duration) -> String {
    let ms = time.as_secs_f64() * 1e3;
    format!("{ms:.*}", if ms < 0.1 { 6 } else { 3 })
}

/// Texts are timed so long at the most, but three times at least.
const LONGEST: Duration = Duration::from_secs(4);

/// The rounds that there is time for, if one takes so long.
fn rounds_in(one: Duration, rounds: usize) -> usize {
    let within = LONGEST.as_nanos() / one.as_nanos().max(1);
    rounds.min((within as usize).max(3))
}

/// The rounds that there is time for.
fn rounds_within(bench: &Bench, rounds: usize) -> usize {
    let one = time(bench, 1, false).iter().map(|(median, _)| *median).sum::<Duration>();
    rounds_in(one * bench.calls, rounds)
}

/// Both readers on these texts: nanoseconds a byte, and milliseconds a call.
fn print_worst(title: &str, texts: Vec<Hostile>, rounds: usize, clear: bool) {
    println!();
    println!("{title}. Median (least) of so many rounds, readers in turn.");
    print!("{:<26}{:>6}{:>6}{:>7}", "text", "bytes", "nodes", "rounds");
    for (name, _) in READERS {
        print!("{:>22}{:>22}", format!("{name}, ns a byte"), format!("{name}, ms a call"));
    }
    println!();
    for bench in texts.into_iter().map(Bench::of) {
        let mut table = vec![0; bench.words];
        let nodes = trials::check::second_read(&bench.text, &mut table).unwrap_or(0);
        let rounds = rounds_within(&bench, rounds);
        print!("{:<26}{:>6}{nodes:>6}{rounds:>7}", bench.name, bench.text.len());
        let a_byte = |time: Duration| time.as_nanos() as f64 / bench.text.len() as f64;
        for (median, least) in time(&bench, rounds, clear) {
            print!("{:>11.2} ({:>8.2})", a_byte(median), a_byte(least));
            print!("{:>11} ({:>8})", a_call(median), a_call(least));
        }
        println!();
    }
}

fn main() {
    let mut clear = false;
    let mut slow = false;
    let mut worst = false;
    let mut rounds = 100;
    let mut arguments = std::env::args().skip(1);
    while let Some(argument) = arguments.next() {
        match argument.as_str() {
            "--clear" => clear = true,
            "--slow" => slow = true,
            "--worst" => worst = true,
            "--rounds" => {
                let given = arguments.next().and_then(|given| given.parse().ok());
                rounds = given.filter(|&given| given > 0).unwrap_or(rounds);
            }
            _ => {
                eprintln!("usage: bench [--clear] [--rounds N] [--slow | --worst]");
                std::process::exit(2);
            }
        }
    }
    if clear {
        println!("The table was cleared before each call, outside the time taken.");
    } else {
        println!("The table was not cleared before a call: it holds the last reading.");
    }
    println!("Each call writes every word of it, rows then zeros, within the time taken.");
    if worst {
        print_worst("Objects of some keys", hostile::usual(), rounds, clear);
        print_worst("The worst for doubled keys", hostile::worst(), rounds, clear);
        return;
    }
    println!("Nanoseconds a byte, median (least) of {rounds} rounds, readers in turn.");
    print!("{:<24}{:>7}{:>7}{:>8}", "text", "bytes", "nodes", "words");
    for (name, _) in READERS {
        print!("{name:>18}");
    }
    println!("{}", if READERS.len() == 2 { "     ratio" } else { "" });
    for bench in benches(slow) {
        let mut table = vec![0; bench.words];
        let nodes = trials::check::second_read(&bench.text, &mut table).unwrap_or(0);
        print!("{:<24}{:>7}{nodes:>7}{:>8}", bench.name, bench.text.len(), bench.words);
        let times = time(&bench, rounds, clear);
        let a_byte = |time: Duration| time.as_nanos() as f64 / bench.text.len() as f64;
        for (median, least) in &times {
            print!("{:>9.2} ({:>6.2})", a_byte(*median), a_byte(*least));
        }
        if let [(ours, _), (theirs, _)] = times[..] {
            print!("{:>10.2}", ours.as_secs_f64() / theirs.as_secs_f64());
        }
        println!();
    }
    print_checks(rounds);
    print_salvages(rounds);
}
