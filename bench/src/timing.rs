//! Times the library and the Rust rules in turn on the same input.
use crate::inputs::{self, World};
use crate::random::Random;
use crate::tracker;
use bench::rules::{
    self, BALANCE_WORDS, Book, CLAIM_ROOM, CashForecast, Done, ONES, STORE_WORDS, Served, TABLE_WORDS, TRACKING_WORDS,
};
use std::fs::File;
use std::hint::black_box;
use std::path::{Path, PathBuf};
use std::process::{Command, Stdio};
use std::time::Instant;

const ROUNDS: usize = 31;
const PROCESS_ROUNDS: usize = 15;
const TRANSFERS: usize = 100_000;
const CLOSES: usize = 200;
const CLAIM_BYTES: usize = inputs::forecast::CLAIM_BYTES;
const FORECAST_ACCOUNT: u32 = 3;
const FORECAST_DATE: u32 = 20330805;

/// The nanoseconds of each round for one thing, of both implementations.
struct Times {
    library: Vec<f64>,
    rust: Vec<f64>,
}

fn best(times: &[f64]) -> f64 {
    times.iter().copied().fold(f64::INFINITY, f64::min)
}

fn median(times: &[f64]) -> f64 {
    let mut sorted = times.to_vec();
    sorted.sort_by(f64::total_cmp);
    sorted[sorted.len() / 2]
}

/// Times two things in turn, each as nanoseconds for one of its `count` parts.
fn alternate(rounds: usize, count: usize, mut library: impl FnMut(), mut rust: impl FnMut()) -> Times {
    let time = |work: &mut dyn FnMut()| {
        let start = Instant::now();
        work();
        start.elapsed().as_nanos() as f64 / count as f64
    };
    library();
    rust();
    let mut times = Times { library: Vec::new(), rust: Vec::new() };
    for _ in 0..rounds {
        times.library.push(time(&mut library));
        times.rust.push(time(&mut rust));
    }
    times
}

fn heading() {
    println!(
        "{:42} {:>10} {:>10} {:>10} {:>10} {:>7} {:>7}",
        "nanoseconds", "Rattle", "Rattle", "Rust", "Rust", "ratio", "ratio"
    );
    println!("{:42} {:>10} {:>10} {:>10} {:>10} {:>7} {:>7}", "", "best", "median", "best", "median", "best", "median");
}

fn line(name: &str, times: &Times) {
    let Times { library, rust } = times;
    let digits = if best(rust) < 10.0 { 2 } else { 1 };
    println!(
        "{name:42} {:10.digits$} {:10.digits$} {:10.digits$} {:10.digits$} {:7.2} {:7.2}",
        best(library),
        median(library),
        best(rust),
        median(rust),
        best(library) / best(rust),
        median(library) / median(rust),
    );
}

/// A full book: 16 securities of all types, 16 rows each, monthly from July 2032, and all balances but those with itself above zero. The
/// Record Date of security s is day s + 1 of the month. On its days the rules are those from 30 January 2023 on.
fn full_book(day: u32) -> World {
    let mut random = Random::new(7);
    let mut tables = vec![0; TABLE_WORDS];
    for (number, security) in tables.chunks_mut(114).enumerate() {
        security[0] = number as u32 % 4 + 1;
        security[1] = number as u32 / 4 + 1;
        for (row, words) in security[2..].chunks_mut(7).enumerate() {
            let month = 6 + row as u32;
            let first = 10000 * (2032 + month / 12) + 100 * (month % 12 + 1);
            let record = first + number as u32 + 1;
            words.copy_from_slice(&[
                record,
                record + 1,
                record + 10,
                random.from(1_000_000, 9_000_000) as u32,
                random.from(0, 20_000_000) as u32,
                0,
                if random.one_in(4) { 1 << random.below(16) } else { 0 },
            ]);
        }
    }
    let mut balances: Vec<u64> = (0..BALANCE_WORDS).map(|_| random.from(1, inputs::MOST_LENT)).collect();
    for security in balances.chunks_mut(256) {
        security.iter_mut().step_by(17).for_each(|own| *own = 0);
    }
    World { calendar: inputs::weekdays(), tables, balances, book: Book { day, count: 1000 } }
}

fn transfer_message(parties: [u8; 2], security: u8, code: u8, par: u32, text: &str) -> Vec<u8> {
    let mut message = vec![139, 0, 1, 0, parties[0], parties[1], security, 0, code];
    message.extend(par.to_le_bytes());
    message.extend(format!("{text:128}").bytes());
    message
}

type Call = fn(&[u32], &[u32], Book, &mut [u64], &[u8], &mut [u8]) -> Done;

/// The transfers of both, which are lent ones that neither knows before it is called.
const LIBRARY_TRANSFER: Call = |calendar, tables, book, balances, message, claims| {
    tracker::transfer(calendar, tables, black_box(&ONES), book, balances, message, claims)
};
const RUST_TRANSFER: Call = |calendar, tables, book, balances, message, claims| {
    rules::transfer(calendar, tables, black_box(&ONES), book, balances, message, claims)
};

/// Times a call by value on a full book, with each message in turn.
fn time_call(name: &str, day: u32, library: Call, rust: Call, messages: &[Vec<u8>]) -> Result<(), String> {
    time_answer(name, &full_book(day), 0, library, rust, messages)
}

/// Times a call by value that has one answer for each message in turn.
fn time_answer(name: &str, world: &World, number: u16, library: Call, rust: Call, messages: &[Vec<u8>]) -> Result<(), String> {
    const CALLS: usize = 1000;
    let run = |call: Call| {
        let World { calendar, tables, mut balances, mut book } = world.clone();
        let mut claims = vec![0; CLAIM_ROOM];
        let day = book.day;
        move |messages: &[Vec<u8>]| {
            let mut written = 0;
            for message in messages.iter().cycle().take(CALLS) {
                let given = black_box(Book { day, ..book });
                let done = call(&calendar, &tables, given, &mut balances, message, &mut claims);
                assert!(done.number == number, "number {}", done.number);
                book = done.book;
                written += done.claims;
            }
            written
        }
    };
    let (mut library, mut rust) = (run(library), run(rust));
    let claims = library(messages);
    if claims != rust(messages) {
        return Err(format!("{name}: the claims differ"));
    }
    let times = alternate(ROUNDS, CALLS, || _ = library(messages), || _ = rust(messages));
    line(&format!("{name}, {} claims", claims as f64 / CALLS as f64), &times);
    Ok(())
}

/// Times a carry over of the loans of a full book.
fn time_carry_over(world: &World) {
    const CALLS: usize = 1000;
    type CarryOver = fn(&[u32], Book, &[u64], &mut [u64]) -> Done;
    let saved = &world.balances[..TRACKING_WORDS];
    let run = |call: CarryOver| {
        let World { calendar, mut balances, book, .. } = world.clone();
        move || {
            for _ in 0..CALLS {
                let done = call(&calendar, black_box(book), saved, black_box(&mut balances));
                assert!(done.number == 0, "number {}", done.number);
            }
        }
    };
    line("carry over", &alternate(ROUNDS, CALLS, run(tracker::carry_over), run(rules::carry_over)));
}

/// Times setting a mark of a full book, and a return to it.
fn time_marks(world: &World) {
    const CALLS: usize = 1000;
    type Set = fn(&[u32], Book, &[u64], &mut [u64], u32) -> u16;
    type Return = fn(&[u32], Book, &mut [u64], &[u64], u32) -> Done;
    let mut marked = vec![0; STORE_WORDS];
    let number = rules::set_mark(&world.calendar, world.book, &world.balances, &mut marked, 3);
    assert!(number == 0, "number {number}");
    let set = |call: Set| {
        let mut store = marked.clone();
        move || {
            for _ in 0..CALLS {
                let number = call(&world.calendar, black_box(world.book), &world.balances, black_box(&mut store), 3);
                assert!(number == 0, "number {number}");
            }
        }
    };
    line("set mark", &alternate(ROUNDS, CALLS, set(tracker::set_mark), set(rules::set_mark)));
    let back = |call: Return| {
        let (mut balances, store) = (world.balances.clone(), &marked);
        move || {
            for _ in 0..CALLS {
                let done = call(&world.calendar, black_box(world.book), black_box(&mut balances), store, 3);
                assert!(done.number == 0, "number {}", done.number);
            }
        }
    };
    line("return to mark", &alternate(ROUNDS, CALLS, back(tracker::return_to_mark), back(rules::return_to_mark)));
}

/// A run of good claims between any accounts, one in four of them a notice; one in twenty has the date.
fn any_claims(count: usize) -> Vec<u8> {
    let mut random = Random::new(13);
    let mut bytes = Vec::new();
    for _ in 0..count {
        let payer = random.below(16) as u8;
        let parties = [payer, (payer + random.from(1, 15) as u8) % 16];
        let release = if random.one_in(20) { FORECAST_DATE } else { inputs::date(random.below(inputs::DAYS)) };
        let outcome = if random.one_in(4) { random.from(1, 3) as u8 } else { 0 };
        bytes.extend(claim_record(&mut random, outcome, parties, release));
    }
    bytes
}

/// A run of claims that all count for the account; it is the payer or the payee by chance.
fn counting_claims(count: usize) -> Vec<u8> {
    let mut random = Random::new(17);
    let mut bytes = Vec::new();
    for _ in 0..count {
        let another = (FORECAST_ACCOUNT as u8 + random.from(1, 15) as u8) % 16;
        let parties = [FORECAST_ACCOUNT as u8, another];
        let parties = if random.one_in(2) { parties } else { [parties[1], parties[0]] };
        bytes.extend(claim_record(&mut random, 0, parties, FORECAST_DATE));
    }
    bytes
}

/// A claim record with amounts so small that a million of them stay within the limit of a sum.
fn claim_record(random: &mut Random, outcome: u8, parties: [u8; 2], release: u32) -> [u8; CLAIM_BYTES] {
    let mut bytes = [0; CLAIM_BYTES];
    bytes[..8].copy_from_slice(&[33, 0, 3, 0, 1, outcome, parties[0], parties[1]]);
    bytes[14..22].copy_from_slice(&random.below(1_000_000_000).to_le_bytes());
    bytes[22..30].copy_from_slice(&random.below(1_000_000_000).to_le_bytes());
    bytes[30..34].copy_from_slice(&release.to_le_bytes());
    bytes
}

/// Times forecasts from a run of claims, so many calls a round, for each record.
fn time_forecast(name: &str, calls: usize, claims: &[u8]) -> Result<(), String> {
    type Forecast = fn(&[u8], u32, u32) -> CashForecast;
    let records = claims.len() / CLAIM_BYTES;
    let ask = |call: Forecast| call(black_box(claims), black_box(FORECAST_ACCOUNT), black_box(FORECAST_DATE));
    let (ours, theirs) = (ask(tracker::forecast), ask(rules::forecast));
    if ours != theirs || ours.number != 0 {
        return Err(format!("{name}: the forecasts differ, or are refused"));
    }
    let run = |call: Forecast| move || (0..calls).for_each(|_| _ = black_box(ask(call)));
    let times = alternate(ROUNDS, calls * records, run(tracker::forecast), run(rules::forecast));
    line(&format!("forecast, {records} claims, {name}"), &times);
    let [ours, theirs] =
        [&times.library, &times.rust].map(|times| [best(times), median(times)].map(|time| CLAIM_BYTES as f64 / time));
    println!(
        "  GB of records a second, best and median: Rattle {:.2} and {:.2}, Rust {:.2} and {:.2}",
        ours[0], ours[1], theirs[0], theirs[1]
    );
    Ok(())
}

/// Times forecasts from runs that fit the cache and from runs that do not.
fn time_forecasts() -> Result<(), String> {
    for (records, calls) in [(1000, 1000), (1_000_000, 1)] {
        time_forecast("1 in 20", calls, &any_claims(records))?;
        time_forecast("all count", calls, &counting_claims(records))?;
    }
    Ok(())
}

/// A stream of transfers with closes among them: fails with a Contract Date, loans, repos, and plain deliveries.
fn stream() -> Vec<u8> {
    let mut random = Random::new(11);
    let mut bytes = Vec::new();
    for number in 1..=TRANSFERS {
        let sender = random.below(16) as u8;
        let parties = [sender, (sender + random.from(1, 15) as u8) % 16];
        let security = random.below(16) as u8;
        let par = random.from(1, 20_000_000) as u32;
        let (code, text) = match random.below(10) {
            0..5 => {
                let contract = inputs::date(random.from(11870, 12048));
                let blank = " ".repeat(random.below(40) as usize);
                (0, format!("{blank}{{98A:CNTR/{contract}}}"))
            }
            5 => (0, "DELIVERY AGAINST PAYMENT".into()),
            6..8 => (1, "START".into()),
            8 => (random.from(4, 5) as u8, String::new()),
            _ => (random.pick(&[2, 3, 6]), "RETURN".into()),
        };
        let code = if code > 0 { random.pick(&[code, code + 6]) } else { 0 };
        bytes.extend(transfer_message(parties, security, code, par, &text));
        if number % (TRANSFERS / CLOSES) == 0 {
            bytes.extend([2, 0, 2, 0]);
        }
    }
    bytes
}

/// The book that the stream is worked on, just opened.
fn opened_book() -> World {
    let mut world = full_book(20330103);
    world.balances.fill(0);
    world.book.count = 0;
    world
}

type Serve = fn(&[u32], &[u32], Book, &mut [u64], &[u8], bool, &mut [u8]) -> Served;

/// Serves a whole stream through an output of 256 KiB, and hands each part of what it writes on.
fn serve_all(serve: Serve, world: &World, stream: &[u8], output: &mut [u8], mut part: impl FnMut(&[u8])) -> Book {
    let World { calendar, tables, mut balances, mut book } = world.clone();
    let mut from = 0;
    while from < stream.len() {
        let served = serve(&calendar, &tables, book, &mut balances, &stream[from..], true, output);
        part(&output[..served.written]);
        book = served.book;
        from += served.consumed;
        if served.over || served.consumed == 0 {
            break;
        }
    }
    book
}

fn time_serve(world: &World, stream: &[u8]) -> Result<Vec<u8>, String> {
    let mut output = vec![0; 4 * CLAIM_ROOM];
    let whole = |serve: Serve| {
        let (mut output, mut written) = (vec![0; 4 * CLAIM_ROOM], Vec::new());
        let book = serve_all(serve, world, stream, &mut output, |part| written.extend_from_slice(part));
        (book, written)
    };
    let (ours, theirs) = (whole(tracker::serve), whole(rules::serve));
    if ours != theirs {
        return Err("serve: books or outputs differ".into());
    }
    let (book, written) = ours;
    let mut other = output.clone();
    let times = alternate(
        ROUNDS,
        TRANSFERS + CLOSES,
        || _ = serve_all(tracker::serve, world, stream, &mut output, |part| _ = black_box(part)),
        || _ = serve_all(rules::serve, world, stream, &mut other, |part| _ = black_box(part)),
    );
    line("serve, for each record", &times);
    println!("  the stream: {TRANSFERS} transfers, {} accepted; {CLOSES} closes, the day after them {}", book.count, book.day);
    println!("  its output: {} bytes", written.len());
    Ok(written)
}

/// The folder of the processes: book.dat and the stream.
fn write_files(folder: &Path, world: &World, stream: &[u8]) -> std::io::Result<()> {
    let words = world.calendar.iter().chain(&world.tables).chain([&world.book.day]);
    std::fs::create_dir_all(folder)?;
    std::fs::write(folder.join("book.dat"), words.flat_map(|word| word.to_le_bytes()).collect::<Vec<u8>>())?;
    std::fs::write(folder.join("stream"), stream)
}

fn process(program: &Path, folder: &Path) -> std::io::Result<Command> {
    let mut command = Command::new(program);
    command.current_dir(folder).stdin(File::open(folder.join("stream"))?);
    Ok(command)
}

fn time_processes(claimrun: &Path, world: &World, stream: &[u8], written: &[u8]) -> Result<(), String> {
    let say = |error: std::io::Error| error.to_string();
    let rust_claimrun = std::env::current_exe().map_err(say)?.with_file_name("rust_claimrun");
    let folder = rust_claimrun.with_file_name("claimrun_files");
    write_files(&folder, world, stream).map_err(say)?;
    for program in [claimrun, &rust_claimrun] {
        let output = process(program, &folder).and_then(|mut command| command.output()).map_err(say)?;
        if output.stdout != written {
            return Err(format!("{}: the output differs from that of serve", program.display()));
        }
    }
    let run = |program: &Path| {
        let status = process(program, &folder).and_then(|mut command| command.stdout(Stdio::null()).status());
        assert!(status.is_ok_and(|status| status.success()), "{} fails", program.display());
    };
    let times = alternate(PROCESS_ROUNDS, TRANSFERS + CLOSES, || run(claimrun), || run(&rust_claimrun));
    line("claimrun as a process, for each record", &times);
    let each_second = |times: &[f64]| 1e9 / best(times);
    println!("  records a second, best: Rattle {:.0}, Rust {:.0}", each_second(&times.library), each_second(&times.rust));
    Ok(())
}

/// Prints the table.
pub fn run(claimrun: Option<PathBuf>) -> Result<(), String> {
    println!("{ROUNDS} rounds, {PROCESS_ROUNDS} of the processes, the two implementations in turn");
    heading();
    let tag = "{98A:CNTR/20330301}";
    let fails: Vec<_> = (0..16).map(|number| transfer_message([1, 2], number, 0, 200_000, tag)).collect();
    time_call("transfer, a fail", 20330801, LIBRARY_TRANSFER, RUST_TRANSFER, &fails)?;
    let loans: Vec<_> =
        (0..16).flat_map(|number| [(1, [3, 4]), (3, [4, 3])].map(|(code, parties)| (number, code, parties))).collect();
    let loans: Vec<_> =
        loans.into_iter().map(|(number, code, parties)| transfer_message(parties, number, code, 100, "")).collect();
    time_call("transfer, a loan", 20330801, LIBRARY_TRANSFER, RUST_TRANSFER, &loans)?;
    let mut unsound = full_book(20330801);
    unsound.calendar[479] |= 1 << 31;
    time_answer("transfer, calendar refused", &unsound, 2, LIBRARY_TRANSFER, RUST_TRANSFER, &loans)?;
    let close = [vec![2, 0, 2, 0]];
    time_call("close that crosses nothing", 20330822, tracker::close, rules::close, &close)?;
    time_call("close that crosses 1 row", 20330801, tracker::close, rules::close, &close)?;
    time_call("close that crosses 3 rows", 20330805, tracker::close, rules::close, &close)?;
    time_carry_over(&full_book(20330801));
    time_marks(&full_book(20330801));
    time_forecasts()?;
    let (world, stream) = (opened_book(), stream());
    let written = time_serve(&world, &stream)?;
    match claimrun.filter(|path| path.exists()) {
        Some(path) => time_processes(&path.canonicalize().map_err(|error| error.to_string())?, &world, &stream, &written),
        None => {
            println!("claimrun is not built: no processes are timed");
            Ok(())
        }
    }
}
