//! The benchmark, and the programs it compares.
//!
//!     bench                               nanoseconds a sample or record, and how they grow
//!     bench generate TICKS SEED FILE      writes a recording of a day in traffic
//!     bench plain < FILE                  document 01's printing program, plain engine
//!     bench lines < FILE                  the same by the second implementation
//!     bench records < FILE                the program `records` by the second implementation
//!     bench busiest WIDTH < FILE          the program `planner` by the second implementation
//!     bench ratio PROGRAM FILE [RUNS]     user time of PROGRAM over that of `plain`
//!     bench stack PROGRAM FILE            stack that PROGRAM and the library's calls use

use std::fs::File;
use std::hint::black_box;
use std::io::{self, BufWriter, Read, Write};
use std::process::{Command, ExitCode, Stdio};
use yoldrim_tests::days::{Day, TRAFFIC};
#[cfg(library)]
use yoldrim_tests::ffi;
use yoldrim_tests::plain::Engine;
use yoldrim_tests::printing;
use yoldrim_tests::reference::{
    block_of, Reference, Sample, BLOCK_BYTES, BLOCK_HEADER, BLOCK_OUTPUT, BLOCK_SAMPLES,
    SAMPLE_BYTES, SAMPLE_OUTPUT,
};
use yoldrim_tests::unit::Unit;

#[path = "bench/busiest.rs"]
mod busiest;

type Block = [u8; BLOCK_BYTES];

fn main() -> ExitCode {
    let arguments: Vec<String> = std::env::args().skip(1).collect();
    let words: Vec<&str> = arguments.iter().map(String::as_str).collect();
    let done = match words[..] {
        [] => time_calls(),
        ["generate", ticks, seed, file] => generate(ticks, seed, file),
        ["plain"] => filter(&mut Engine::default()),
        ["lines"] => filter(&mut Reference::default()),
        ["records"] => records(),
        ["busiest", width] => busiest_line(width),
        ["ratio", program, file] => ratio(program, file, "9"),
        ["ratio", program, file, runs] => ratio(program, file, runs),
        ["stack", program, file] => stack(program, file),
        _ => Err(io::Error::other("no such mode; the modes stand at the head of bench.rs")),
    };
    match done {
        Ok(()) => ExitCode::SUCCESS,
        Err(error) => {
            eprintln!("bench: {error}");
            ExitCode::FAILURE
        }
    }
}

// ------------------------------------------------------------- the recordings

/// The blocks of a day in traffic, all full but the last.
fn recording(ticks: usize, seed: u64) -> impl Iterator<Item = Block> {
    let mut day = Day::new(seed, TRAFFIC);
    let counts = (0..ticks).step_by(BLOCK_SAMPLES).map(move |t| (ticks - t).min(BLOCK_SAMPLES));
    counts.map(move |count| {
        let samples: Vec<Sample> = (0..count).map(|_| day.next_sample()).collect();
        block_of(&samples.iter().flat_map(Sample::to_bytes).collect::<Vec<u8>>())
    })
}

fn number(word: &str) -> io::Result<u64> {
    word.parse().map_err(|_| io::Error::other(format!("'{word}' is no number")))
}

fn generate(ticks: &str, seed: &str, file: &str) -> io::Result<()> {
    let mut file = BufWriter::new(File::create(file)?);
    for block in recording(number(ticks)? as usize, number(seed)?) {
        file.write_all(&block)?;
    }
    file.flush()
}

// ---------------------------------------------------------- printing programs

fn filter(unit: &mut impl Unit) -> io::Result<()> {
    let mut lines = BufWriter::new(io::stdout().lock());
    printing::print(unit, &mut io::stdin().lock(), &mut lines)?;
    lines.flush()
}

/// The message records of a recording. At a refused block it ends with status 1.
fn records() -> io::Result<()> {
    let mut out = BufWriter::new(io::stdout().lock());
    let mut engine = Reference::default();
    let refusal = printing::records(&mut engine, &mut io::stdin().lock(), &mut out)?;
    out.flush()?;
    match refusal {
        None => Ok(()),
        Some(number) => Err(io::Error::other(printing::refused(number))),
    }
}

/// The line of the busiest stretch of these many ticks in a list of message records.
fn busiest_line(width: &str) -> io::Result<()> {
    let width = u32::try_from(number(width)?).map_err(io::Error::other)?;
    let mut records = Vec::new();
    io::stdin().lock().read_to_end(&mut records)?;
    let mut first = 0;
    let answer = Reference::default().busiest_stretch(&records, width, &mut first);
    println!("{}", printing::busiest(answer, first));
    Ok(())
}

/// One run of a program on a recording: its user time and its output.
fn run(program: &str, mode: Option<&str>, file: &str) -> io::Result<(f64, Vec<u8>)> {
    let before = user_seconds(ENDED_CHILDREN);
    let output = Command::new(program)
        .args(mode)
        .stdin(File::open(file)?)
        .stderr(Stdio::inherit())
        .output()?;
    Ok((user_seconds(ENDED_CHILDREN) - before, output.stdout))
}

/// Runs `program` and the plain engine in turns on the same recording.
fn ratio(program: &str, file: &str, runs: &str) -> io::Result<()> {
    let itself = std::env::current_exe()?.display().to_string();
    let mut ratios = Vec::new();
    let mut seconds = Vec::new();
    for _ in 0..number(runs)?.max(1) {
        let (proved, proved_lines) = run(program, None, file)?;
        let (plain, plain_lines) = run(&itself, Some("plain"), file)?;
        if proved_lines != plain_lines {
            return Err(io::Error::other("the two programs' lines differ"));
        }
        ratios.push(proved / plain);
        seconds.push(proved);
    }
    ratios.sort_by(f64::total_cmp);
    seconds.sort_by(f64::total_cmp);
    let middle = ratios.len() / 2;
    let samples = std::fs::metadata(file)?.len() as f64 / BLOCK_BYTES as f64 * 25.0;
    println!("runs in turns: {}", ratios.len());
    println!("user time of {program}: {:.3} s in the middle", seconds[middle]);
    println!("samples a second: {:.0}", samples / seconds[middle]);
    println!(
        "ratio to the plain engine: {:.2} in the middle, {:.2} to {:.2}",
        ratios[middle],
        ratios[0],
        ratios[ratios.len() - 1]
    );
    Ok(())
}

/// The start of Linux's `struct rusage`: user time as seconds and
/// microseconds; the rest is room for the other fields.
#[repr(C)]
struct ResourceUsage {
    user_seconds: i64,
    user_microseconds: i64,
    others: [i64; 14],
}

extern "C" {
    fn getrusage(who: i32, usage: *mut ResourceUsage) -> i32;
}

/// Whose user time is asked for.
const THIS_PROCESS: i32 = 0;
const ENDED_CHILDREN: i32 = -1;

fn user_seconds(of: i32) -> f64 {
    let mut usage = ResourceUsage { user_seconds: 0, user_microseconds: 0, others: [0; 14] };
    // SAFETY: the pointer is to a live structure of the size Linux fills.
    unsafe { getrusage(of, &mut usage) };
    usage.user_seconds as f64 + usage.user_microseconds as f64 / 1e6
}

// ---------------------------------------------------------------------- stack

/// The smallest limit of the stack, in KiB, under which a program runs a recording.
fn stack(program: &str, file: &str) -> io::Result<()> {
    let (mut short, mut enough) = (4, 8_192);
    if !runs_within(program, file, enough)? {
        return Err(io::Error::other("the program does not run with 8 MiB of stack"));
    }
    while enough - short > 4 {
        let middle = short + (enough - short) / 8 * 4;
        if runs_within(program, file, middle)? {
            enough = middle;
        } else {
            short = middle;
        }
    }
    println!("stack of the program: {enough} KiB is the smallest limit that it runs under");
    library_stack()
}

fn runs_within(program: &str, file: &str, kib: u32) -> io::Result<bool> {
    let status = Command::new("sh")
        .arg("-c")
        .arg(format!("ulimit -s {kib} && exec \"$0\""))
        .arg(program)
        .env_clear()
        .stdin(File::open(file)?)
        .stdout(Stdio::null())
        .stderr(Stdio::null())
        .status()?;
    Ok(status.success())
}

/// Bytes below a caller that are painted, and looked at after a call: less
/// than a page, since a larger frame is touched page by page when it is made.
#[cfg(library)]
const PAINTED: usize = 3_968;
#[cfg(library)]
const PAINT: u8 = 0xA5;

#[cfg(library)]
fn library_stack() -> io::Result<()> {
    let mut engine = [0; ffi::ENGINE_BYTES];
    let block: Block = recording(BLOCK_SAMPLES, 1).next().expect("a recording has a block");
    let sample = &block[BLOCK_HEADER..BLOCK_HEADER + SAMPLE_BYTES];
    let mut out = [0; BLOCK_OUTPUT];
    let of_sample = depth(|| {
        assert_eq!(ffi::fresh(&mut engine), 0);
        assert!(ffi::sample(&mut engine, sample, &mut out) >= 0);
    });
    let of_block = depth(|| {
        assert_eq!(ffi::fresh(&mut engine), 0);
        assert!(ffi::block(&mut engine, &block, &mut out) >= 0);
    });
    println!("stack of a call: sample {of_sample} bytes, block {of_block} bytes, with the frames of this test");
    Ok(())
}

#[cfg(not(library))]
fn library_stack() -> io::Result<()> {
    Ok(())
}

/// How far below this function a call writes: the memory there is painted
/// before the call and looked at after it, from frames of the same size.
#[cfg(library)]
fn depth(mut call: impl FnMut()) -> usize {
    call();
    paint();
    call();
    let left = untouched();
    assert!(left > 0, "the call uses more stack than is painted");
    PAINTED - left
}

#[cfg(library)]
#[inline(never)]
fn paint() {
    black_box([PAINT; PAINTED]);
}

/// The painted bytes that still hold the paint, from the far end on.
#[cfg(library)]
#[inline(never)]
fn untouched() -> usize {
    let frame = std::mem::MaybeUninit::<[u8; PAINTED]>::uninit();
    let first = black_box(frame.as_ptr().cast::<u8>());
    // SAFETY: each address lies in the frame; what it holds is any byte, and
    // is read as volatile, so that nothing is taken as known of it.
    (0..PAINTED).take_while(|&i| unsafe { first.add(i).read_volatile() } == PAINT).count()
}

// --------------------------------------------------------------------- timing

/// Lengths of the day timed, in ticks; time must grow straight with them.
const LENGTHS: [usize; 5] = [10_000, 30_000, 100_000, 1_000_000, 4_000_000];
/// Samples each length is timed over, by running shorter days again.
const TIMED: usize = 4_000_000;
/// Runs of each kind, in turns; the middle one counts.
const RUNS: usize = 5;

type Units = Vec<(&'static str, Box<dyn Unit>)>;

fn time_calls() -> io::Result<()> {
    let mut units: Units = vec![("plain", Box::new(Engine::default()))];
    add_library(&mut units);
    println!("nanoseconds of user time a sample: the middle of {RUNS} runs (least to most)");
    println!("{:>10}  {:<28}{:<28}", "ticks", "sample call", "block call");
    let longest: Vec<Block> = recording(LENGTHS[LENGTHS.len() - 1], 1).collect();
    for ticks in LENGTHS {
        print_times(&mut units, ticks, &longest[..ticks / BLOCK_SAMPLES]);
    }
    busiest::time_calls(&units)
}

#[cfg(library)]
fn add_library(units: &mut Units) {
    println!("the library's engine: {} bytes", ffi::ENGINE_BYTES);
    units.push(("library", Box::new(ffi::Library::default())));
}

#[cfg(not(library))]
fn add_library(_units: &mut Units) {
    println!("built without the library (../target/libyoldrim.a)");
}

/// Times all units on one day, in turns.
fn print_times(units: &mut Units, ticks: usize, day: &[Block]) {
    let again = (TIMED / ticks).max(1);
    let mut times = vec![(Vec::new(), Vec::new()); units.len()];
    for _ in 0..RUNS {
        for ((_, unit), (by_sample, by_block)) in units.iter_mut().zip(&mut times) {
            by_sample.push(nanoseconds(again, ticks, || samples_through(&mut **unit, day)));
            by_block.push(nanoseconds(again, ticks, || blocks_through(&mut **unit, day)));
        }
    }
    for ((name, _), (by_sample, by_block)) in units.iter().zip(times) {
        println!("{ticks:>10}  {:<28}{:<28}{name}", spread(by_sample), spread(by_block));
    }
}

/// Nanoseconds a sample for the day run `again` times.
fn nanoseconds(again: usize, ticks: usize, mut run: impl FnMut()) -> f64 {
    let start = user_seconds(THIS_PROCESS);
    for _ in 0..again {
        run();
    }
    (user_seconds(THIS_PROCESS) - start) * 1e9 / (again * ticks) as f64
}

fn samples_through(unit: &mut dyn Unit, day: &[Block]) {
    let mut out = [0; SAMPLE_OUTPUT];
    unit.fresh();
    for block in day {
        for sample in block[BLOCK_HEADER..].chunks_exact(SAMPLE_BYTES) {
            assert!(unit.sample(black_box(sample), &mut out) >= 0);
            black_box(&out);
        }
    }
}

fn blocks_through(unit: &mut dyn Unit, day: &[Block]) {
    let mut out = [0; BLOCK_OUTPUT];
    unit.fresh();
    for block in day {
        assert!(unit.block(black_box(block), &mut out) >= 0);
        black_box(&out);
    }
}

fn spread(mut times: Vec<f64>) -> String {
    times.sort_by(f64::total_cmp);
    let (least, middle, most) = (times[0], times[times.len() / 2], times[times.len() - 1]);
    format!("{middle:.1} ({least:.1} to {most:.1})")
}
