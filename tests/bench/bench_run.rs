//! Compares the proved run, linked as a static library, with that of another such library beside it, with the plain one
//! of plain_run.rs, and with Lua.
//!
//! bench_run run-vectors DIR...   runs every image of the folders, and compares nine numbers, store and outputs with
//!                                the answers there
//! bench_run time [OPTION...] IMAGE...
//!                                times the runs on each image; prints a table
//!     --steps N                  steps lent (by default 10,000,000)
//!     --rounds N                 rounds (by default 9)
//!     --lua LUA DIR              also times LUA on DIR/NAME.lua, where that does the work of NAME.img; the steps lent
//!                                are then those that the script stands for
//! bench_run count IMAGE...       counts the instructions of a step under valgrind; prints a table
//! bench_run once ENGINE STEPS IMAGE
//!                                one run, which is what valgrind is given: ENGINE is a column's name
//!
//! It links the library where it is built with --cfg proved, and with --cfg beside also the other one, whose run is
//! called beside_run (tests/bench/libraries); with neither, the plain run stands alone. With --cfg interface_1 that
//! library is one of before DOOR_INTERFACE 2. Whether it is one of before DOOR_INTERFACE 3 is seen when it runs: it then
//! leaves the mark as it was.
use std::hint::black_box;
use std::path::{Path, PathBuf};
use std::process::{Command, ExitCode};

#[path = "../../rust/door/src/numbers.rs"]
mod numbers;
mod plain;
mod plain_run;
mod rounds;
use numbers::Numbers;
use rounds::{median, ratio};

type Failed = Box<dyn std::error::Error>;
type Run = fn(&[u8], &[i32], &mut [i64], &mut [i32], u32) -> Numbers;

/// The first is compared with each of the others.
const ENGINES: &[(&str, Run)] = &[
    #[cfg(proved)]
    ("proved", proved),
    #[cfg(beside)]
    ("beside", beside),
    ("plain", plain_run::run),
];

/// Where the run of the other library stands among the engines, and the plain one.
const BESIDE: Option<usize> = if cfg!(beside) { Some(1) } else { None };
const PLAIN: usize = ENGINES.len() - 1;

/// What no run has as its mark: that of one which does not tell it.
const NO_MARK: u32 = u32::MAX;

/// A library's run, by its name there, and what it returns. In C a result is returned by value; System V has the caller
/// give the memory for one of this size, as a pointer before all else.
#[cfg(proved)]
macro_rules! linked {
    ($engine:ident, $symbol:ident, $result:ty) => {
        fn $engine(image: &[u8], input: &[i32], store: &mut [i64], output: &mut [i32], steps: u32) -> Numbers {
            extern "C" {
                fn $symbol(
                    result: *mut $result,
                    image: *const u8,
                    image_len: usize,
                    input: *const i32,
                    input_len: usize,
                    store: *mut i64,
                    store_len: usize,
                    output: *mut i32,
                    output_len: usize,
                    steps: u32,
                );
            }
            let mut result = <$result>::from(Numbers { mark: NO_MARK, ..Numbers::default() });
            // SAFETY: each pointer comes with the length of its slice, and no two slices that are written overlap; a
            // result has the fields of the library's, and perhaps one more behind them.
            unsafe {
                $symbol(
                    &mut result,
                    image.as_ptr(),
                    image.len(),
                    input.as_ptr(),
                    input.len(),
                    store.as_mut_ptr(),
                    store.len(),
                    output.as_mut_ptr(),
                    output.len(),
                    steps,
                )
            };
            result.into()
        }
    };
}

#[cfg(proved)]
linked!(proved, door_run, Numbers);
#[cfg(all(beside, not(interface_1)))]
linked!(beside, beside_run, Numbers);
#[cfg(all(beside, interface_1))]
linked!(beside, beside_run, First);

/// What a run of interface 1 returns, which has no base, no top and no mark.
#[cfg(interface_1)]
#[repr(C)]
#[derive(Default)]
struct First {
    refusal: u32,
    fault: u32,
    outcome: u32,
    trap: u32,
    halt: i32,
    row: u32,
    steps: u32,
    read: u32,
    written: u32,
}

#[cfg(interface_1)]
impl From<First> for Numbers {
    fn from(first: First) -> Numbers {
        let First { refusal, fault, outcome, trap, halt, row, steps, read, written } = first;
        let [read, written] = [read, written].map(u64::from);
        Numbers { refusal, fault, outcome, trap, halt, steps, row, base: 0, top: 0, read, written, mark: NO_MARK }
    }
}

#[cfg(interface_1)]
impl From<Numbers> for First {
    fn from(_: Numbers) -> First {
        First::default()
    }
}

/// Leaves of the engines' results what all of them tell: a library of interface 1 tells no base and no top, one of before
/// interface 3 no mark.
fn keep_told(results: &mut [Numbers]) {
    let marked = results.iter().all(|result| result.mark != NO_MARK);
    for result in results {
        if cfg!(interface_1) {
            (result.base, result.top) = (0, 0);
        }
        if !marked {
            result.mark = NO_MARK;
        }
    }
}

const USAGE: &str = "usage: bench_run run-vectors DIR... | bench_run time [OPTION...] IMAGE... | \
                     bench_run count IMAGE... | bench_run once ENGINE STEPS IMAGE";

fn main() -> ExitCode {
    let words: Vec<String> = std::env::args().skip(1).collect();
    let done = match words.split_first() {
        Some((mode, rest)) if mode == "run-vectors" && !rest.is_empty() => vectors(rest),
        Some((mode, rest)) if mode == "time" && !rest.is_empty() => time(rest),
        Some((mode, rest)) if mode == "count" && !rest.is_empty() => count(rest),
        Some((mode, [engine, steps, image])) if mode == "once" => once(engine, steps, image),
        _ => Err(USAGE.into()),
    };
    match done {
        Ok(true) => ExitCode::SUCCESS,
        Ok(false) => ExitCode::from(1),
        Err(error) => {
            eprintln!("bench_run: {error}");
            ExitCode::from(2)
        }
    }
}

// ---- the answers

/// What is lent to a run, and what it should come to. An answer in expect.txt has no store, and no output places but
/// those that were written.
struct Case {
    name: String,
    image: Vec<u8>,
    input: Vec<i32>,
    cells: usize,
    fill: i64,
    places: usize,
    steps: u32,
    numbers: Vec<i128>,
    output: Vec<i32>,
    store: Option<Vec<i64>>,
}

/// What doorrun lends: no more of its input as the image, cells, output places, steps.
const LENT: (usize, usize, usize, u32) = (29714, 8192, 4096, 100_000);
/// What an output place holds before a run.
const OUTPUT_FILL: i32 = 7;
/// Faults that are told in full.
const TOLD: usize = 20;

/// Starred case 10, whose run needs three cells, at the edges of questions 12 and 13.
const SMALLEST: [u8; 57] = [
    1, 0, 0, 0, 57, 0, 3, 0, 0, 0, 0, 0, 0, 0, 0, 1, 0, 0, 0, 0, 0, 0, 0, 2, 0, 0, 0, 0, 0, 0, 0, //
    0, 0, 0, 0, 0, 1, 0, 0, 0, 0, 0, 0, 0, 0, 0, 0, 0, 1, 4, 0, 0, 0, 0, 0, 0, 0,
];
const EDGES: [(usize, u32); 6] = [(0, 13), (2, 13), (3, 0), (65536, 0), (65537, 12), (100_000, 12)];

fn edges() -> impl Iterator<Item = Case> {
    EDGES.into_iter().map(|(cells, refusal)| {
        let mut store = vec![-5; cells];
        let mut numbers = vec![refusal.into(), 0, 0, 0, 0, 0, 0, 0, 0];
        if refusal == 0 {
            store[..3].fill(0);
            (numbers[2], numbers[6]) = (1, 1);
        }
        Case {
            name: format!("case 10 in {cells} cells"),
            image: SMALLEST.to_vec(),
            input: Vec::new(),
            cells,
            fill: -5,
            places: 2,
            steps: 9,
            numbers,
            output: vec![OUTPUT_FILL; 2],
            store: Some(store),
        }
    })
}

fn vectors(folders: &[String]) -> Result<bool, Failed> {
    let mut all: Vec<Case> = edges().collect();
    for folder in folders {
        let folder = Path::new(folder);
        let cases = cases(folder)?;
        let there = std::fs::read_dir(folder)?
            .filter(|entry| entry.as_ref().is_ok_and(|e| e.path().extension().is_some_and(|x| x == "img")))
            .count();
        if there != cases.len() {
            return Err(format!("{}: {} answers for {there} images", folder.display(), cases.len()).into());
        }
        all.extend(cases);
    }
    let mut told = 0;
    let mut same = vec![0; ENGINES.len()];
    for case in &all {
        let (mut whole, mut results) = (Vec::new(), Vec::new());
        for (who, (engine, run)) in ENGINES.iter().enumerate() {
            let mut store = vec![case.fill; case.cells];
            let mut output = vec![OUTPUT_FILL; case.places];
            let result = run(&case.image, &case.input, &mut store, &mut output, case.steps);
            let mut faults = Vec::new();
            if result.in_order()[..] != case.numbers[..] {
                faults.push(format!("expected {:?}, not {:?}", case.numbers, result.in_order()));
            }
            if case.output[..] != output[..case.output.len()] {
                faults.push("other outputs".to_string());
            }
            if output[case.output.len()..].iter().any(|&place| place != OUTPUT_FILL) {
                faults.push("output places changed behind the last".to_string());
            }
            if case.store.as_ref().is_some_and(|cells| *cells != store) {
                faults.push("another store".to_string());
            }
            if result.refusal != 0 && store.iter().any(|&cell| cell != case.fill) {
                faults.push("a refusal changed the store".to_string());
            }
            whole.push((store, output));
            results.push(result);
            if whole[0] != whole[who] {
                faults.push(format!("store or outputs differ from those of {}", ENGINES[0].0));
            }
            // A library of before a request may give other answers: it is counted, and that is no failure.
            if BESIDE != Some(who) && results[0] != result {
                faults.push(format!("base, top or mark differ from those of {}", ENGINES[0].0));
            }
            for fault in faults.iter().filter(|_| BESIDE != Some(who)) {
                told += 1;
                if told <= TOLD {
                    println!("{}: {engine}: {fault}", case.name);
                }
            }
            same[who] += usize::from(faults.is_empty());
        }
    }
    let images = all.len();
    let counts: Vec<String> =
        ENGINES.iter().zip(&same).map(|((engine, _), count)| format!("{engine} {count} the same")).collect();
    println!("{images} runs: {}", counts.join(", "));
    Ok(told == 0)
}

fn numbers<T: std::str::FromStr>(text: &str) -> Result<Vec<T>, Failed>
where
    T::Err: std::error::Error + 'static,
{
    text.split_whitespace().map(|word| Ok(word.parse()?)).collect()
}

fn cases(folder: &Path) -> Result<Vec<Case>, Failed> {
    let mut found = Vec::new();
    if let Ok(text) = std::fs::read_to_string(folder.join("runs.txt")) {
        for line in text.lines().filter(|line| !line.starts_with('#')) {
            let parts: Vec<&str> = line.split('|').collect();
            let [lent, input, answer, output, store] = parts[..] else {
                return Err("runs.txt: a line without its five parts".into());
            };
            let words: Vec<&str> = lent.split_whitespace().collect();
            let [name, cells, fill, places, steps] = words[..] else {
                return Err("runs.txt: a line whose first part has not five words".into());
            };
            let case = Case {
                name: folder.join(name).display().to_string(),
                image: std::fs::read(folder.join(name))?,
                input: numbers(input)?,
                cells: cells.parse()?,
                fill: fill.parse()?,
                places: places.parse()?,
                steps: steps.parse()?,
                numbers: numbers(answer)?,
                output: numbers(output)?,
                store: Some(numbers(store)?),
            };
            if case.output.len() != case.places || case.store.as_ref().is_some_and(|s| s.len() != case.cells) {
                return Err(format!("runs.txt: {name} has not every output place and cell").into());
            }
            found.push(case);
        }
        return Ok(found);
    }
    let text = std::fs::read_to_string(folder.join("expect.txt"))?;
    let (bytes, cells, places, steps) = LENT;
    let mut lines = text.lines().peekable();
    while let Some(name) = lines.next() {
        let answer = lines.next().ok_or("expect.txt: a name without numbers")?;
        let mut output = Vec::new();
        while let Some(line) = lines.next_if(|line| !line.ends_with(".img")) {
            output.push(line.parse()?);
        }
        let mut image = std::fs::read(folder.join(name))?;
        image.truncate(bytes);
        let case = Case {
            name: folder.join(name).display().to_string(),
            image,
            input: Vec::new(),
            cells,
            fill: -5,
            places,
            steps,
            numbers: numbers(answer)?,
            output,
            store: None,
        };
        if case.numbers.get(8) != Some(&(case.output.len() as i128)) {
            return Err(format!("expect.txt: {name} has not as many outputs as it says").into());
        }
        found.push(case);
    }
    Ok(found)
}

// ---- the time

/// What the benchmark lends: all cells that a run takes, and more output places than the programs use.
const CELLS: usize = 65536;
const PLACES: usize = 4096;

struct Options {
    steps: u32,
    rounds: usize,
    lua: Option<(String, PathBuf)>,
    images: Vec<PathBuf>,
}

fn options(words: &[String]) -> Result<Options, Failed> {
    let mut found = Options { steps: 10_000_000, rounds: 9, lua: None, images: Vec::new() };
    let mut words = words.iter();
    while let Some(word) = words.next() {
        let mut next = || words.next().ok_or(format!("{word} is the last word"));
        match word.as_str() {
            "--steps" => found.steps = next()?.parse()?,
            "--rounds" => found.rounds = next()?.parse::<usize>()?.max(1),
            "--lua" => found.lua = Some((next()?.clone(), PathBuf::from(next()?))),
            _ => found.images.push(PathBuf::from(word)),
        }
    }
    Ok(found)
}

/// What a step of one image costs in each round, by engine.
struct Costs {
    name: String,
    engines: Vec<Vec<f64>>,
}

/// In nanoseconds; also Lua's where there is a script.
struct Timed {
    steps: u32,
    costs: Costs,
    lua: Option<Vec<f64>>,
}

fn time(words: &[String]) -> Result<bool, Failed> {
    let options = options(words)?;
    let mut rows = Vec::new();
    let mut same = true;
    heading(&options);
    for path in &options.images {
        match timed(path, &options)? {
            Some(row) => {
                show(&row);
                rows.push(row.costs);
            }
            None => same = false,
        }
    }
    println!(
        "(nanoseconds of the processor a step, best and median of {} rounds, all taking turns; ratios: medians)",
        options.rounds
    );
    summary(&rows, "nanoseconds, best rounds");
    Ok(same)
}

fn heading(options: &Options) {
    print!("{:<18} {:>10}", "program", "steps");
    for (engine, _) in ENGINES {
        print!("   {engine:>7} {:>7}", "median");
    }
    ratio_heading();
    if options.lua.is_some() {
        print!("   {:>7} {:>7}   {:>10}", "Lua", "median", "plain/Lua");
        if ENGINES.len() > 1 {
            print!(" {:>10}", "proved/Lua");
        }
    }
    println!();
}

fn show(row: &Timed) {
    let engines = &row.costs.engines;
    print!("{:<18} {:>10}", row.costs.name, row.steps);
    for times in engines {
        print!("   {:>7.1} {:>7.1}", best(times), median(times.clone()));
    }
    show_ratios(&row.costs);
    if let Some(lua) = &row.lua {
        print!("   {:>7.1} {:>7.1}   {:>10.2}", best(lua), median(lua.clone()), ratio(&engines[PLAIN], lua));
        if ENGINES.len() > 1 {
            print!(" {:>10.2}", ratio(&engines[0], lua));
        }
    }
    println!();
}

fn ratio_heading() {
    for (engine, _) in &ENGINES[1..] {
        print!("   {:>13}", format!("{}/{engine}", ENGINES[0].0));
    }
}

fn show_ratios(row: &Costs) {
    for costs in &row.engines[1..] {
        print!("   {:>13.2}", ratio(&row.engines[0], costs));
    }
}

/// What stands below a table, whose numbers are of this unit.
fn summary(rows: &[Costs], unit: &str) {
    if let Some(beside) = BESIDE {
        compared(rows, beside);
    }
    growth(rows, unit);
}

/// The ratios to one engine: their mean over the programs, and the largest.
fn compared(rows: &[Costs], with: usize) {
    let ratios = rows.iter().map(|row| (ratio(&row.engines[0], &row.engines[with]), &row.name));
    let Some((largest, name)) = ratios.clone().max_by(|a, b| a.0.total_cmp(&b.0)) else { return };
    let mean = ratios.map(|(ratio, _)| ratio).sum::<f64>() / rows.len() as f64;
    println!("{}/{}: {mean:.3} in the mean, {largest:.3} at most ({name})", ENGINES[0].0, ENGINES[with].0);
}

/// Of a program and its -large twin: how much more a step costs in the twin.
fn growth(rows: &[Costs], unit: &str) {
    for large in rows {
        let Some(name) = large.name.strip_suffix("-large") else { continue };
        let Some(small) = rows.iter().find(|row| row.name == name) else { continue };
        print!("growth of {name}:");
        for (who, (engine, _)) in ENGINES.iter().enumerate() {
            print!(" {engine} {:.2}", best(&large.engines[who]) / best(&small.engines[who]));
        }
        println!(" (a step of {} / {name}, in {unit})", large.name);
    }
}

fn name_of(image: &Path) -> Result<String, Failed> {
    Ok(image.file_stem().ok_or("an image without a name")?.to_string_lossy().into_owned())
}

/// Compares the answers of all, then times them; nothing where the answers differ.
fn timed(path: &Path, options: &Options) -> Result<Option<Timed>, Failed> {
    let name = name_of(path)?;
    let image = std::fs::read(path)?;
    let script = options.lua.as_ref().filter(|(_, folder)| folder.join(format!("{name}.lua")).exists());
    let (steps, globals) = match script {
        Some((lua, folder)) => by_lua(lua, folder, &name, "count")?,
        None => (options.steps as f64, Vec::new()),
    };
    let steps = steps as u32;
    let (mut results, mut memories) = (Vec::new(), Vec::new());
    for (_, run) in ENGINES {
        let mut store = vec![0; CELLS];
        let mut output = vec![OUTPUT_FILL; PLACES];
        results.push(run(&image, &[], &mut store, &mut output, steps));
        memories.push((store, output));
    }
    keep_told(&mut results);
    let (result, store) = (results[PLAIN], &memories[PLAIN].0);
    for who in 0..PLAIN {
        let (same_numbers, same_memory) = (results[who] == result, memories[who] == memories[PLAIN]);
        if !same_numbers {
            println!("{name}: {} {:?}, plain {result:?}", ENGINES[who].0, results[who]);
        }
        if !same_memory {
            println!("{name}: {}: store or outputs differ from those of plain", ENGINES[who].0);
        }
        if !(same_numbers && same_memory) {
            return Ok(None);
        }
    }
    if result.refusal != 0 || result.steps != steps {
        println!("{name}: it does not take {steps} steps: {:?}", result.in_order());
        return Ok(None);
    }
    if globals[..] != store[..globals.len()] {
        println!("{name}: after {steps} steps Lua has other globals: {globals:?}, not {:?}", &store[..globals.len()]);
        return Ok(None);
    }
    let costs = Costs { name, engines: vec![Vec::new(); ENGINES.len()] };
    let mut row = Timed { steps, costs, lua: script.map(|_| Vec::new()) };
    let mut store = vec![0; CELLS];
    let mut places = vec![OUTPUT_FILL; PLACES];
    for round in 0..options.rounds {
        for turn in 0..ENGINES.len() {
            let who = rounds::whose(round, turn, ENGINES.len());
            let start = processor_seconds();
            black_box(ENGINES[who].1(black_box(&image), &[], &mut store, &mut places, steps));
            row.costs.engines[who].push((processor_seconds() - start) * 1e9 / steps as f64);
        }
        if let (Some((lua, folder)), Some(times)) = (script, &mut row.lua) {
            let (seconds, after) = by_lua(lua, folder, &row.costs.name, "time")?;
            if after != globals {
                return Err(format!("{}: Lua's globals differ from those that it counted with", row.costs.name).into());
            }
            times.push(seconds * 1e9 / steps as f64);
        }
    }
    Ok(Some(row))
}

/// What bench.lua prints: the steps that a script stands for, or its seconds; then the globals.
fn by_lua(lua: &str, folder: &Path, name: &str, mode: &str) -> Result<(f64, Vec<i64>), Failed> {
    let done = Command::new(lua).arg(folder.join("bench.lua")).args([name, mode]).output()?;
    if !done.status.success() {
        return Err(format!("{name}.lua: {}", String::from_utf8_lossy(&done.stderr)).into());
    }
    let text = String::from_utf8(done.stdout)?;
    let (first, globals) = text.split_once('\n').ok_or(format!("{name}.lua: it prints nothing"))?;
    Ok((first.trim().parse()?, numbers(globals)?))
}

/// Seconds of the processor that this process has used: what others do on the machine counts for little. The scripts'
/// os.clock is the same clock.
fn processor_seconds() -> f64 {
    #[repr(C)]
    struct Time {
        seconds: i64,
        nanoseconds: i64,
    }
    extern "C" {
        fn clock_gettime(clock: i32, time: *mut Time) -> i32;
    }
    const PROCESS: i32 = 2;
    let mut time = Time { seconds: 0, nanoseconds: 0 };
    // SAFETY: on 64-bit Linux `Time` is the C library's timespec, and the call writes nothing else.
    let status = unsafe { clock_gettime(PROCESS, &mut time) };
    assert_eq!(status, 0, "no clock");
    time.seconds as f64 + time.nanoseconds as f64 / 1e9
}

fn best(numbers: &[f64]) -> f64 {
    numbers.iter().copied().fold(f64::INFINITY, f64::min)
}

// ---- the instructions

/// A step's instructions are the difference between runs of so many steps: start and check are in both.
const COUNTED: [u32; 2] = [20_000, 120_000];

fn count(images: &[String]) -> Result<bool, Failed> {
    let mut rows = Vec::new();
    print!("{:<18}", "program");
    for (engine, _) in ENGINES {
        print!("   {engine:>7}");
    }
    ratio_heading();
    println!();
    for image in images {
        let row = counted(Path::new(image))?;
        print!("{:<18}", row.name);
        for counts in &row.engines {
            print!("   {:>7.1}", best(counts));
        }
        show_ratios(&row);
        println!();
        rows.push(row);
    }
    println!("(instructions a step, of steps {} to {}, counted by valgrind)", COUNTED[0], COUNTED[1]);
    summary(&rows, "instructions");
    Ok(true)
}

fn counted(image: &Path) -> Result<Costs, Failed> {
    let mut engines = Vec::new();
    for (engine, _) in ENGINES {
        let [few, many] = COUNTED.map(|steps| by_valgrind(engine, steps, image));
        engines.push(vec![(many? - few?) / f64::from(COUNTED[1] - COUNTED[0])]);
    }
    Ok(Costs { name: name_of(image)?, engines })
}

/// Instructions of a process that runs once. Callgrind counts as many as single steps do; cachegrind and lackey count
/// up to one percent more.
fn by_valgrind(engine: &str, steps: u32, image: &Path) -> Result<f64, Failed> {
    let done = Command::new("valgrind")
        .args(["--tool=callgrind", "--callgrind-out-file=/dev/null"])
        .arg(std::env::current_exe()?)
        .args(["once", engine, &steps.to_string()])
        .arg(image)
        .output()?;
    let said = String::from_utf8_lossy(&done.stderr);
    let counted = said.lines().find_map(|line| line.split_once("refs:")).filter(|_| done.status.success());
    let (_, number) = counted.ok_or(format!("valgrind: {said}"))?;
    Ok(number.replace(',', "").trim().parse()?)
}

fn once(engine: &str, steps: &str, image: &str) -> Result<bool, Failed> {
    let (_, run) = ENGINES.iter().find(|(name, _)| *name == engine).ok_or(format!("there is no engine {engine}"))?;
    let steps = steps.parse()?;
    let result = run(&std::fs::read(image)?, &[], &mut vec![0; CELLS], &mut vec![OUTPUT_FILL; PLACES], steps);
    if result.refusal != 0 || result.steps != steps {
        return Err(format!("{image}: it does not take {steps} steps: {:?}", result.in_order()).into());
    }
    Ok(true)
}
