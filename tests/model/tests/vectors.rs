//! Every image of `vectors/` with the answer stored there. `vectors/README.md` says where the answers come from. Sound
//! is decided after every step of every run.

use std::fs;
use std::path::{Path, PathBuf};
use std::str::FromStr;

fn folder(name: &str) -> PathBuf {
    Path::new(env!("CARGO_MANIFEST_DIR")).join("../../vectors").join(name)
}

fn text(folder: &Path, name: &str) -> String {
    fs::read_to_string(folder.join(name)).unwrap()
}

fn image(folder: &Path, name: &str) -> Vec<u8> {
    fs::read(folder.join(name)).unwrap()
}

/// How many images a folder has, so that none is left out.
fn images(folder: &Path) -> usize {
    let paths = fs::read_dir(folder).unwrap().map(|entry| entry.unwrap().path());
    paths.filter(|path| path.extension().is_some_and(|extension| extension == "img")).count()
}

fn numbers<T: FromStr<Err: std::fmt::Debug>>(line: &str) -> Vec<T> {
    line.split_whitespace().map(|word| word.parse().unwrap()).collect()
}

/// What `doorrun` prints of an image: "the first 29,714 bytes of standard input with no inputs, 8,192 cells, 4,096
/// outputs, 100,000 steps".
fn doorrun(image: &[u8]) -> Vec<i128> {
    let image = &image[..image.len().min(29_714)];
    let mut output = [0; 4096];
    let answer = model::run(image, &[], &mut [0; 8192], &mut output, 100_000).unwrap();
    let written = output[..answer.written as usize].iter().map(|&x| i128::from(x));
    answer.in_order().into_iter().chain(written).collect()
}

/// Each image of a folder with an `expect.txt`.
fn doorrun_folder(name: &str) {
    let folder = folder(name);
    let expect = text(&folder, "expect.txt");
    let mut lines = expect.lines().peekable();
    let mut count = 0;
    while let Some(name) = lines.next() {
        let mut expected = Vec::new();
        while let Some(line) = lines.next_if(|line| !line.ends_with(".img")) {
            expected.extend(numbers::<i128>(line));
        }
        assert_eq!(doorrun(&image(&folder, name)), expected, "{name}");
        count += 1;
    }
    assert_eq!(count, images(&folder));
}

#[test]
fn special() {
    doorrun_folder("special");
}

#[test]
fn doorrun_images() {
    doorrun_folder("doorrun");
}

#[test]
fn in_images() {
    doorrun_folder("in");
}

#[test]
fn division_images() {
    doorrun_folder("division");
}

#[test]
fn types() {
    doorrun_folder("types");
}

#[test]
fn report() {
    doorrun_folder("report");
}

#[test]
fn large() {
    let folder = folder("large");
    let answers = text(&folder, "answers.txt");
    for line in answers.lines() {
        let (name, expected) = line.split_once(' ').unwrap();
        let answer = match model::check(&image(&folder, name)) {
            Ok(_) => vec![0, 0],
            Err(fault) => vec![fault.refusal, fault.row],
        };
        assert_eq!(answer, numbers::<u32>(expected), "{name}");
    }
    assert_eq!(answers.lines().count(), images(&folder));
}

/// Each image of a folder with a `runs.txt`: every number, every output place, every cell.
fn runs_folder(name: &str) {
    let folder = folder(name);
    let runs = text(&folder, "runs.txt");
    let lines: Vec<&str> = runs.lines().filter(|line| !line.starts_with('#')).collect();
    for line in &lines {
        let parts: Vec<&str> = line.split('|').collect();
        let (name, lent) = parts[0].split_once(' ').unwrap();
        let lent: Vec<i64> = numbers(lent);
        let [cells, fill, places, steps] = lent[..] else { panic!("{line}") };
        let input: Vec<i32> = numbers(parts[1]);
        for run in [model::run, model::run_unwatched] {
            let mut store = vec![fill; cells as usize];
            let mut output = vec![7; places as usize];
            let answer = run(&image(&folder, name), &input, &mut store, &mut output, steps as u32).unwrap();
            assert_eq!(answer.in_order()[..], numbers::<i128>(parts[2])[..], "{name}");
            assert_eq!(output, numbers::<i32>(parts[3]), "{name}");
            assert_eq!(store, numbers::<i64>(parts[4]), "{name}");
        }
    }
    assert_eq!(lines.len(), images(&folder));
}

#[test]
fn runs() {
    runs_folder("runs");
}

#[test]
fn input() {
    runs_folder("input");
}
