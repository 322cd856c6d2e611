//! Check, run and resume in threads of the stack that the documents ask for. It stands alone, and begins with the smallest
//! stack, since a thread may be given the larger stack of one that has ended.
use door::Outcome;

/// What a thread needs for itself.
const THREAD: usize = 16_384;

fn image(name: &str) -> Vec<u8> {
    let path = format!("{}/../../{name}", env!("CARGO_MANIFEST_DIR"));
    std::fs::read(&path).unwrap_or_else(|error| panic!("{path}: {error}"))
}

fn in_thread<T: Send + 'static>(stack: usize, work: impl FnOnce() -> T + Send + 'static) -> T {
    let thread = std::thread::Builder::new().stack_size(stack).spawn(work);
    thread.expect("a thread").join().expect("an answer")
}

#[test]
fn the_longest_image_and_the_deepest_expression() {
    let longest = image("vectors/large/longest.img");
    assert_eq!(in_thread(door::CHECK_STACK + THREAD, move || door::check(&longest)), Ok(()));

    let deepest = image("tests/bench/programs/deep-minus.img");
    let same = deepest.clone();
    let run = move || door::run(&deepest, &[], &mut [0; 64], &mut [], 10).map(|report| report.outcome);
    let resume = move || {
        let mut store = [0; 64];
        let report = door::run(&same, &[], &mut store, &mut [], 0)?;
        door::resume(&same, &[], &mut store, &mut [], 10, &report).map(|report| report.outcome)
    };
    assert_eq!(in_thread(door::RUN_STACK + THREAD, run.clone()), Ok(Outcome::StepsUsedUp));
    assert_eq!(in_thread(door::RUN_STACK + THREAD, resume), Ok(Outcome::StepsUsedUp));
    assert_eq!(std::thread::spawn(run).join().expect("an answer"), Ok(Outcome::StepsUsedUp));
}
