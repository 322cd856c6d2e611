//! The mark: what document 02's third request leaves open, a test for each reading with its number, and what it claims
//! of every run and continuation: the store cut to the mark gives the same.

mod common;
#[path = "common/programs.rs"]
mod programs;

use common::{draft, image, row};
use model::{continue_program, continue_run, run, run_program, Numbers, Program, Row};
use programs::{programs, INPUT};

const CALL: u8 = 1;
const RETURN: Row = Row { kind: 4, zero: 0, a: 0, b: 0, c: 0 };

/// A global INTEGER g. Procedure 0's frame is at 1 and ends at 4, which is G + F0. Procedure 1 has two value parameters
/// and so 5 cells, procedure 2 none and 3 cells.
///
///     0: read into g                     4: RETURN
///     1: call 1 with 7 and 1 DIV g
///     2: call 2                          5: call 2
///     3: RETURN                          6: RETURN
///
/// So the tops asked for are 9, and after a RETURN 7, 10, 13 and so on.
fn bytes() -> Vec<u8> {
    let mut tables = draft(vec![row(5, 0, 0, 0), row(CALL, 1, 5, 0), row(CALL, 2, 0, 0), RETURN]);
    tables.statements.extend([RETURN, row(CALL, 2, 0, 0), RETURN]);
    tables.variables.extend([row(0, 1, 0, 0), row(2, 1, 0, 0), row(2, 1, 0, 0)]);
    tables.procedures.extend([row(0, 4, 2, 0), row(0, 5, 0, 0)]);
    tables.nodes.extend([row(1, 0, 0, 0), row(0, 1, 0, 7), row(0, 1, 0, 1), row(1, 0, 0, 0), row(5, 2, 3, 4)]);
    tables.nodes.extend([row(8, 1, 0, 0), row(8, 4, 0, 0)]);
    image(&tables)
}

/// A run with g, cells of -9 and so many steps: what comes back, and the store.
fn after(g: i32, cells: usize, steps: u32) -> (Numbers, Vec<i64>) {
    let mut store = vec![-9; cells];
    (run(&bytes(), &[g], &mut store, &mut [], steps).unwrap(), store)
}

/// A continuation for so many steps with another mark: what comes back.
fn continued(from: &Numbers, mark: u32, store: &[i64], steps: u32) -> Numbers {
    let from = Numbers { mark, ..*from };
    continue_run(&bytes(), &[1], &mut store.to_vec(), &mut [], steps, &from).unwrap()
}

#[test]
fn r3_1_tops_asked_for() {
    let at = |steps| {
        let (Numbers { top, mark, .. }, _) = after(1, 14, steps);
        (top, mark)
    };
    assert_eq!([at(0), at(1), at(2), at(3)], [(4, 4), (4, 4), (9, 9), (4, 9)]);
    assert_eq!([at(4), at(5), at(6), at(7)], [(7, 9), (10, 10), (13, 13), (13, 13)]);
}

#[test]
fn r3_2_a_call_whose_argument_traps_counts() {
    let (trapped, store) = after(0, 12, 9);
    assert_eq!((trapped.trap, trapped.row, trapped.top, trapped.mark), (5, 1, 4, 9));
    assert_eq!(store, [0, 0, 0, 0, -9, -9, -9, 7, -9, -9, -9, -9]);
}

#[test]
fn r3_3_a_call_that_fails_the_store_check_does_not_count() {
    let with = |cells| {
        let (Numbers { trap, steps, top, mark, .. }, _) = after(1, cells, 9);
        (trap, steps, top, mark)
    };
    // the call of 1, then the calls of 2
    assert_eq!([with(4), with(8)], [(7, 2, 4, 4), (7, 2, 4, 4)]);
    assert_eq!([with(9), with(10), with(12), with(13)], [(7, 5, 7, 9), (7, 6, 10, 10), (7, 6, 10, 10), (7, 7, 13, 13)]);
}

#[test]
fn r3_4_no_steps_and_refusals() {
    assert_eq!(after(1, 4, 0).0.mark, 4);
    assert_eq!(after(1, 3, 9), (Numbers { refusal: 13, ..Numbers::default() }, vec![-9; 3]));
    assert_eq!(after(1, 65_537, 9).0, Numbers { refusal: 12, ..Numbers::default() });
}

#[test]
fn r3_5_a_continuation_takes_the_earlier_mark() {
    let (from, store) = after(1, 20, 3);
    assert_eq!((from.top, from.mark), (4, 9));
    let marks = |earlier: u32| [0, 1, 2, 3, 4].map(|steps| continued(&from, earlier, &store, steps).mark);
    assert_eq!(marks(9), [9, 9, 10, 13, 16]);
    // a mark that no run gave is believed
    assert_eq!(marks(4), [4, 7, 10, 13, 16]);
    assert_eq!(marks(15), [15, 15, 15, 15, 16]);
    assert_eq!(marks(20), [20; 5]);
    let ended = continued(&from, 11, &store, 99);
    assert_eq!((ended.trap, ended.top, ended.mark), (7, 19, 19));
}

#[test]
fn r3_6_top_and_length_pass() {
    for steps in [0, 2, 3, 4] {
        let (from, store) = after(1, 20, steps);
        let refusal = |mark| continued(&from, mark, &store, 0).refusal;
        assert_eq!([from.top, from.top + 1, 19, 20].map(refusal), [0; 4]);
        assert_eq!([0, from.top - 1, 21, from.mark + 65_536, u32::MAX].map(refusal), [14; 5]);
    }
    let (full, store) = after(1, 9, 2);
    assert_eq!([8, 9, 10].map(|mark| continued(&full, mark, &store, 0).refusal), [14, 0, 14]);
}

const PLACES: usize = 40;

/// What a call is lent but for its store; a continuation also has the earlier result.
struct Call<'a> {
    program: &'a Program,
    output: [i32; PLACES],
    steps: u32,
    from: Option<Numbers>,
}

impl Call<'_> {
    /// What the call gives back and leaves. A refused one leaves store and output.
    fn with(&self, store: &[i64]) -> (Numbers, Vec<i64>, [i32; PLACES]) {
        let Call { program, mut output, steps, from } = *self;
        let mut after = store.to_vec();
        let answer = match from {
            None => run_program(program, &INPUT, &mut after, &mut output, steps, false),
            Some(from) => continue_program(program, &INPUT, &mut after, &mut output, steps, &from, false),
        };
        let numbers = answer.unwrap().unwrap_or_else(|fault| {
            assert_eq!((&after[..], output), (store, self.output));
            fault.numbers()
        });
        (numbers, after, output)
    }

    /// "An unrefused run with its store cut to the mark, all else lent being equal, gives the same result and the same
    /// cells below the mark, trap 7 included", a continuation too (r3_7); cells from the mark on stay (r3_8). A shorter
    /// store is not enough: refusal 13 or, of a continuation, 14, else trap 7. Gives what the call leaves, and counts
    /// these three.
    fn cut(&self, store: &[i64], shorter: &mut [usize; 3]) -> (Numbers, Vec<i64>, [i32; PLACES]) {
        let (numbers, after, output) = self.with(store);
        if numbers.refusal > 0 {
            return (numbers, after, output);
        }
        let mark = numbers.mark as usize;
        assert!(numbers.top <= numbers.mark && mark <= store.len());
        assert_eq!(after[mark..], store[mark..]);
        assert_eq!(self.with(&store[..mark]), (numbers, after[..mark].to_vec(), output));
        let needed = self.program.globals() + self.program.frame(0);
        let earlier = self.from.map_or(needed, |from| from.mark as usize);
        for cells in (mark.saturating_sub(70)..mark).chain([0, needed - 1]) {
            let (Numbers { refusal, trap, .. }, ..) = self.with(&store[..cells]);
            let which = if cells < needed { 0 } else { 1 + usize::from(cells >= earlier) };
            assert_eq!((refusal, trap), [(13, 0), (14, 0), (0, 7)][which], "{cells} cells for {numbers:?}");
            shorter[which] += 1;
        }
        (numbers, after, output)
    }
}

#[test]
fn r3_7_and_8_a_store_cut_to_the_mark() {
    let (mut runs, mut continuations, mut shorter) = (0, 0, [0; 3]);
    for (_, program) in programs() {
        let needed = program.globals() + program.frame(0);
        for (first, then, more) in [(0, 20, 60), (1, 30, 9), (7, 100, 60), (12, 1, 30), (40, 400, 60), (200, 200, 200)]
        {
            let fresh = Call { program: &program, output: [8; PLACES], steps: first, from: None };
            let (from, store, output) = fresh.cut(&vec![-1; needed + more], &mut shorter);
            runs += 1;
            if (from.refusal, from.outcome) == (0, 0) {
                let call = Call { output, steps: then, from: Some(from), ..fresh };
                call.cut(&store, &mut shorter);
                continuations += 1;
            }
        }
    }
    assert!(runs > 3000 && continuations > 1500, "{runs}, {continuations}");
    assert!(shorter.iter().all(|count| *count > 5000), "{shorter:?}");
}
