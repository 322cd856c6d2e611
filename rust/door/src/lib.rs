//! The proved check and run of door programs, for Rust.
//!
//! A door program comes as an image: bytes, of which nobody has to trust a single one. [`check`] asks document 01's
//! eleven questions of an image (`docs/spec/01-scope.md`), and says which fails first and at which row. [`run`] asks
//! them too, and then runs the program step by step, on memory that the caller lends. [`resume`] goes on where a run's
//! steps are used up. They are the functions of `include/door.h`, written and proved in Rattle; this crate makes them
//! safe to call, and gives their numbers names.
//!
//! ```
//! use door::{Outcome, Refusal};
//!
//! // a table of members: it reads card and day, and writes 1 where the door may open
//! let image = std::fs::read("../../vectors/input/members-1.img").expect("an image");
//!
//! let mut store = [0; 64]; // the program's variables and calls
//! let mut output = [0; 1];
//! let report = door::run(&image, &[1234, 19800], &mut store, &mut output, 10_000)?;
//! assert_eq!(report.outcome, Outcome::Finished);
//! assert_eq!(output[..report.written], [1]);
//! # Ok::<(), Refusal>(())
//! ```
//!
//! The examples name files from `rust/door` on.
//!
//! # The library
//!
//! `build.rs` links the target's `libdoor.a`: the file that the environment variable `DOOR_LIBRARY` names, or that of a
//! folder with one for each target, which `DOOR_LIBRARIES` names, or else that of the release or the repository that the
//! package stands in. The package's `README.md` has the targets, and says where exactly.
//!
//! The crate is `no_std`: of Rust it needs `core` alone, and no allocator. The library has no heap and no state. Of other
//! libraries it needs `memset` alone.
//!
//! # Stack
//!
//! [`run`] and [`resume`] need up to [`RUN_STACK`] bytes of stack, for the deepest expression that an image may have;
//! [`check`] needs [`CHECK_STACK`]. A main thread has that, and so has a thread of `std::thread` with its default of
//! 2 MiB. Give a smaller thread (`std::thread::Builder::stack_size`) `RUN_STACK`, or `CHECK_STACK` where it only checks;
//! 16 KiB for the thread itself; and what your own frames hold. A local array of [`STORE_MAX`] cells is 512 KiB more, so
//! let a large store be a `Vec` or a `static`. Where the stack runs out on a system with guard pages the process ends, as
//! for every Rust function that calls itself too deep; without them other memory is overwritten. The two numbers are
//! measured on x86-64, not proved; `docs/FIRMWARE.md` says how to need less.
//!
//! # Threads
//!
//! All functions may be called from several threads at once. What is lent is borrowed for the call; nothing is kept.

#![no_std]
#![deny(missing_docs)]
#![warn(unsafe_op_in_unsafe_fn)]

mod numbers;
pub use numbers::Numbers;

use core::error::Error;
use core::fmt;

/// The longest image that is accepted, in bytes. A longer one is refused, with no harm.
pub const IMAGE_MAX: usize = 29_713;

/// The largest store that [`run`] and [`resume`] take, in cells.
pub const STORE_MAX: usize = 65_536;

/// The stack that [`check`] needs, in bytes. A thread needs more, see [Stack](crate#stack).
pub const CHECK_STACK: usize = 16_896;

/// The stack that [`run`] or [`resume`] needs at most, in bytes. A thread needs more, see [Stack](crate#stack).
///
/// ```
/// let image = std::fs::read("../../vectors/input/members-1.img").expect("an image");
/// let thread = std::thread::Builder::new().stack_size(door::RUN_STACK + 16_384).spawn(move || {
///     let mut output = [0; 1];
///     door::run(&image, &[1234, 19800], &mut [0; 64], &mut output, 10_000).map(|_| output[0])
/// });
/// assert_eq!(thread.expect("a thread").join().expect("an answer"), Ok(1));
/// ```
pub const RUN_STACK: usize = 581_632;

/// Why nothing was run: the first question that is answered "no", and the row at fault.
///
/// ```
/// use door::{Question, Refusal};
///
/// let refusal = door::check(b"\x02").unwrap_err();
/// assert_eq!(refusal, Refusal { question: Question::Version, row: 0 });
/// assert_eq!(refusal.to_string(), "refusal 1: there is no first byte, or it is not 1");
/// ```
///
/// `{:?}` prints the same words as `{}`, so that a `main` that returns it says the reason.
#[derive(Clone, Copy, PartialEq, Eq, Hash)]
pub struct Refusal {
    /// The question: one of the first 11 from [`check`], of 13 from [`run`], of 14 from [`resume`].
    pub question: Question,
    /// The lowest row at fault, from 0 on, of the [table](Refusal::table); 0 where there is none. It is the count of
    /// types where no record claims a field, and the count of procedures where no procedure claims a variable.
    pub row: u32,
}

impl Refusal {
    /// What a reader shows as one number, refusal × 65,536 + row, as [`check_number`] gives it. `None` where it is no
    /// refusal: 0, which is acceptance, or one whose question this crate does not know.
    ///
    /// ```
    /// use door::{Question, Refusal};
    ///
    /// let refusal = Refusal { question: Question::NodeType, row: 57 };
    /// assert_eq!(Refusal::from_answer(655_417), Some(refusal));
    /// assert_eq!(refusal.to_string(), "refusal 10, node row 57: a node has no type");
    /// assert_eq!(Refusal::from_answer(0), None);
    /// ```
    pub fn from_answer(answer: u32) -> Option<Refusal> {
        let (number, row) = parts(answer);
        Refusal::from_numbers(number, row)
    }

    /// The same where a reader shows two numbers, refusal and row.
    ///
    /// ```
    /// use door::Refusal;
    ///
    /// assert_eq!(Refusal::from_numbers(10, 57), Refusal::from_answer(655_417));
    /// ```
    pub fn from_numbers(number: u32, row: u32) -> Option<Refusal> {
        Question::from_number(number).map(|question| Refusal { question, row })
    }

    /// The question's number, as a reader shows it.
    pub fn number(&self) -> u32 {
        self.question.number()
    }

    /// What is wrong, in a few words: [`Question::reason`].
    pub fn reason(&self) -> &'static str {
        self.question.reason()
    }

    /// The table of the row at fault, where the question is about rows: [`Question::table`].
    pub fn table(&self) -> Option<&'static str> {
        self.question.table()
    }
}

impl fmt::Display for Refusal {
    fn fmt(&self, f: &mut fmt::Formatter<'_>) -> fmt::Result {
        write!(f, "refusal {}", self.number())?;
        if let Some(table) = self.table() {
            write!(f, ", {table} row {}", self.row)?;
        }
        write!(f, ": {}", self.reason())
    }
}

impl Error for Refusal {}

/// The questions that are asked before a program runs, in their order. A later engine may ask more.
///
/// ```
/// use door::Question;
///
/// assert_eq!(Question::Names.number(), 9);
/// assert_eq!(Question::Names.reason(), "a node is named never, or more than once");
/// assert_eq!(Question::Names.table(), Some("node"));
/// ```
#[derive(Clone, Copy, Debug, PartialEq, Eq, PartialOrd, Ord, Hash)]
#[non_exhaustive]
pub enum Question {
    /// There is no first byte, or it is not 1.
    Version = 1,
    /// Bytes 1 to 4 are missing, or are not the image's length.
    Length,
    /// A count is out of range, or the tables do not fill the image.
    Tables,
    /// A type row, or an own field of a record, breaks its rule; or no record claims a field.
    Type,
    /// A variable row breaks its form.
    Variable,
    /// A procedure row breaks its rule; or no procedure claims a variable.
    Procedure,
    /// A node is not well formed, or names a row that is not there.
    Node,
    /// A statement is not well formed, or names a row that is not there.
    Statement,
    /// A node is named never, or more than once.
    Names,
    /// A node has no type.
    NodeType,
    /// A statement breaks a type rule, or names another procedure's variable.
    Rule,
    /// The store has more than [`STORE_MAX`] cells.
    StoreAbove,
    /// The store has fewer cells than the globals and the module body's frame.
    StoreBelow,
    /// The earlier result or the store cannot be gone on from; [`resume`] says when.
    State,
}

impl Question {
    /// All of them, from number 1 on.
    const ALL: [Question; 14] = [
        Question::Version,
        Question::Length,
        Question::Tables,
        Question::Type,
        Question::Variable,
        Question::Procedure,
        Question::Node,
        Question::Statement,
        Question::Names,
        Question::NodeType,
        Question::Rule,
        Question::StoreAbove,
        Question::StoreBelow,
        Question::State,
    ];

    /// Document 01's and 02's number, which is the refusal's: from 1 on.
    pub fn number(&self) -> u32 {
        *self as u32
    }

    /// The question of this number, where there is one.
    ///
    /// ```
    /// use door::Question;
    ///
    /// assert_eq!(Question::from_number(14), Some(Question::State));
    /// assert_eq!(Question::from_number(0), None);
    /// ```
    pub fn from_number(number: u32) -> Option<Question> {
        Question::ALL.into_iter().find(|question| question.number() == number)
    }

    /// What is wrong where it is answered "no", in a few words.
    pub fn reason(&self) -> &'static str {
        match self {
            Question::Version => "there is no first byte, or it is not 1",
            Question::Length => "bytes 1 to 4 are missing, or are not the image's length",
            Question::Tables => "a count is out of range, or the tables do not fill the image",
            Question::Type => "a type row, or an own field of a record, breaks its rule",
            Question::Variable => "a variable row breaks its form",
            Question::Procedure => "a procedure row breaks its rule",
            Question::Node => "a node is not well formed, or names a row that is not there",
            Question::Statement => "a statement is not well formed, or names a row that is not there",
            Question::Names => "a node is named never, or more than once",
            Question::NodeType => "a node has no type",
            Question::Rule => "a statement breaks a type rule, or names another procedure's variable",
            Question::StoreAbove => "the store has more than 65,536 cells",
            Question::StoreBelow => "the store has fewer cells than the globals and the module body's frame",
            Question::State => "the earlier result or the store cannot be gone on from",
        }
    }

    /// The table that it asks about, where it is about rows: "type", "variable", "procedure", "node" or "statement".
    pub fn table(&self) -> Option<&'static str> {
        match self {
            Question::Type => Some("type"),
            Question::Variable => Some("variable"),
            Question::Procedure => Some("procedure"),
            Question::Node | Question::Names | Question::NodeType => Some("node"),
            Question::Statement | Question::Rule => Some("statement"),
            _ => None,
        }
    }
}

/// Why a statement could not be carried out.
///
/// ```
/// use door::Trap;
///
/// assert_eq!(Trap::Input.to_string(), "a read when the input is used up");
/// assert_eq!(Trap::Halt(3).to_string(), "HALT(3)");
/// assert_eq!(Trap::Halt(3).number(), 10);
/// ```
///
/// A later engine may have more of them.
#[derive(Clone, Copy, PartialEq, Eq, Hash)]
#[non_exhaustive]
pub enum Trap {
    /// An index outside its array.
    Index,
    /// A guard that does not hold.
    Guard,
    /// A record assigned to one of another dynamic type.
    Target,
    /// An INTEGER beyond 32 bits, also by -2147483648 DIV -1.
    Overflow,
    /// A divisor that is zero.
    Divisor,
    /// A set's element, in a range or before IN, outside 0 to 31.
    Bound,
    /// A call whose frame goes beyond the store.
    Frame,
    /// A read when the input is used up.
    Input,
    /// A write when the output is full.
    Output,
    /// The program's HALT, with its number.
    Halt(i32),
}

impl Trap {
    /// Document 01's number, 1 to 10.
    pub fn number(&self) -> u32 {
        match self {
            Trap::Index => 1,
            Trap::Guard => 2,
            Trap::Target => 3,
            Trap::Overflow => 4,
            Trap::Divisor => 5,
            Trap::Bound => 6,
            Trap::Frame => 7,
            Trap::Input => 8,
            Trap::Output => 9,
            Trap::Halt(_) => 10,
        }
    }

    /// The trap of document 01's number, with HALT's where it is that; `None` where there is none of this number.
    ///
    /// ```
    /// use door::Trap;
    ///
    /// assert_eq!(Trap::from_number(5, 0), Some(Trap::Divisor));
    /// assert_eq!(Trap::from_number(10, 3), Some(Trap::Halt(3)));
    /// ```
    pub fn from_number(number: u32, halt: i32) -> Option<Trap> {
        Some(match number {
            1 => Trap::Index,
            2 => Trap::Guard,
            3 => Trap::Target,
            4 => Trap::Overflow,
            5 => Trap::Divisor,
            6 => Trap::Bound,
            7 => Trap::Frame,
            8 => Trap::Input,
            9 => Trap::Output,
            10 => Trap::Halt(halt),
            _ => return None,
        })
    }
}

impl fmt::Display for Trap {
    fn fmt(&self, f: &mut fmt::Formatter<'_>) -> fmt::Result {
        f.write_str(match self {
            Trap::Index => "an index outside its array",
            Trap::Guard => "a guard that does not hold",
            Trap::Target => "a record assigned to one of another dynamic type",
            Trap::Overflow => "an INTEGER beyond 32 bits",
            Trap::Divisor => "a divisor that is zero",
            Trap::Bound => "a set's element outside 0 to 31",
            Trap::Frame => "a call whose frame goes beyond the store",
            Trap::Input => "a read when the input is used up",
            Trap::Output => "a write when the output is full",
            Trap::Halt(number) => return write!(f, "HALT({number})"),
        })
    }
}

impl Error for Trap {}

/// How a run that was not refused ended.
///
/// ```
/// use door::{Outcome, Trap};
///
/// assert_eq!(Outcome::Finished.to_string(), "finished");
/// assert_eq!(Outcome::Trapped(Trap::Divisor).to_string(), "trapped: a divisor that is zero");
/// ```
#[derive(Clone, Copy, PartialEq, Eq, Hash)]
pub enum Outcome {
    /// The program has not ended yet: [`resume`] goes on.
    StepsUsedUp,
    /// The module body returned.
    Finished,
    /// A statement could not be carried out. Its step has changed no variable and no output.
    Trapped(Trap),
}

impl fmt::Display for Outcome {
    fn fmt(&self, f: &mut fmt::Formatter<'_>) -> fmt::Result {
        match self {
            Outcome::StepsUsedUp => f.write_str("steps used up"),
            Outcome::Finished => f.write_str("finished"),
            Outcome::Trapped(trap) => write!(f, "trapped: {trap}"),
        }
    }
}

// `{:?}` says it in the words of `{}`.
macro_rules! debug_in_words {
    ($($named:ty),*) => {
        $(impl fmt::Debug for $named {
            fn fmt(&self, f: &mut fmt::Formatter<'_>) -> fmt::Result {
                fmt::Display::fmt(self, f)
            }
        })*
    };
}

debug_in_words!(Refusal, Trap, Outcome);

/// What a run that was not refused came to. Steps, inputs, outputs and the mark are those from the fresh state on, of a
/// run and all that continue it.
///
/// ```
/// use door::{Outcome, Report};
///
/// let image = std::fs::read("../../vectors/special/smallest.img").expect("an image");
/// let report = door::run(&image, &[], &mut [0; 3], &mut [], 100);
/// let outcome = Outcome::Finished;
/// let expected = Report { outcome, row: 0, steps: 1, base: 0, top: 3, read: 0, written: 0, mark: 3 };
/// assert_eq!(report, Ok(expected));
/// assert_eq!(expected.to_string(), "finished, statement 0, 1 step, 0 inputs read, 0 outputs written, 3 cells needed");
/// ```
#[derive(Clone, Copy, Debug, PartialEq, Eq, Hash)]
pub struct Report {
    /// How it ended.
    pub outcome: Outcome,
    /// The statement row: of the last step where it finished or trapped, else of the next.
    pub row: u32,
    /// Steps taken; one that finishes or traps counts.
    pub steps: u32,
    /// The newest frame's first cell in the store.
    pub base: u32,
    /// The cell after its last.
    pub top: u32,
    /// Inputs read.
    pub read: usize,
    /// Outputs written: so many of the first output places. The others keep what they held.
    pub written: usize,
    /// The cells that the run needed. A store of so many gives the same report, the same cells and the same output; a
    /// shorter one is refused by [`Question::StoreBelow`], or traps with [`Trap::Frame`]. Cells from here on keep what
    /// they held. With another input or more steps the program may need more.
    pub mark: u32,
}

impl fmt::Display for Report {
    fn fmt(&self, f: &mut fmt::Formatter<'_>) -> fmt::Result {
        let plural = |count: usize| if count == 1 { "" } else { "s" };
        let Report { outcome, row, steps, read, written, mark, .. } = *self;
        write!(f, "{outcome}, statement {row}, {steps} step{}", plural(steps as usize))?;
        write!(f, ", {read} input{} read, {written} output{} written", plural(read), plural(written))?;
        write!(f, ", {mark} cell{} needed", plural(mark as usize))
    }
}

impl Report {
    /// The same as bare numbers.
    ///
    /// ```
    /// let image = std::fs::read("../../vectors/input/members-1.img").expect("an image");
    /// let numbers = door::run_numbers(&image, &[1234], &mut [0; 64], &mut [0], 100);
    /// assert_eq!(numbers.report().map(|report| report.numbers()), Ok(numbers));
    /// ```
    pub fn numbers(&self) -> Numbers {
        let (outcome, trap, halt) = match self.outcome {
            Outcome::StepsUsedUp => (0, 0, 0),
            Outcome::Finished => (1, 0, 0),
            Outcome::Trapped(trap) => (2, trap.number(), if let Trap::Halt(number) = trap { number } else { 0 }),
        };
        let Report { row, steps, base, top, mark, .. } = *self;
        let [read, written] = [self.read, self.written].map(|count| count as u64);
        Numbers { refusal: 0, fault: 0, outcome, trap, halt, steps, row, base, top, read, written, mark }
    }
}

impl Numbers {
    /// The same in names.
    ///
    /// ```
    /// use door::{Numbers, Outcome, Trap};
    ///
    /// let numbers = Numbers { outcome: 2, trap: 10, halt: 3, row: 17, steps: 80, ..Numbers::default() };
    /// assert_eq!(numbers.report().map(|report| report.outcome), Ok(Outcome::Trapped(Trap::Halt(3))));
    /// ```
    ///
    /// # Panics
    ///
    /// Where the refusal is neither 0 nor a [`Question`]'s number; or there is none, and the outcome is not 0 to 2, or
    /// is 2 with a trap that is not 1 to 10, or `read` or `written` is no length of a list. [`run_numbers`] and
    /// [`resume_numbers`] never give such numbers. All else has a report or a refusal; numbers without a use in it are
    /// not looked at.
    pub fn report(&self) -> Result<Report, Refusal> {
        if self.refusal != 0 {
            return Err(refused(self.refusal, self.fault));
        }
        let outcome = match (self.outcome, Trap::from_number(self.trap, self.halt)) {
            (0, _) => Outcome::StepsUsedUp,
            (1, _) => Outcome::Finished,
            (2, Some(trap)) => Outcome::Trapped(trap),
            _ => panic!("no run has outcome {} with trap {}", self.outcome, self.trap),
        };
        let length = |count: u64| usize::try_from(count).expect("no list is so long");
        let [read, written] = [self.read, self.written].map(length);
        let Numbers { row, steps, base, top, mark, .. } = *self;
        Ok(Report { outcome, row, steps, base, top, read, written, mark })
    }
}

mod raw {
    extern "C" {
        pub fn door_check(image: *const u8, length: usize) -> u32;
        pub fn door_run(
            image: *const u8,
            image_length: usize,
            input: *const i32,
            input_length: usize,
            store: *mut i64,
            store_length: usize,
            output: *mut i32,
            output_length: usize,
            steps: u32,
        ) -> super::Numbers;
        pub fn door_continue(
            image: *const u8,
            image_length: usize,
            input: *const i32,
            input_length: usize,
            store: *mut i64,
            store_length: usize,
            output: *mut i32,
            output_length: usize,
            steps: u32,
            from: super::Numbers,
        ) -> super::Numbers;
    }
}

/// Asks the eleven questions of an image.
///
/// ```
/// // document 01's smallest program: three types, a procedure, a RETURN
/// let mut image = [
///     1, 0, 0, 0, 57, // version, length
///     0, 3, 0, 0, 0, 0, 0, 0, 0, 0, 1, 0, 0, 0, 0, 0, 0, 0, 2, 0, 0, 0, 0, 0, 0, 0, // types
///     0, 0, // fields
///     0, 0, // variables
///     0, 1, 0, 0, 0, 0, 0, 0, 0, 0, // procedures
///     0, 0, // nodes
///     0, 1, 4, 0, 0, 0, 0, 0, 0, 0, // statements
/// ];
/// assert_eq!(door::check(&image), Ok(()));
///
/// image[15] = 2; // type row 1 is not INTEGER any more
/// let refusal = door::check(&image).unwrap_err();
/// assert_eq!((refusal.question, refusal.row), (door::Question::Type, 1));
/// ```
pub fn check(image: &[u8]) -> Result<(), Refusal> {
    match check_number(image) {
        0 => Ok(()),
        answer => {
            let (number, row) = parts(answer);
            Err(refused(number, row))
        }
    }
}

/// Refusal and row of an answer of the check.
fn parts(answer: u32) -> (u32, u32) {
    (answer / 65_536, answer % 65_536)
}

/// The refusal of these two numbers from the engine.
fn refused(number: u32, row: u32) -> Refusal {
    Refusal::from_numbers(number, row).unwrap_or_else(|| panic!("no question has number {number}"))
}

/// Checks an image, and runs it from the fresh state with at most `steps` steps.
///
/// `store` holds the program's variables and the frames of its calls. What it held before does not matter to the run.
/// Afterwards the globals come first: an INTEGER is its number, FALSE 0, TRUE 1, and a SET has bit i for element i (0 to
/// 4,294,967,295). The frames follow (document 01); cells that the run did not reach keep what they held. The store holds
/// what the program saw: clear it where that must not stay. `output` has what was written in its first places. A
/// refusal leaves both as they were.
///
/// With [`STORE_MAX`] cells every program begins that can begin at all; `doordump FILE.img` says how many a program
/// needs to begin, and [`Report::mark`] how many this run needed. `steps` is the only limit on time. `docs/FIRMWARE.md`
/// says more about cells, steps and time.
///
/// ```
/// use door::{Outcome, Trap};
///
/// let image = std::fs::read("../../vectors/input/members-1.img").expect("an image");
/// let (mut store, mut output) = ([0; 64], [0; 1]);
///
/// // the day is missing
/// let report = door::run(&image, &[1234], &mut store, &mut output, 10_000)?;
/// assert_eq!(report.outcome, Outcome::Trapped(Trap::Input));
/// assert_eq!((report.row, report.read, report.written), (6, 1, 0));
///
/// // in as many cells as a run needed it gives the same, and in one less it traps
/// let report = door::run(&image, &[1234, 19800], &mut store, &mut output, 10_000)?;
/// assert_eq!(report.mark, 34);
/// assert_eq!(door::run(&image, &[1234, 19800], &mut store[..34], &mut output, 10_000), Ok(report));
/// let less = door::run(&image, &[1234, 19800], &mut store[..33], &mut output, 10_000)?;
/// assert_eq!(less.outcome, Outcome::Trapped(Trap::Frame));
///
/// // the store is too small to begin
/// let refusal = door::run(&image, &[1234, 19800], &mut store[..8], &mut output, 10_000).unwrap_err();
/// assert_eq!(refusal.question, door::Question::StoreBelow);
/// # Ok::<(), door::Refusal>(())
/// ```
pub fn run(image: &[u8], input: &[i32], store: &mut [i64], output: &mut [i32], steps: u32) -> Result<Report, Refusal> {
    run_numbers(image, input, store, output, steps).report()
}

/// Goes on from an earlier report, with at most `steps` steps more.
///
/// Where a run of n steps ended with [`Outcome::StepsUsedUp`], this gives, with its report as `from`, what one run of
/// n + `steps` steps gives: the same report, store and output. Lend what the run was lent: the same image, the store as
/// it was left, and input and output whole, from their first place on. The lists and the store may have become longer,
/// or shorter as far as what was read, written and needed: `read`, `written` and `mark` of `from`. So a program that
/// waits for an input gets it by a longer list.
///
/// The image is checked again. Then [`Question::State`] comes where
///
/// - `from` has finished or trapped;
/// - its row, `base`, `top` and the store's cells are no state that this image can be in;
/// - its `mark` is below its `top`, or above the store's length;
/// - it has read or written more than the list has;
/// - its steps and `steps` exceed 4,294,967,295 together.
///
/// A refusal leaves store and output as they were: keep the earlier report until there is a next one. Cells that were
/// changed to another such state pass, and the run goes on from there.
///
/// ```
/// use door::{Outcome, Question, Refusal};
///
/// // it reads card and day, and then the latch again and again until that is 1
/// let image = std::fs::read("../../examples/latch.img").expect("an image");
/// let (mut store, mut output, mut input) = ([0; 64], [0; 1], vec![1234, 19800]);
/// let mut report = door::run(&image, &input, &mut store, &mut output, 100)?;
/// while report.outcome == Outcome::StepsUsedUp {
///     if report.read == input.len() {
///         input.push(1); // what the latch shows now
///     }
///     report = door::resume(&image, &input, &mut store, &mut output, 100, &report)?;
/// }
/// assert_eq!((report.outcome, report.steps, output), (Outcome::Finished, 131, [1]));
///
/// // what has finished is not continued
/// let refusal = door::resume(&image, &input, &mut store, &mut output, 100, &report).unwrap_err();
/// assert_eq!(refusal.question, Question::State);
/// # Ok::<(), Refusal>(())
/// ```
pub fn resume(
    image: &[u8],
    input: &[i32],
    store: &mut [i64],
    output: &mut [i32],
    steps: u32,
    from: &Report,
) -> Result<Report, Refusal> {
    resume_numbers(image, input, store, output, steps, &from.numbers()).report()
}

/// The check's answer as firmware gets it: refusal × 65,536 + row, 0 where the image is accepted.
///
/// ```
/// assert_eq!(door::check_number(&[]), 65_536);
/// ```
pub fn check_number(image: &[u8]) -> u32 {
    // SAFETY: the pointer is that of a slice, so not null, with its length; nobody writes it during the call.
    unsafe { raw::door_check(image.as_ptr(), image.len()) }
}

/// The run's numbers as firmware gets them. [`run`] gives them names.
///
/// ```
/// let numbers = door::run_numbers(&[2], &[], &mut [], &mut [], 100);
/// assert_eq!(numbers, door::Numbers { refusal: 1, ..door::Numbers::default() });
/// ```
pub fn run_numbers(image: &[u8], input: &[i32], store: &mut [i64], output: &mut [i32], steps: u32) -> Numbers {
    // SAFETY: each pointer is that of a slice, so not null, with its length; the two that are written are borrowed
    // alone.
    unsafe {
        raw::door_run(
            image.as_ptr(),
            image.len(),
            input.as_ptr(),
            input.len(),
            store.as_mut_ptr(),
            store.len(),
            output.as_mut_ptr(),
            output.len(),
            steps,
        )
    }
}

/// The same for [`resume`], from any numbers: `door_continue` of `include/door.h`.
///
/// ```
/// use door::Numbers;
///
/// let image = std::fs::read("../../vectors/special/jump_to_itself.img").expect("an image");
/// let mut store = [0; 3];
/// let first = door::run_numbers(&image, &[], &mut store, &mut [], 100);
/// let next = door::resume_numbers(&image, &[], &mut store, &mut [], 50, &first);
/// assert_eq!(next, Numbers { steps: 150, ..first });
///
/// let other = Numbers { top: 2, ..first };
/// let refused = door::resume_numbers(&image, &[], &mut store, &mut [], 50, &other);
/// assert_eq!(refused, Numbers { refusal: 14, ..Numbers::default() });
/// ```
pub fn resume_numbers(
    image: &[u8],
    input: &[i32],
    store: &mut [i64],
    output: &mut [i32],
    steps: u32,
    from: &Numbers,
) -> Numbers {
    // SAFETY: as for a run; the earlier numbers are handed over by value, and may be any.
    unsafe {
        raw::door_continue(
            image.as_ptr(),
            image.len(),
            input.as_ptr(),
            input.len(),
            store.as_mut_ptr(),
            store.len(),
            output.as_mut_ptr(),
            output.len(),
            steps,
            *from,
        )
    }
}
