//! What the images and runs reached, and how often.

use crate::compare::After;
use crate::divisions::{self, DIV, MOD};
use crate::frames::{Given, Sight};
use crate::traps::{self, Origin};
use listing::SCALARS;
use model::program::{Program, CALL, DYADIC, ELEMENT, GUARD, MONADIC};
use model::{rules, Fault, Machine};

#[derive(Clone, Copy, Debug, PartialEq, Eq)]
pub enum Group {
    Refusal,
    Outcome,
    Steps,
    Trap,
    Trapping,
    Node,
    Dyadic,
    Monadic,
    Statement,
    Executed,
    Division,
    Parameter,
    Extension,
    Rule,
    ContinuedRefusal,
    Cut,
    Foreign,
    Damaged,
    Frames,
    Names,
    State,
    Mark,
    ContinuedMark,
    EarlierMark,
    CutStore,
    Shorter,
    ContinuedShorter,
}

const GROUPS: [(Group, &str); 27] = [
    (Group::Refusal, "refusals of runs"),
    (Group::Outcome, "outcomes of runs"),
    (Group::Steps, "unrefused runs by their steps"),
    (Group::Trap, "traps"),
    (Group::Trapping, "nodes that trapped"),
    (Group::Node, "nodes in accepted images"),
    (Group::Dyadic, "dyadic operators by their left operand"),
    (Group::Monadic, "monadic operators by their operand"),
    (Group::Statement, "statements in accepted images"),
    (Group::Executed, "statements executed, in the first steps of some runs"),
    (Group::Division, "divisions in these statements"),
    (Group::Parameter, "parameters"),
    (Group::Extension, "extensions of a record"),
    (Group::Rule, "rules broken, of the model's list"),
    (Group::ContinuedRefusal, "refusals of continuations"),
    (Group::Cut, "continuations of runs, as they were left"),
    (Group::Foreign, "continuations of states that no run left"),
    (Group::Damaged, "continuations with damage"),
    (Group::Frames, "frames of continued states"),
    (Group::Names, "what VAR parameters name in continued states"),
    (Group::State, "refusals by question 14, by the model's reason"),
    (Group::Mark, "marks of runs"),
    (Group::ContinuedMark, "marks of continuations"),
    (Group::EarlierMark, "earlier marks that question 14 passed"),
    (Group::CutStore, "stores that were longer than the mark, cut to it"),
    (Group::Shorter, "runs with a store shorter than their mark"),
    (Group::ContinuedShorter, "continuations with a store shorter than their mark"),
];

const NODES: [&str; 9] =
    ["constant", "variable", "field", "element", "guard", "dyadic", "monadic", "type test", "argument"];
const STATEMENTS: [&str; 8] = ["assign", "call", "jump if FALSE", "jump", "RETURN", "read", "write", "HALT"];
const DYADIC_OPERATORS: [(&str, &[usize]); 16] = [
    ("+", &[1, 2]),
    ("-", &[1, 2]),
    ("*", &[1, 2]),
    ("DIV", &[1]),
    ("MOD", &[1]),
    ("/", &[2]),
    ("=", &[0, 1, 2]),
    ("#", &[0, 1, 2]),
    ("<", &[1]),
    ("<=", &[1]),
    (">", &[1]),
    (">=", &[1]),
    ("&", &[0]),
    ("OR", &[0]),
    ("IN", &[1]),
    ("..", &[1]),
];
const MONADIC_OPERATORS: [(&str, &[usize]); 2] = [("-", &[1, 2]), ("~", &[0])];
/// Nodes that can trap, by kind, operator and trap.
const TRAPPING: [(&str, u8, u16, u32); 11] = [
    ("element", ELEMENT, 0, 1),
    ("guard", GUARD, 0, 2),
    ("monadic -", MONADIC, 1, 4),
    ("+", DYADIC, 1, 4),
    ("-", DYADIC, 2, 4),
    ("*", DYADIC, 3, 4),
    ("DIV that overflows", DYADIC, DIV, 4),
    ("DIV by 0", DYADIC, DIV, 5),
    ("MOD by 0", DYADIC, MOD, 5),
    ("IN", DYADIC, traps::IN, 6),
    ("..", DYADIC, 16, 6),
];
/// Counted besides the node itself.
const BEFORE_IN: &str = "in the right operand of an IN whose element is outside";
/// What a VAR parameter can name, each counted where it applies.
const NAMES: [&str; 6] = [
    "a global or a part of one",
    "an older frame's variable or a part of one",
    "an extension",
    "an object without cells",
    "one without cells at its frame's end",
    "one without cells at the end of the globals",
];
const FORMS: [&str; 3] = ["scalar", "array", "record"];
/// How a mark came about, each counted where it applies.
const BY_TRAPPED_CALL: &str = "raised at last by a call that trapped in an argument";
const BY_FAILED_CALL: &str = "with a call that failed the store check";

/// What can be counted in a group; where nothing can, no name.
fn names(group: Group) -> Vec<Option<String>> {
    let all = |names: &[&str]| names.iter().map(|name| Some(name.to_string())).collect();
    match group {
        Group::Refusal => (0..=13).map(|number| Some(number.to_string())).collect(),
        Group::Outcome => all(&["steps used up", "finished", "trapped"]),
        Group::Steps => all(&["0", "1 to 9", "10 to 99", "100 to 999", "1,000 and more"]),
        Group::Trap => (0..=10).map(|number| (number > 0).then(|| number.to_string())).collect(),
        Group::Trapping => all(&[&TRAPPING.map(|(name, ..)| name)[..], &[BEFORE_IN]].concat()),
        Group::Node => all(&NODES),
        Group::Dyadic => operators(&DYADIC_OPERATORS),
        Group::Monadic => operators(&MONADIC_OPERATORS),
        Group::Statement | Group::Executed => all(&STATEMENTS),
        Group::Division => {
            let of = |operator: &str| divisions::NAMES.map(|name| Some(format!("{operator} {name}")));
            [of("DIV"), of("MOD")].concat()
        }
        Group::Parameter => {
            let of = |kind: &str| FORMS.map(|form| Some(format!("{kind} {form}")));
            [of("value"), of("VAR")].concat()
        }
        Group::Extension => all(&["assigned", "passed by value", "passed to VAR"]),
        Group::Rule => rules::ALL.iter().map(|rule| Some(format!("{}: {}", rule.question, rule.words))).collect(),
        Group::ContinuedRefusal => (0..=14).map(|number| Some(number.to_string())).collect(),
        Group::Cut | Group::Foreign => all(&["steps used up", "finished", "trapped"]),
        Group::Damaged => all(&["steps used up", "finished", "trapped", "refused"]),
        Group::Frames => all(&["1", "2", "3", "4 and more"]),
        Group::Names => all(&NAMES),
        Group::State => rules::STATE.iter().map(|rule| Some(rule.words.to_string())).collect(),
        Group::Mark => all(&["G + F0", "above that", "above top", BY_TRAPPED_CALL, BY_FAILED_CALL]),
        Group::ContinuedMark => all(&["kept", "raised", "above top", BY_TRAPPED_CALL, BY_FAILED_CALL]),
        Group::EarlierMark => all(&["top", "above top", "the store's length", "below that"]),
        Group::CutStore => all(&["of runs", "of continuations"]),
        Group::Shorter => vec![Some("refused by 13".into()), None, Some("trap 7".into())],
        Group::ContinuedShorter => all(&["refused by 13", "refused by 14", "trap 7"]),
    }
}

/// Operator o, counted from 1, with operands of kind k is number 3 * (o - 1) + k.
fn operators(list: &[(&str, &[usize])]) -> Vec<Option<String>> {
    let of = |(name, kinds): &(&str, &[usize])| {
        [0, 1, 2].map(|kind| kinds.contains(&kind).then(|| format!("{name} {}", SCALARS[kind])))
    };
    list.iter().flat_map(of).collect()
}

#[derive(Clone)]
pub struct Counts {
    pub images: u64,
    pub accepted_mutants: u64,
    pub runs: u64,
    pub continuations: u64,
    pub steps: u64,
    groups: Vec<Vec<u64>>,
}

impl Counts {
    pub fn new() -> Counts {
        let groups = GROUPS.iter().map(|(group, _)| vec![0; names(*group).len()]).collect();
        Counts { images: 0, accepted_mutants: 0, runs: 0, continuations: 0, steps: 0, groups }
    }

    pub fn add(&mut self, group: Group, number: usize) {
        self.groups[group as usize][number] += 1;
    }

    /// Those of a group that apply.
    pub fn add_each(&mut self, group: Group, is: &[bool]) {
        (0..is.len()).filter(|i| is[*i]).for_each(|i| self.add(group, i));
    }

    pub fn merge(&mut self, other: &Counts) {
        self.images += other.images;
        self.accepted_mutants += other.accepted_mutants;
        self.runs += other.runs;
        self.continuations += other.continuations;
        self.steps += other.steps;
        for (mine, others) in self.groups.iter_mut().flatten().zip(other.groups.iter().flatten()) {
            *mine += others;
        }
    }

    pub fn run(&mut self, numbers: &door::Numbers) {
        self.runs += 1;
        self.steps += u64::from(numbers.steps);
        self.add(Group::Refusal, numbers.refusal as usize);
        if numbers.refusal == 0 {
            self.add(Group::Outcome, numbers.outcome as usize);
            self.add(Group::Steps, numbers.steps.checked_ilog10().map_or(0, |digits| digits.min(3) as usize + 1));
        }
        if numbers.trap > 0 {
            self.add(Group::Trap, numbers.trap as usize);
        }
    }

    /// What trapped in a run of an accepted image.
    pub fn trapped(&mut self, program: &Program, after: &After) {
        let Some(Origin { node, before_in }) = traps::origin(program, after) else { return };
        let trapped = (program.nodes[node].kind, program.nodes[node].c, after.numbers.trap);
        let number = TRAPPING.iter().position(|(_, kind, c, trap)| (*kind, *c, *trap) == trapped);
        self.add(Group::Trapping, number.expect("a node of the list"));
        if before_in {
            self.add(Group::Trapping, TRAPPING.len());
        }
    }

    /// The statement that a machine comes to next, and the divisions in it.
    pub fn executed(&mut self, program: &Program, machine: &Machine) {
        self.add(Group::Executed, program.statements[machine.state.row].kind as usize);
        for division in divisions::next(program, machine) {
            let first = if division.operator == DIV { 0 } else { divisions::NAMES.len() };
            let is = division.is();
            (0..is.len()).filter(|i| is[*i]).for_each(|i| self.add(Group::Division, first + i));
        }
    }

    pub fn rule(&mut self, broken: &'static rules::Rule) {
        let number = rules::ALL.iter().position(|rule| *rule == broken);
        self.add(Group::Rule, number.expect("a rule of the list"));
    }

    /// A continuation of an accepted image, in its group.
    pub fn continued(
        &mut self,
        sight: &Sight,
        given: &Given,
        group: Group,
        numbers: &door::Numbers,
        fault: Option<&Fault>,
    ) {
        self.continued_image(numbers);
        let Some(fault) = fault else {
            self.add(group, numbers.outcome as usize);
            return self.survey_state(sight, given);
        };
        if group == Group::Damaged {
            self.add(group, 3);
        }
        if fault.refusal == 14 {
            let number = rules::STATE.iter().position(|rule| *rule == fault.rule);
            self.add(Group::State, number.expect("a rule of the list"));
        }
    }

    pub fn continued_image(&mut self, numbers: &door::Numbers) {
        self.continuations += 1;
        self.add(Group::ContinuedRefusal, numbers.refusal as usize);
    }

    /// What a state that question 14 passed has.
    fn survey_state(&mut self, sight: &Sight, given: &Given) {
        let (mark, top, cells) = (given.from.mark, given.from.top, given.lent.store.len());
        let full = mark as usize == cells;
        self.add_each(Group::EarlierMark, &[mark == top, mark != top, full, !full]);
        let frames = sight.frames(given);
        self.add(Group::Frames, frames.len().min(4) - 1);
        let globals = sight.program.globals();
        for parameter in sight.var_parameters(&frames) {
            let cell = |i: usize| given.lent.store[parameter.first + i] as usize;
            let (address, named) = (cell(0), cell(1));
            let empty = sight.program.size(named) == 0;
            let at_end = frames.iter().any(|frame| sight.end(frame) == address);
            let is = [
                address < globals || empty && address == globals,
                address > globals,
                named != parameter.t,
                empty,
                empty && at_end,
                empty && address == globals,
            ];
            self.add_each(Group::Names, &is);
        }
    }

    /// What an accepted image has.
    pub fn survey(&mut self, program: &Program) {
        for node in &program.nodes {
            self.add(Group::Node, node.kind as usize);
            match node.kind {
                5 => self.add(Group::Dyadic, 3 * (node.c() - 1) + program.type_of(node.a())),
                6 => self.add(Group::Monadic, 3 * (node.c() - 1) + program.type_of(node.a())),
                _ => {}
            }
        }
        for (at, statement) in program.statements.iter().enumerate() {
            self.add(Group::Statement, statement.kind as usize);
            if statement.kind == 0 && program.type_of(statement.a()) != program.type_of(statement.b()) {
                self.add(Group::Extension, 0);
            }
            if statement.kind == CALL {
                self.survey_call(program, at);
            }
        }
        for variable in program.variables.iter().filter(|variable| variable.kind >= 2) {
            let form = [program.is_scalar(variable.a()), program.is_array(variable.a()), true];
            let form = form.iter().position(|is| *is).expect("the last one is");
            self.add(Group::Parameter, 3 * (variable.kind as usize - 2) + form);
        }
    }

    fn survey_call(&mut self, program: &Program, call: usize) {
        let called = program.statements[call].a();
        for (argument, parameter) in program.named_by(call).zip(program.parameters(called)) {
            let parameter = program.variables[parameter];
            if program.type_of(argument) != parameter.a() {
                self.add(Group::Extension, parameter.kind as usize - 1);
            }
        }
    }

    /// What was never reached, in words.
    pub fn missing(&self) -> Vec<String> {
        let mut missing = vec![];
        for (group, title) in GROUPS {
            for (name, count) in self.group(group) {
                if count == 0 {
                    missing.push(format!("{title}: {name}"));
                }
            }
        }
        missing
    }

    fn group(&self, group: Group) -> Vec<(String, u64)> {
        let counts = self.groups[group as usize].iter();
        names(group).into_iter().zip(counts).filter_map(|(name, count)| Some((name?, *count))).collect()
    }

    /// All counts, in words.
    pub fn told(&self) -> String {
        let mut lines = vec![];
        for (group, title) in GROUPS {
            lines.push(format!("{title}:"));
            let counted = self.group(group);
            if group == Group::Rule || group == Group::State {
                lines.extend(counted.iter().map(|(name, count)| format!("  {count:>9}  {name}")));
            } else {
                let parts: Vec<String> = counted.iter().map(|(name, count)| format!("{name} {count}")).collect();
                lines.push(format!("  {}", parts.join(", ")));
            }
        }
        lines.push(format!("mutants that are accepted: {}", self.accepted_mutants));
        lines.join("\n")
    }

    /// The sum of a comparison that found no difference.
    pub fn sum(&self) -> String {
        let Counts { images, runs, continuations, steps, .. } = self;
        format!("{images} images, {runs} runs, {continuations} continuations, {steps} steps: 0 differences")
    }
}
