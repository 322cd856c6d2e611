//! Statements and expressions in words, with the names that their procedures know.
use listing::{children, named, row_text, Names, Row, Tables, Words, NODES, PROCEDURES, STATEMENTS, VARIABLES};

/// How many nodes a statement has in words; those after them are listed by themselves.
const NODES_IN_WORDS: usize = 200;

/// The tables of an image with the names of their rows.
#[derive(Clone, Copy)]
pub struct Named<'a> {
    pub tables: &'a Tables,
    pub names: &'a Names,
}

impl Named<'_> {
    /// The procedure whose body has a statement, as far as the rows say.
    fn procedure_of(&self, statement: usize) -> Option<usize> {
        self.tables[PROCEDURES].iter().rposition(|procedure| procedure.a as usize <= statement)
    }

    fn is_same_body(&self, statement: usize, other: usize) -> bool {
        self.procedure_of(statement) == self.procedure_of(other)
    }

    /// The parameters and locals of the procedure whose body has a statement.
    fn own_variables(&self, statement: usize) -> std::ops::Range<usize> {
        let count = |row: &Row| row.b as usize + row.c as usize;
        let Some(procedure) = self.procedure_of(statement) else { return 0..0 };
        let before: usize = self.tables[PROCEDURES][..procedure].iter().map(count).sum();
        let first = self.globals() + before;
        first..first + count(&self.tables[PROCEDURES][procedure])
    }

    pub fn globals(&self) -> usize {
        self.tables[VARIABLES].iter().take_while(|row| row.kind == 0).count()
    }

    /// The variable that a statement knows by the name of this one: its procedure's own, else a global; none where
    /// several have the name.
    fn known_as(&self, statement: usize, variable: usize) -> Option<usize> {
        let name = self.names.of(VARIABLES, variable)?;
        let called = |rows: std::ops::Range<usize>| -> Vec<usize> {
            rows.filter(|row| self.names.of(VARIABLES, *row) == Some(name)).collect()
        };
        match called(self.own_variables(statement))[..] {
            [own] => Some(own),
            [] => Some(called(0..self.globals())).filter(|globals| globals.len() == 1).map(|globals| globals[0]),
            _ => None,
        }
    }

    /// Whether another variable has the name of this one.
    pub fn is_shared(&self, variable: usize) -> bool {
        let name = self.names.of(VARIABLES, variable);
        let others = (0..self.tables[VARIABLES].len()).filter(|other| *other != variable);
        name.is_some() && others.into_iter().any(|other| self.names.of(VARIABLES, other) == name)
    }
}

/// A statement in words.
pub fn statement(tables: &Tables, names: &Names, at: usize) -> String {
    let number = |row: usize| format!("v{row}");
    statement_words(Named { tables, names }, names, &number, at).0
}

/// A node below a statement in words, with the names that the statement has.
pub fn expression(tables: &Tables, names: &Names, statement: usize, node: usize) -> String {
    let unknown = unknown_variables(Named { tables, names }, statement, &below(tables, statement));
    let known = numbered(names, unknown, &|row| format!("v{row}"));
    Words::new(tables, &known, NODES_IN_WORDS).node(node as u16)
}

/// The names, but for some variables that have their number.
fn numbered(names: &Names, variables: Vec<usize>, number: &dyn Fn(usize) -> String) -> Names {
    let mut names = names.clone();
    variables.into_iter().for_each(|variable| names.give(VARIABLES, variable, &number(variable)));
    names
}

/// A statement in words, and the nodes that are in these words. It has the names as they are `shown`, but for variables
/// that its procedure does not know by their names: these have their `number`.
pub fn statement_words(
    image: Named,
    shown: &Names,
    number: &dyn Fn(usize) -> String,
    at: usize,
) -> (String, Vec<usize>) {
    let (tables, row) = (image.tables, image.tables[STATEMENTS][at]);
    let Some(form) = row_text(STATEMENTS, at, row) else {
        return (format!("row {} {} {} {} {}", row.kind, row.zero, row.a, row.b, row.c), Vec::new());
    };
    let in_words = |names: &Names| {
        let mut words = Words::new(tables, names, NODES_IN_WORDS);
        let text = words.statement(row).unwrap_or_else(|| form.clone());
        (with_label(text, image, at), words.nodes)
    };
    let (text, nodes) = in_words(shown);
    let unknown = unknown_variables(image, at, &nodes);
    if unknown.is_empty() {
        return (text, nodes);
    }
    in_words(&numbered(shown, unknown, number))
}

/// A jump to a row of its own body that has a name, with this name.
fn with_label(text: String, image: Named, at: usize) -> String {
    let row = image.tables[STATEMENTS][at];
    let target = Some(row.b as usize).filter(|target| matches!(row.kind, 2 | 3) && image.is_same_body(at, *target));
    let label = target.and_then(|target| image.names.of(STATEMENTS, target));
    match (label, text.strip_suffix(&format!("GOTO {}", row.b))) {
        (Some(label), Some(before)) => format!("{before}GOTO {label}"),
        _ => text,
    }
}

/// The variables in some nodes of a statement whose names mean others there, or several.
fn unknown_variables(image: Named, at: usize, nodes: &[usize]) -> Vec<usize> {
    let rows = nodes.iter().map(|node| image.tables[NODES][*node]);
    let variables = rows.filter(|row| matches!(row.kind, 1 | 4 | 7)).map(|row| row.a as usize);
    variables
        .filter(|variable| image.names.of(VARIABLES, *variable).is_some())
        .filter(|variable| image.known_as(at, *variable) != Some(*variable))
        .collect()
}

/// The nodes below a statement, each once, from the lowest up.
pub fn below(tables: &Tables, statement: usize) -> Vec<usize> {
    let mut found = vec![false; tables[NODES].len()];
    let mut next: Vec<usize> = named(tables, tables[STATEMENTS][statement]).into_iter().flatten().collect();
    while let Some(node) = next.pop() {
        if found.get(node) == Some(&false) {
            found[node] = true;
            next.extend(children(tables[NODES][node]));
        }
    }
    (0..found.len()).filter(|node| found[*node]).collect()
}
