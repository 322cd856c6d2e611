//! The tables of an image in words. It asks nothing of their rows: a row that has no words stands with its numbers, as
//! in a listing.
use crate::line::{Line, Sign};
use crate::statement::{below, statement, statement_words, Named};
use crate::text::{leading, led, node_line, Text};
use listing::{
    children, fields_before, named, row_line, row_text, Names, Row, Tables, FIELDS, KINDS_OF_VARIABLES, NODES,
    PROCEDURES, ROWS, STATEMENTS, TYPES, VARIABLES,
};
use model::words::counted;
use model::Program;

/// How much of what names a node is shown.
const NAMES_SHOWN: usize = 8;

/// Where the cells of a type, variable or frame are noted.
const NOTE: usize = 48;

/// What a row of each table is called.
pub const NAMES: [&str; 6] = ["type", "field", "variable", "procedure", "node", "statement"];

/// The row that is marked.
#[derive(Clone, Copy, Debug, PartialEq, Eq, Hash)]
pub struct Mark {
    pub table: usize,
    pub row: usize,
}

impl Mark {
    /// In place of a row: all rows of the table that nothing claims.
    pub const UNCLAIMED: usize = usize::MAX;

    /// The row, where these tables have it.
    pub fn row_in(&self, tables: &Tables) -> Option<Row> {
        tables[self.table].get(self.row).copied()
    }
}

/// What is to be dumped, with sizes and places where there is a program.
pub struct Wanted<'a> {
    pub image: Named<'a>,
    pub program: Option<&'a Program>,
    pub mark: Option<Mark>,
    pub reported: Option<Mark>,
    pub good: Option<Named<'a>>,
}

/// Version, length and counts in a line.
pub fn head(image: &[u8], tables: &Tables) -> String {
    let counts: Vec<String> = tables.iter().zip(NAMES).map(|(table, name)| format!("{} {name}", table.len())).collect();
    format!("version {}, {} bytes; rows: {}", image[0], image.len(), counts.join(", "))
}

/// The tables.
pub fn of(wanted: &Wanted) -> Vec<Line> {
    let tables = wanted.image.tables;
    let names = leading(tables, wanted.image.names);
    let said = tables.each_ref().map(|table| vec![false; table.len()]);
    let listed = vec![false; tables[NODES].len()];
    let mut dump = Dump { wanted, tables, names, said, listed, lines: Vec::new() };
    dump.types();
    dump.globals();
    dump.procedures();
    dump.rest(VARIABLES, "variables of no procedure");
    dump.rest(NODES, "nodes that no statement above has in words");
    dump.missing();
    dump.lines
}

/// The nodes that are not named exactly once, each with what names it.
pub fn names(tables: &Tables) -> Vec<Line> {
    let mut names = vec![Vec::new(); tables[NODES].len()];
    let mut add = |node: usize, by: &str, row: usize| match names.get_mut(node) {
        Some(names) if names.len() <= NAMES_SHOWN => names.push(format!("{by} {row}")),
        _ => {}
    };
    for (at, row) in tables[NODES].iter().enumerate() {
        children(*row).into_iter().for_each(|node| add(node, "node", at));
    }
    for (at, row) in tables[STATEMENTS].iter().enumerate() {
        named(tables, *row).into_iter().flatten().for_each(|node| add(node, "statement", at));
    }
    let mut lines = vec![Line::new(""), Line::new("nodes that are not named exactly once")];
    for (node, names) in names.iter().enumerate().filter(|(_, names)| names.len() != 1) {
        lines.push(Line::new(&match names.len() {
            0 => format!("  node {node}: named by nothing"),
            1..=NAMES_SHOWN => format!("  node {node}: named by {}", names.join(", ")),
            _ => format!("  node {node}: named by {} and more", names[..NAMES_SHOWN].join(", ")),
        }));
    }
    lines
}

/// The rows of each table that are not the same in both, those included that one of them has not.
pub fn differing(tables: &Tables, others: &Tables) -> [usize; 6] {
    std::array::from_fn(|table| {
        let rows = tables[table].len().max(others[table].len());
        (0..rows).filter(|row| differs(tables, others, Mark { table, row: *row })).count()
    })
}

fn differs(tables: &Tables, others: &Tables, place: Mark) -> bool {
    place.row_in(tables) != place.row_in(others)
}

struct Dump<'a> {
    wanted: &'a Wanted<'a>,
    tables: &'a Tables,
    /// The names, which lead to their rows.
    names: Names,
    /// The rows of each table that are in the text.
    said: [Vec<bool>; 6],
    /// The nodes that have a line of their own.
    listed: Vec<bool>,
    lines: Vec<Line>,
}

impl Dump<'_> {
    fn heading(&mut self, text: &str) {
        self.lines.extend([Line::new(""), Line::new(text)]);
    }

    /// A line of a row, and below it how the good image differs.
    fn line(&mut self, table: usize, row: usize, text: Text) {
        let place = Mark { table, row };
        let differing = self.differing_at(place);
        let sign = match Some(place) {
            mark if mark == self.wanted.mark => Sign::Marked,
            mark if mark == self.wanted.reported => Sign::Reported,
            _ if !differing.is_empty() => Sign::Differs,
            _ => Sign::None,
        };
        let plain = text.plain();
        self.lines.push(Line { sign, place: Some(place), text });
        if let Some(said) = self.said[table].get_mut(row) {
            *said = true;
        }
        for place in differing {
            self.difference(place, &plain);
        }
    }

    /// The row and, of a record, its own fields, as far as they differ from the good image's.
    fn differing_at(&self, place: Mark) -> Vec<Mark> {
        let (Some(good), Some(row)) = (self.wanted.good, place.row_in(self.tables)) else { return Vec::new() };
        let mut places = vec![place];
        if (place.table, row.kind) == (TYPES, 4) {
            places.extend(self.own_fields(row).map(|row| Mark { table: FIELDS, row }));
        }
        places.retain(|place| differs(self.tables, good.tables, *place));
        places
    }

    /// A row here, where the line above does not say it, and in the good image.
    fn difference(&mut self, Mark { table, row }: Mark, above: &str) {
        let indent = " ".repeat(above.len() - above.trim_start().len() + 4);
        let here = row_line(table, row, self.tables[table][row]);
        if above.trim() != here {
            self.lines.push(Line::new(&format!("{indent}here: {here}")));
        }
        let there = self.wanted.good.map_or_else(String::new, |good| good_line(good, table, row));
        self.lines.push(Line::new(&format!("{indent}good: {there}")));
    }

    /// A line of a row, with a note in accepted images.
    fn noted(&mut self, table: usize, row: usize, words: &str, note: impl Fn(&Program) -> String) {
        let mut text = Text::of(words);
        if let Some(program) = self.wanted.program {
            let gap = NOTE.saturating_sub(text.plain().chars().count());
            text.push(&format!("{:gap$} -- {}", "", note(program)), None);
        }
        self.line(table, row, text);
    }

    fn types(&mut self) {
        let hidden =
            |at: usize, row: Row| at < 3 && is_scalar(at, row) && !self.is_wanted(Mark { table: TYPES, row: at });
        let rows = self.tables[TYPES].iter().copied().enumerate();
        let rows: Vec<(usize, Row)> = rows.filter(|(at, row)| !hidden(*at, *row)).collect();
        if !rows.is_empty() {
            self.heading("TYPE");
        }
        for (at, row) in rows {
            let text = self.type_text(at, row);
            self.noted(TYPES, at, &format!("  {text}"), |program| counted(program.size(at), "cell"));
        }
        self.rest(FIELDS, "fields of no record");
    }

    /// Whether a row has to be in the text: it is marked, reported, or not the good image's.
    fn is_wanted(&self, place: Mark) -> bool {
        let good = self.wanted.good;
        [self.wanted.mark, self.wanted.reported].contains(&Some(place))
            || good.is_some_and(|good| differs(self.tables, good.tables, place))
    }

    fn type_text(&mut self, at: usize, row: Row) -> String {
        match row.kind {
            3 if row_text(TYPES, at, row).is_some() => {
                format!("{} = ARRAY {} OF {}", self.names.declared_type(at), row.b, self.type_name(row.a as usize))
            }
            4 if row.zero == 0 => self.record_text(at, row),
            _ => row_line(TYPES, at, row),
        }
    }

    fn type_name(&self, row: usize) -> String {
        self.names.type_row(row)
    }

    /// The field rows that a record claims, as far as these are there.
    fn own_fields(&self, row: Row) -> std::ops::Range<usize> {
        let most = self.tables[FIELDS].len();
        (row.b as usize).min(most)..(row.b as usize + row.c as usize).min(most)
    }

    /// A record with its own fields, as far as these are there.
    fn record_text(&mut self, at: usize, row: Row) -> String {
        let base = if row.a == 0 { String::new() } else { format!(" ({})", self.type_name(row.a as usize - 1)) };
        let there = self.own_fields(row);
        let missing = row.c as usize - there.len();
        let before = fields_before(self.tables, at);
        let mut fields: Vec<String> = Vec::new();
        for (k, field) in there.enumerate() {
            let name = self.names.field(self.tables, Some(at), before + k);
            fields.push(format!(" {name}: {}", self.field_text(field)));
            self.said[FIELDS][field] = true;
        }
        if missing > 0 {
            fields.push(format!(" {missing} field rows that are not there"));
        }
        format!("{} = RECORD{base}{} END", self.names.declared_type(at), fields.join(";"))
    }

    fn field_text(&self, at: usize) -> String {
        let row = self.tables[FIELDS][at];
        match row_text(FIELDS, at, row) {
            Some(_) => self.type_name(row.a as usize),
            None => format!("({})", row_line(FIELDS, at, row)),
        }
    }

    fn globals(&mut self) {
        let globals = self.wanted.image.globals();
        if globals > 0 {
            self.heading("VAR");
        }
        for at in 0..globals {
            self.variable(at, |program| format!("from cell {}", program.place(at)));
        }
    }

    fn variable(&mut self, at: usize, note: impl Fn(&Program) -> String) {
        let row = self.tables[VARIABLES][at];
        let number = if self.wanted.image.is_shared(at) { format!(" (v{at})") } else { String::new() };
        let declared = format!("{}{number}: {}", self.names.variable(at), self.type_name(row.a as usize));
        let text = match (row_text(VARIABLES, at, row), row.kind) {
            (None, _) => row_line(VARIABLES, at, row),
            (Some(_), 0) => declared,
            (Some(_), kind) => format!("{} {declared}", KINDS_OF_VARIABLES[kind as usize]),
        };
        self.noted(VARIABLES, at, &format!("  {text}"), note);
    }

    /// Each procedure, with its variables, before the statement that it begins at, and all statements.
    fn procedures(&mut self) {
        let mut next = 0;
        let mut variable = self.said[VARIABLES].iter().take_while(|said| **said).count();
        for at in 0..=self.tables[STATEMENTS].len() {
            let is_end = at == self.tables[STATEMENTS].len();
            while let Some(row) = self.tables[PROCEDURES].get(next).filter(|row| is_end || row.a as usize <= at) {
                let end = variable + row.b as usize + row.c as usize;
                let end = end.min(self.tables[VARIABLES].len());
                self.procedure(next, at, variable..end);
                (next, variable) = (next + 1, end);
            }
            if at == 0 && next == 0 {
                self.heading("statements of no procedure");
            }
            if !is_end {
                self.statement(at);
            }
        }
    }

    /// A procedure and its variables. Where its body is not what follows, it is said where it begins.
    fn procedure(&mut self, at: usize, next_statement: usize, variables: std::ops::Range<usize>) {
        let row = self.tables[PROCEDURES][at];
        let start = row.a as usize;
        let end = self.tables[PROCEDURES].get(at + 1).map_or(self.tables[STATEMENTS].len(), |next| next.a as usize);
        let module = if at == 0 { ", the module body" } else { "" };
        let from =
            if start == next_statement && start < end { String::new() } else { format!(", from statement {start}") };
        let text = match row_text(PROCEDURES, at, row) {
            None => row_line(PROCEDURES, at, row),
            Some(_) => format!("PROCEDURE {}{module}{from}", self.names.procedure(at)),
        };
        self.lines.push(Line::new(""));
        self.noted(PROCEDURES, at, &text, |program| format!("a frame of {}", counted(program.frame(at), "cell")));
        for variable in variables {
            self.variable(variable, |program| format!("from cell {} of the frame", program.place(variable)));
        }
    }

    fn statement(&mut self, at: usize) {
        let number = |row: usize| led(Mark { table: VARIABLES, row }, &format!("v{row}"));
        let (text, nodes) = statement_words(self.wanted.image, &self.names, &number, at);
        for node in nodes {
            self.said[NODES][node] = true;
        }
        if let Some(label) = self.names.of(STATEMENTS, at) {
            self.lines.push(Line::new(&format!("  {label}:")));
        }
        self.line(STATEMENTS, at, Text::of(&format!("{at:>4}: ")).then(self.jump_text(at, &text)));
        self.nodes_below(at);
    }

    /// A statement's words; the target of a jump leads to its row.
    fn jump_text(&self, at: usize, words: &str) -> Text {
        let row = self.tables[STATEMENTS][at];
        match words.rsplit_once("GOTO ") {
            Some((before, target)) if matches!(row.kind, 2 | 3) => {
                let mut text = Text::of(before);
                text.push("GOTO ", None);
                text.push(target, Some(Mark { table: STATEMENTS, row: row.b as usize }));
                text
            }
            _ => Text::of(words),
        }
    }

    /// The node rows below a statement, where it has to be looked into or one of them is new and has to be in the text.
    /// Where more statements have the marked node, the later ones show it alone.
    fn nodes_below(&mut self, statement: usize) {
        let below = below(self.tables, statement);
        let is_wanted = |node: &usize| self.is_wanted(Mark { table: NODES, row: *node });
        let whole = self.is_wanted(Mark { table: STATEMENTS, row: statement })
            || below.iter().any(|node| !self.listed[*node] && is_wanted(node));
        let again = |node: &usize| {
            let place = Some(Mark { table: NODES, row: *node });
            place == self.wanted.mark || place == self.wanted.reported
        };
        let shown = |node: &usize| again(node) || whole && !self.listed[*node];
        for node in below.into_iter().filter(shown).collect::<Vec<usize>>() {
            self.node(node, "          ");
        }
    }

    /// The line of a node, with its name where it has one.
    fn node(&mut self, at: usize, indent: &str) {
        let mut text = Text::of(indent).then(node_line(at, self.tables[NODES][at]));
        if let Some(name) = self.names.of(NODES, at) {
            text.push(&format!("  -- {name}"), None);
        }
        self.listed[at] = true;
        self.line(NODES, at, text);
    }

    /// The rows of a table that are not in the text yet.
    fn rest(&mut self, table: usize, heading: &str) {
        let rest: Vec<usize> = (0..self.tables[table].len()).filter(|at| !self.said[table][*at]).collect();
        if rest.is_empty() {
            return;
        }
        self.lines.push(Line::new(""));
        self.line(table, Mark::UNCLAIMED, Text::of(heading));
        for at in rest {
            match table {
                NODES => self.node(at, "  "),
                _ => self.line(table, at, Text::of(&format!("  {}", row_line(table, at, self.tables[table][at])))),
            }
        }
    }

    /// The rows that the good image has and this one has not.
    fn missing(&mut self) {
        let Some(good) = self.wanted.good else { return };
        let mut lines = Vec::new();
        for table in 0..ROWS.len() {
            for row in self.tables[table].len()..good.tables[table].len() {
                let line = Line::new(&format!("  {}", good_line(good, table, row)));
                lines.push(Line { sign: Sign::Differs, ..line });
            }
        }
        if !lines.is_empty() {
            self.heading("rows that the good image has and this one has not");
            self.lines.extend(lines);
        }
    }
}

/// A row of the good image as a line of a listing; a statement also in words, where these say more.
fn good_line(good: Named, table: usize, row: usize) -> String {
    let Some(there) = good.tables[table].get(row) else { return format!("has no {} row {row}", NAMES[table]) };
    let line = row_line(table, row, *there);
    let words = (table == STATEMENTS).then(|| statement(good.tables, good.names, row));
    match words.filter(|words| !line.ends_with(words)) {
        Some(words) => format!("{line}  -- {words}"),
        None => line,
    }
}

/// Whether a type row is what rows 0 to 2 are to be.
fn is_scalar(at: usize, row: Row) -> bool {
    row == Row { kind: at as u8, zero: 0, a: 0, b: 0, c: 0 }
}

#[cfg(test)]
mod tests {
    use super::*;

    const LISTING: &str = "type 0 = BOOLEAN\ntype 1 = INTEGER\ntype 2 = SET\nprocedure 0 at 0 parameters 0 locals 0\n\
                           node 0 = BOOLEAN TRUE\nnode 1 = ~ 0\nstatement 0: IF NOT 1 GOTO 2\nstatement 1: GOTO 0\n\
                           statement 2: RETURN\n";

    #[test]
    fn statements_and_nodes_have_their_names() {
        let tables = listing::read_listing(LISTING.as_bytes()).unwrap().tables;
        let mut names = Names::default();
        names.give(STATEMENTS, 2, "done");
        names.give(NODES, 1, "never");
        let image = Named { tables: &tables, names: &names };
        let mark = Some(Mark { table: NODES, row: 1 });
        let lines = of(&Wanted { image, program: None, mark, reported: None, good: None });
        let text: Vec<String> = lines.iter().map(Line::plain).collect();
        let expected = [
            "",
            "   PROCEDURE p0, the module body",
            "      0: IF NOT (~TRUE) GOTO done",
            "             node 0 = BOOLEAN TRUE",
            ">>           node 1 = ~ 0  -- never",
            "      1: GOTO 0",
            "     done:",
            "      2: RETURN",
        ];
        assert_eq!(text, expected);
        assert_eq!(lines[2].text.pieces.last().unwrap().to, Some(Mark { table: STATEMENTS, row: 2 }));
        assert_eq!(lines[4].text.pieces.iter().find_map(|piece| piece.to), Some(Mark { table: NODES, row: 0 }));
    }

    #[test]
    fn a_name_is_shown_where_it_is_known() {
        let tables = listing::read_listing(
            b"type 0 = BOOLEAN\ntype 1 = INTEGER\ntype 2 = SET\nvar 0 = global x: 1\nvar 1 = global y: 1\n\
              var 2 = local x: 1\nprocedure 0 at 0 parameters 0 locals 0\nprocedure 1 at 3 parameters 0 locals 1\n\
              node 0 = variable 0\nnode 1 = variable 2\nnode 2 = variable 0\nnode 3 = variable 2\n\
              node 4 = variable 1\nnode 5 = variable 1\n\
              statement 0: 0 := 1\nstatement 1: READ 4\nstatement 2: GOTO 4\nstatement 3: 2 := 3\n\
              statement 4: READ 5\nstatement 5: GOTO 4\n",
        );
        let listing::Listing { tables, mut names } = tables.unwrap();
        names.give(STATEMENTS, 4, "loop");
        let words = |at: usize| statement(&tables, &names, at);
        // Procedure 0 knows the global x alone, procedure 1 its own x, and both the global y.
        assert_eq!([words(0), words(1), words(2)], ["x := v2", "READ y", "GOTO 4"]);
        assert_eq!([words(3), words(4), words(5)], ["v0 := x", "READ y", "GOTO loop"]);
        let image = Named { tables: &tables, names: &names };
        let lines = of(&Wanted { image, program: None, mark: None, reported: None, good: None });
        let text: Vec<String> = lines.iter().map(Line::plain).collect();
        for line in ["     x (v0): INTEGER", "     y: INTEGER", "     local x (v2): INTEGER", "      3: v0 := x"] {
            assert!(text.contains(&line.to_string()), "{text:?}");
        }
    }
}
