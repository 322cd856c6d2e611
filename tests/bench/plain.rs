//! Document 01's questions 1 to 11 in plain Rust, with no proof. It is written from the paper alone and shares nothing
//! with the crates: the benchmark holds the proved check to its speed, and to its answers.

const BOOLEAN: u8 = 0;
const INTEGER: u8 = 1;
const SET: u8 = 2;
const ARRAY: u8 = 3;
pub const RECORD: u8 = 4;

/// The fewest and the most rows of the six tables.
const COUNTS: [(usize, usize); 6] = [(3, 64), (0, 256), (0, 256), (1, 64), (0, 2048), (1, 1024)];

/// The first "no": the question and the row.
pub type No = (u32, usize);

/// Refusal * 65,536 + row; 0 is acceptance.
#[allow(dead_code)] // the run takes more from the questions
pub fn check(image: &[u8]) -> u32 {
    match accept(image) {
        Ok(_) => 0,
        Err((question, row)) => question * 65536 + row as u32,
    }
}

#[derive(Clone, Copy)]
pub struct Row {
    pub kind: u8,
    zero: u8,
    pub a: usize,
    pub b: usize,
    pub c: usize,
}

#[derive(Clone, Copy)]
pub struct Table<'a>(pub &'a [[u8; 8]]);

impl<'a> Table<'a> {
    pub fn len(self) -> usize {
        self.0.len()
    }

    pub fn row(self, i: usize) -> Row {
        let r = &self.0[i];
        let number = |at: usize| u16::from_be_bytes([r[at], r[at + 1]]) as usize;
        Row { kind: r[0], zero: r[1], a: number(2), b: number(4), c: number(6) }
    }

    pub fn kind(self, i: usize) -> u8 {
        self.0[i][0]
    }

    pub fn rows(self) -> impl Iterator<Item = (usize, Row)> + 'a {
        (0..self.len()).map(move |i| (i, self.row(i)))
    }
}

pub struct Image<'a> {
    pub types: Table<'a>,
    pub fields: Table<'a>,
    pub variables: Table<'a>,
    pub procedures: Table<'a>,
    pub nodes: Table<'a>,
    pub statements: Table<'a>,
}

/// An accepted image, and what the questions found that a run needs too.
#[allow(dead_code)] // the check alone reads none of it
pub struct Accepted<'a> {
    pub image: Image<'a>,
    pub types: Types,
    pub globals: usize,
    pub frames: Frames,
}

/// Questions 1 to 11.
#[inline]
pub fn accept(image: &[u8]) -> Result<Accepted<'_>, No> {
    let image = header(image)?;
    let types = question4(&image)?;
    let globals = question5(&image)?;
    let frames = question6(&image, globals)?;
    question7(&image)?;
    question8(&image)?;
    question9(&image)?;
    let nodes = question10(&image, &types, globals)?;
    question11(&image, &types, &frames, &nodes)?;
    Ok(Accepted { image, types, globals, frames })
}

/// Questions 1 to 3.
fn header(image: &[u8]) -> Result<Image<'_>, No> {
    if image.first() != Some(&1) {
        return Err((1, 0));
    }
    match image.get(1..5) {
        Some(n) if u32::from_be_bytes([n[0], n[1], n[2], n[3]]) as usize == image.len() => {}
        _ => return Err((2, 0)),
    }
    let mut rest = &image[5..];
    let mut tables = [Table(&[]); 6];
    for (table, (least, most)) in tables.iter_mut().zip(COUNTS) {
        let [high, low, after @ ..] = rest else { return Err((3, 0)) };
        let count = u16::from_be_bytes([*high, *low]) as usize;
        if count < least || count > most || after.len() < 8 * count {
            return Err((3, 0));
        }
        *table = Table(after[..8 * count].as_chunks().0);
        rest = &after[8 * count..];
    }
    if !rest.is_empty() {
        return Err((3, 0));
    }
    let [types, fields, variables, procedures, nodes, statements] = tables;
    Ok(Image { types, fields, variables, procedures, nodes, statements })
}

/// What later questions ask of types.
pub struct Types {
    pub size: [usize; 64],
    /// Bit u of row t: t extends u. Of a type that is no record, only its own bit.
    pub above: [u64; 64],
    /// Fields of the bases.
    pub inherited: [usize; 64],
}

impl Types {
    fn extends(&self, t: u8, u: u8) -> bool {
        self.above[t as usize] >> u & 1 == 1
    }
}

fn question4(image: &Image) -> Result<Types, No> {
    let mut types = Types { size: [0; 64], above: [0; 64], inherited: [0; 64] };
    let mut unused = 0;
    for (i, row) in image.types.rows() {
        if !type_row(image, &mut types, &mut unused, i, row) {
            return Err((4, i));
        }
    }
    if unused != image.fields.len() {
        return Err((4, image.types.len()));
    }
    Ok(types)
}

fn type_row(image: &Image, types: &mut Types, unused: &mut usize, i: usize, row: Row) -> bool {
    if row.zero != 0 {
        return false;
    }
    types.above[i] = 1 << i;
    let size = match row.kind {
        _ if i < 3 => {
            if row.kind as usize != i || row.a != 0 || row.b != 0 || row.c != 0 {
                return false;
            }
            1
        }
        ARRAY => {
            if row.a >= i || row.b < 1 || row.b > 4096 || row.c != 0 {
                return false;
            }
            row.b * types.size[row.a]
        }
        RECORD => {
            let mut size = 0;
            if row.a != 0 {
                let base = row.a - 1;
                if base >= i || image.types.kind(base) != RECORD {
                    return false;
                }
                size = types.size[base];
                types.above[i] |= types.above[base];
                types.inherited[i] = types.inherited[base] + image.types.row(base).c;
            }
            if row.b != *unused || row.c > image.fields.len() - *unused {
                return false;
            }
            for f in row.b..row.b + row.c {
                let field = image.fields.row(f);
                if field.kind != 0 || field.zero != 0 || field.a >= i || field.b != 0 || field.c != 0 {
                    return false;
                }
                size += types.size[field.a];
            }
            *unused += row.c;
            size
        }
        _ => return false,
    };
    types.size[i] = size;
    size <= 4096
}

/// Answers how many globals there are.
fn question5(image: &Image) -> Result<usize, No> {
    let mut globals = 0;
    for (i, row) in image.variables.rows() {
        let late = row.kind == 0 && globals != i;
        if row.kind > 3 || row.zero != 0 || row.a >= image.types.len() || row.b != 0 || row.c != 0 || late {
            return Err((5, i));
        }
        if row.kind == 0 {
            globals += 1;
        }
    }
    Ok(globals)
}

/// The first own variable of each procedure.
pub type Frames = [usize; 64];

fn question6(image: &Image, globals: usize) -> Result<Frames, No> {
    let mut first = [0; 64];
    let mut unused = globals;
    for (p, row) in image.procedures.rows() {
        let end = body_end(image, p);
        let no = Err((6, p));
        if row.kind != 0 || row.zero != 0 || p == 0 && (row.a != 0 || row.b != 0) {
            return no;
        }
        if row.a >= image.statements.len() || end <= row.a || row.b + row.c > image.variables.len() - unused {
            return no;
        }
        let kind = |v| image.variables.kind(v);
        let locals = unused + row.b;
        if (unused..locals).any(|v| kind(v) < 2) || (locals..locals + row.c).any(|v| kind(v) != 1) {
            return no;
        }
        first[p] = unused;
        unused = locals + row.c;
    }
    if unused != image.variables.len() {
        return Err((6, image.procedures.len()));
    }
    Ok(first)
}

/// A body ends where the next begins, the last with the table.
pub fn body_end(image: &Image, p: usize) -> usize {
    if p + 1 < image.procedures.len() { image.procedures.row(p + 1).a } else { image.statements.len() }
}

fn designator(kind: u8) -> bool {
    (1..=4).contains(&kind)
}

fn question7(image: &Image) -> Result<(), No> {
    let child = |i: usize, row: usize| row < i && image.nodes.kind(row) != 8;
    let object = |i: usize, row: usize| row < i && designator(image.nodes.kind(row));
    let typed = |r: Row| r.a < image.variables.len() && r.b < image.types.len() && r.c == 0;
    for (i, r) in image.nodes.rows() {
        let good = r.zero == 0
            && match r.kind {
                0 => r.a <= 2 && (r.a != 0 || r.b == 0 && r.c <= 1),
                1 => r.a < image.variables.len() && r.b == 0 && r.c == 0,
                2 => object(i, r.a) && r.c == 0,
                3 => object(i, r.a) && child(i, r.b) && r.c == 0,
                4 | 7 => typed(r),
                5 => child(i, r.a) && child(i, r.b) && (1..=16).contains(&r.c),
                6 => child(i, r.a) && r.b == 0 && (1..=2).contains(&r.c),
                8 => child(i, r.a) && r.b == 0 && r.c == 0,
                _ => false,
            };
        if !good {
            return Err((7, i));
        }
    }
    Ok(())
}

fn question8(image: &Image) -> Result<(), No> {
    // from each node row on, how many rows of kind 8 follow one another
    let mut arguments = [0u16; 2049];
    for i in (0..image.nodes.len()).rev() {
        arguments[i] = if image.nodes.kind(i) == 8 { arguments[i + 1] + 1 } else { 0 };
    }
    let node = |row: usize| row < image.nodes.len() && image.nodes.kind(row) != 8;
    let object = |row: usize| row < image.nodes.len() && designator(image.nodes.kind(row));
    for (p, procedure) in image.procedures.rows() {
        let body = procedure.a..body_end(image, p);
        for i in body.clone() {
            let r = image.statements.row(i);
            let good = r.zero == 0
                && match r.kind {
                    0 => object(r.a) && node(r.b) && r.c == 0,
                    1 => r.a != 0 && r.a < image.procedures.len() && r.c == 0 && {
                        let count = image.procedures.row(r.a).b;
                        if count == 0 { r.b == 0 } else { r.b < 2048 && arguments[r.b] as usize >= count }
                    },
                    2 => node(r.a) && body.contains(&r.b) && r.c == 0,
                    3 => r.a == 0 && body.contains(&r.b) && r.c == 0,
                    4 => r.a == 0 && r.b == 0 && r.c == 0,
                    5 => object(r.a) && r.b == 0 && r.c == 0,
                    6 | 7 => node(r.a) && r.b == 0 && r.c == 0,
                    _ => false,
                };
            if !good || i + 1 == body.end && !matches!(r.kind, 3 | 4 | 7) {
                return Err((8, i));
            }
        }
    }
    Ok(())
}

fn question9(image: &Image) -> Result<(), No> {
    // 6,144 names at most, and 1,024 calls
    let mut named = [0i16; 2048];
    // how many calls begin to name at a row, less those that have ended
    let mut begins = [0i16; 2049];
    for (_, r) in image.nodes.rows() {
        match r.kind {
            2 | 6 | 8 => named[r.a] += 1,
            3 | 5 => {
                named[r.a] += 1;
                named[r.b] += 1;
            }
            _ => {}
        }
    }
    for (_, r) in image.statements.rows() {
        match r.kind {
            0 => {
                named[r.a] += 1;
                named[r.b] += 1;
            }
            1 => {
                begins[r.b] += 1;
                begins[r.b + image.procedures.row(r.a).b] -= 1;
            }
            2 | 5 | 6 | 7 => named[r.a] += 1,
            _ => {}
        }
    }
    let mut by_calls = 0;
    for i in 0..image.nodes.len() {
        by_calls += begins[i];
        if named[i] + by_calls != 1 {
            return Err((9, i));
        }
    }
    Ok(())
}

/// The type of each node, and the lowest and the highest variable that is no global and is named in it or below it.
struct Nodes {
    types: [u8; 2048],
    low: [u16; 2048],
    high: [u16; 2048],
}

fn question10(image: &Image, types: &Types, globals: usize) -> Result<Nodes, No> {
    let mut nodes = Nodes { types: [0; 2048], low: [u16::MAX; 2048], high: [0; 2048] };
    for (i, row) in image.nodes.rows() {
        let Some(t) = node_type(image, types, &nodes.types, row) else { return Err((10, i)) };
        nodes.types[i] = t;
        match row.kind {
            1 | 4 | 7 if row.a >= globals => {
                nodes.low[i] = row.a as u16;
                nodes.high[i] = row.a as u16;
            }
            2 | 6 | 8 => {
                nodes.low[i] = nodes.low[row.a];
                nodes.high[i] = nodes.high[row.a];
            }
            3 | 5 => {
                nodes.low[i] = nodes.low[row.a].min(nodes.low[row.b]);
                nodes.high[i] = nodes.high[row.a].max(nodes.high[row.b]);
            }
            _ => {}
        }
    }
    Ok(nodes)
}

fn node_type(image: &Image, types: &Types, known: &[u8; 2048], row: Row) -> Option<u8> {
    match row.kind {
        0 => Some(row.a as u8),
        1 => Some(image.variables.row(row.a).a as u8),
        2 => field_type(image, types, known[row.a] as usize, row.b),
        3 => {
            let array = image.types.row(known[row.a] as usize);
            (array.kind == ARRAY && known[row.b] == INTEGER).then_some(array.a as u8)
        }
        4 | 7 => {
            let variable = image.variables.row(row.a);
            let good = variable.kind == 3
                && image.types.kind(variable.a) == RECORD
                && types.extends(row.b as u8, variable.a as u8);
            good.then_some(if row.kind == 4 { row.b as u8 } else { BOOLEAN })
        }
        5 => dyadic(row.c, known[row.a], known[row.b]),
        6 => match (row.c, known[row.a]) {
            (1, t @ (INTEGER | SET)) => Some(t),
            (2, BOOLEAN) => Some(BOOLEAN),
            _ => None,
        },
        _ => Some(known[row.a]),
    }
}

fn field_type(image: &Image, types: &Types, mut record: usize, field: usize) -> Option<u8> {
    if image.types.kind(record) != RECORD {
        return None;
    }
    while field < types.inherited[record] {
        record = image.types.row(record).a - 1;
    }
    let own = field - types.inherited[record];
    let row = image.types.row(record);
    (own < row.c).then(|| image.fields.row(row.b + own).a as u8)
}

fn dyadic(operator: usize, left: u8, right: u8) -> Option<u8> {
    match (operator, left, right) {
        (1..=5, INTEGER, INTEGER) => Some(INTEGER),
        (1..=3 | 6, SET, SET) => Some(SET),
        (7 | 8, BOOLEAN | INTEGER | SET, _) if left == right => Some(BOOLEAN),
        (9..=12, INTEGER, INTEGER) => Some(BOOLEAN),
        (13 | 14, BOOLEAN, BOOLEAN) => Some(BOOLEAN),
        (15, INTEGER, SET) => Some(BOOLEAN),
        (16, INTEGER, INTEGER) => Some(SET),
        _ => None,
    }
}

fn question11(image: &Image, types: &Types, frames: &Frames, nodes: &Nodes) -> Result<(), No> {
    let t = |node: usize| nodes.types[node];
    for (p, procedure) in image.procedures.rows() {
        let own = frames[p]..frames[p] + procedure.b + procedure.c;
        let visible = |node: usize| {
            let (low, high) = (nodes.low[node], nodes.high[node]);
            low == u16::MAX || own.start <= low as usize && (high as usize) < own.end
        };
        for i in procedure.a..body_end(image, p) {
            let r = image.statements.row(i);
            let good = match r.kind {
                0 => types.extends(t(r.b), t(r.a)) && visible(r.a) && visible(r.b),
                1 => {
                    let first = frames[r.a];
                    (0..image.procedures.row(r.a).b).all(|k| {
                        let parameter = image.variables.row(first + k);
                        let argument = r.b + k;
                        types.extends(t(argument), parameter.a as u8)
                            && (parameter.kind != 3 || designator(image.nodes.kind(image.nodes.row(argument).a)))
                            && visible(argument)
                    })
                }
                2 => t(r.a) == BOOLEAN && visible(r.a),
                5 | 6 => t(r.a) == INTEGER && visible(r.a),
                7 => t(r.a) == INTEGER && image.nodes.kind(r.a) == 0,
                _ => true,
            };
            if !good {
                return Err((11, i));
            }
        }
    }
    Ok(())
}
