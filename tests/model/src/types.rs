//! Types: sizes, layouts, fields, extension. Question 4.

use crate::image::Row;
use crate::program::Program;
use crate::words::{counted, type_row};
use crate::{ask, rules, Fault};

/// The scalar types' rows, and their kinds.
pub const BOOLEAN: usize = 0;
pub const INTEGER: usize = 1;
pub const SET: usize = 2;

/// Kinds of later type rows.
pub const ARRAY: u8 = 3;
pub const RECORD: u8 = 4;

/// "A cell is a kind (BOOLEAN, INTEGER, SET, link, address, type) and a number".
#[derive(Clone, Copy, Debug, PartialEq, Eq)]
pub enum Kind {
    Boolean,
    Integer,
    Set,
    Link,
    Address,
    Type,
}

/// A field of a record, the base's counted first: its declared type, and how many of the record's cells lie before it.
#[derive(Clone, Copy, Debug, PartialEq, Eq)]
pub struct Field {
    pub t: usize,
    pub offset: usize,
}

/// What a type row means.
#[derive(Clone, Debug, Default)]
pub(crate) struct Shape {
    size: usize,
    layout: Vec<Kind>,
    fields: Vec<Field>,
}

/// "Size: scalar 1; array length times element; record base plus own fields, base first. .. A type's layout is its list
/// of scalar kinds in that order." "T extends U if T is U or T's base extends U."
impl Program {
    pub fn size(&self, t: usize) -> usize {
        self.shapes[t].size
    }

    pub fn layout(&self, t: usize) -> &[Kind] {
        &self.shapes[t].layout
    }

    /// A record's fields, the base's first; none of another type.
    pub fn fields_of(&self, t: usize) -> &[Field] {
        &self.shapes[t].fields
    }

    pub fn is_scalar(&self, t: usize) -> bool {
        t <= SET
    }

    pub fn is_array(&self, t: usize) -> bool {
        self.types[t].kind == ARRAY
    }

    pub fn is_record(&self, t: usize) -> bool {
        self.types[t].kind == RECORD
    }

    /// "a is 0 or base row plus 1"
    pub fn base_of(&self, t: usize) -> Option<usize> {
        if self.is_record(t) {
            self.types[t].a().checked_sub(1)
        } else {
            None
        }
    }

    pub fn extends(&self, t: usize, u: usize) -> bool {
        t == u || self.base_of(t).is_some_and(|base| self.extends(base, u))
    }
}

/// "Does each type row, with its own fields, keep its rule? (Unclaimed field: row = type count.)"
pub(crate) fn question_4(program: &mut Program) -> Result<(), Fault> {
    let mut unused_field = 0;
    for t in 0..program.types.len() {
        let row = program.types[t];
        ask(row.zero == 0, &rules::TYPE_ZERO_BYTE, t, || format!("type {t} has the second byte {}", row.zero))?;
        let shape = match (t, row.kind) {
            (BOOLEAN..=SET, _) => scalar(t, &row)?,
            (_, ARRAY) => array(program, t, &row)?,
            (_, RECORD) => record(program, t, &row, &mut unused_field)?,
            _ => return ask(false, &rules::LATER_TYPE, t, || format!("type {t} is of kind {}", row.kind)),
        };
        program.shapes.push(shape);
    }
    let (claimed, all) = (unused_field, program.fields.len());
    ask(claimed == all, &rules::FIELD_CLAIMED, program.types.len(), || {
        format!("records claim {claimed} of {}", counted(all, "field row"))
    })
}

/// "Rows 0, 1, 2 are kinds 0 BOOLEAN, 1 INTEGER, 2 SET."
fn scalar(t: usize, row: &Row) -> Result<Shape, Fault> {
    ask(usize::from(row.kind) == t, &rules::SCALAR_ROW, t, || format!("type {t} is of kind {}", row.kind))?;
    ask((row.a, row.b, row.c) == (0, 0, 0), &rules::SCALAR_UNUSED, t, || {
        format!("type {t} has a {}, b {}, c {}", row.a, row.b, row.c)
    })?;
    let kind = match t {
        BOOLEAN => Kind::Boolean,
        INTEGER => Kind::Integer,
        _ => Kind::Set,
    };
    Ok(Shape { size: 1, layout: vec![kind], fields: Vec::new() })
}

/// "kind 3, array (a element type, b length 1 to 4,096)"; "element and field types stand in lower rows".
fn array(program: &Program, t: usize, row: &Row) -> Result<Shape, Fault> {
    ask(row.c == 0, &rules::ARRAY_UNUSED, t, || format!("type {t} has c {}", row.c))?;
    let (element, length) = (row.a(), row.b());
    ask(element < t, &rules::ELEMENT_TYPE, t, || format!("type {t} has elements of type {element}"))?;
    ask((1..=4096).contains(&length), &rules::ARRAY_LENGTH, t, || format!("type {t} has length {length}"))?;
    let size = length * program.size(element);
    ask_size(t, size)?;
    Ok(Shape { size, layout: program.layout(element).repeat(length), fields: Vec::new() })
}

/// "kind 4, record (a is 0 or base row plus 1, b first own field row, c own field count)"; "a base is a record".
fn record(program: &Program, t: usize, row: &Row, unused_field: &mut usize) -> Result<Shape, Fault> {
    let mut shape = Shape::default();
    if let Some(base) = row.a().checked_sub(1) {
        ask(base < t, &rules::BASE_LOWER, t, || format!("type {t} has base {base}"))?;
        ask(program.is_record(base), &rules::BASE_RECORD, t, || {
            format!("type {t} has base {}, which is no record", type_row(base))
        })?;
        shape = program.shapes[base].clone();
    }
    for t in own_fields(program, t, row, unused_field)? {
        shape.fields.push(Field { t, offset: shape.size });
        shape.size += program.size(t);
    }
    ask_size(t, shape.size)?;
    for field in &shape.fields[shape.fields.len() - row.c()..] {
        shape.layout.extend(program.layout(field.t));
    }
    Ok(shape)
}

/// "Records use up the field rows in order without gaps; b is the next unused row even when c is 0." The types of the
/// own fields of record t.
fn own_fields(program: &Program, t: usize, row: &Row, unused_field: &mut usize) -> Result<Vec<usize>, Fault> {
    let (first, count, all) = (row.b(), row.c(), program.fields.len());
    let unused = *unused_field;
    ask(first == unused, &rules::FIRST_FIELD, t, || {
        format!("type {t} begins at field {first}, the next unused is {unused}")
    })?;
    ask(first + count <= all, &rules::OWN_FIELDS, t, || {
        let (count, all) = (counted(count, "field"), counted(all, "row"));
        format!("type {t} claims {count} from field {first} on, the field table has {all}")
    })?;
    *unused_field = first + count;
    (first..first + count).map(|f| own_field(t, f, &program.fields[f])).collect()
}

/// "A field row has kind 0 and type a."
fn own_field(t: usize, f: usize, row: &Row) -> Result<usize, Fault> {
    ask(row.kind == 0, &rules::FIELD_KIND, t, || format!("field {f} of type {t} is of kind {}", row.kind))?;
    ask(row.zero == 0, &rules::FIELD_ZERO_BYTE, t, || {
        format!("field {f} of type {t} has the second byte {}", row.zero)
    })?;
    ask((row.b, row.c) == (0, 0), &rules::FIELD_UNUSED, t, || {
        format!("field {f} of type {t} has b {}, c {}", row.b, row.c)
    })?;
    ask(row.a() < t, &rules::FIELD_TYPE, t, || format!("field {f} of type {t} is of type {}", row.a))?;
    Ok(row.a())
}

/// "No size exceeds 4,096."
fn ask_size(t: usize, size: usize) -> Result<(), Fault> {
    ask(size <= 4096, &rules::TYPE_SIZE, t, || format!("type {t} has {size} cells"))
}
