//! The forms of rows: what stands behind a row's number and name.
use crate::line::Line;
use crate::symbols::{Symbol, Wrong};
use crate::VARIABLES;
use crate::{FIELDS, KINDS_OF_VARIABLES, NODES, OPERATORS, PROCEDURES, SCALARS, STATEMENTS, TYPES};

/// A number of a row, as it is written.
#[derive(Clone, Copy, Debug)]
pub enum Operand<'a> {
    Number(u16),
    /// The number of the row with that name.
    Row {
        table: usize,
        name: Symbol<'a>,
    },
    /// One more than the number of the type with that name: a record's base.
    Base(Symbol<'a>),
    /// The number of the field with that name, in the record that node a stands for.
    Field(Symbol<'a>),
}

impl From<u16> for Operand<'_> {
    fn from(number: u16) -> Self {
        Operand::Number(number)
    }
}

/// A row as it is written.
#[derive(Clone, Copy, Debug)]
pub struct Form<'a> {
    pub kind: u8,
    pub zero: u8,
    pub numbers: [Operand<'a>; 3],
}

/// What stands behind a row's mark.
pub struct Body<'a> {
    pub form: Form<'a>,
    /// A variable's name.
    pub name: Option<Symbol<'a>>,
    /// A record's own fields; its number b is to be the row of the first.
    pub fields: Option<Vec<(Symbol<'a>, Form<'a>)>>,
}

impl<'a> From<Form<'a>> for Body<'a> {
    fn from(form: Form<'a>) -> Self {
        Body { form, name: None, fields: None }
    }
}

type Read<'a> = Result<Form<'a>, Wrong>;

fn form<'a>(kind: usize, a: impl Into<Operand<'a>>, b: impl Into<Operand<'a>>, c: u16) -> Form<'a> {
    Form { kind: kind as u8, zero: 0, numbers: [a.into(), b.into(), c.into()] }
}

pub fn read_body<'a>(table: usize, line: &mut Line<'a>) -> Result<Body<'a>, Wrong> {
    match table {
        TYPES if line.takes("RECORD") => read_record(line),
        TYPES => read_type(line).map(Body::from),
        FIELDS => read_field(line).map(Body::from),
        VARIABLES => read_variable(line),
        PROCEDURES => read_procedure(line).map(Body::from),
        NODES => read_node(line).map(Body::from),
        _ => read_statement(line).map(Body::from),
    }
}

/// A row of any bytes.
pub fn read_numbers<'a>(line: &mut Line<'a>) -> Read<'a> {
    let (kind, zero) = (line.number_to(255)? as u8, line.number_to(255)? as u8);
    let numbers = [line.number()?.into(), line.number()?.into(), line.number()?.into()];
    Ok(Form { kind, zero, numbers })
}

fn read_type<'a>(line: &mut Line<'a>) -> Read<'a> {
    if let Some(scalar) = line.takes_one(&SCALARS) {
        return Ok(form(scalar, 0, 0, 0));
    }
    if line.takes("ARRAY") {
        let length = line.number()?;
        line.take("OF")?;
        return Ok(form(3, line.type_row()?, length, 0));
    }
    Err(line.expected("BOOLEAN, INTEGER, SET, ARRAY, RECORD or row"))
}

/// What follows RECORD.
fn read_record<'a>(line: &mut Line<'a>) -> Result<Body<'a>, Wrong> {
    let base = if line.takes("(") { read_base(line)? } else { Operand::Number(0) };
    let mut fields = Vec::new();
    while !line.takes("END") {
        if !fields.is_empty() {
            line.take(";")?;
        }
        let name = line.word()?;
        line.take(":")?;
        fields.push((name, read_field(line)?));
    }
    let form = form(4, base, 0, fields.len().min(u16::MAX as usize) as u16);
    Ok(Body { form, name: None, fields: Some(fields) })
}

fn read_base<'a>(line: &mut Line<'a>) -> Result<Operand<'a>, Wrong> {
    let base = if line.is_at_number() {
        Operand::Number(line.number_to(u16::MAX as u32 - 1)? as u16 + 1)
    } else {
        line.free_name().map(Operand::Base)?
    };
    line.take(")")?;
    Ok(base)
}

fn read_field<'a>(line: &mut Line<'a>) -> Read<'a> {
    Ok(form(0, line.type_row()?, 0, 0))
}

fn read_variable<'a>(line: &mut Line<'a>) -> Result<Body<'a>, Wrong> {
    let Some(kind) = line.takes_one(&KINDS_OF_VARIABLES) else {
        return Err(line.expected("global, local, value, VAR or row"));
    };
    let name = line.word()?;
    line.take(":")?;
    Ok(Body { form: form(kind, line.type_row()?, 0, 0), name: Some(name), fields: None })
}

fn read_procedure<'a>(line: &mut Line<'a>) -> Read<'a> {
    line.take("at")?;
    let first = line.row(STATEMENTS)?;
    line.take("parameters")?;
    let parameters = line.number()?;
    line.take("locals")?;
    Ok(form(0, first, parameters, line.number()?))
}

fn read_node<'a>(line: &mut Line<'a>) -> Read<'a> {
    if line.is_at_row() {
        return read_dyadic(line);
    }
    if let Some(scalar) = line.takes_one(&SCALARS) {
        return read_constant(line, scalar as u16);
    }
    for (word, kind, table) in [("variable", 1, VARIABLES), ("argument", 8, NODES)] {
        if line.takes(word) {
            return Ok(form(kind, line.row(table)?, 0, 0));
        }
    }
    for (sign, operator) in [("-", 1), ("~", 2)] {
        if line.takes(sign) {
            return Ok(form(6, line.row(NODES)?, 0, operator));
        }
    }
    for (word, kind, before_type) in [("guard", 4, "to"), ("test", 7, "for")] {
        if line.takes(word) {
            let variable = line.row(VARIABLES)?;
            line.take(before_type)?;
            return Ok(form(kind, variable, line.type_row()?, 0));
        }
    }
    if line.takes("field") {
        let field = match line.row(FIELDS)? {
            Operand::Row { name, .. } => Operand::Field(name),
            number => number,
        };
        line.take("of")?;
        return Ok(form(2, line.row(NODES)?, field, 0));
    }
    if line.takes("element") {
        let array = line.row(NODES)?;
        line.take("at")?;
        return Ok(form(3, array, line.row(NODES)?, 0));
    }
    Err(line.expected("a node"))
}

fn read_dyadic<'a>(line: &mut Line<'a>) -> Read<'a> {
    let left = line.row(NODES)?;
    let Some(operator) = line.takes_one(&OPERATORS) else {
        return Err(line.expected("an operator"));
    };
    Ok(form(5, left, line.row(NODES)?, operator as u16 + 1))
}

fn read_constant<'a>(line: &mut Line<'a>, scalar: u16) -> Read<'a> {
    let value = match scalar {
        0 => read_boolean(line)? as u32,
        1 => read_integer(line)?,
        _ => read_set(line)?,
    };
    Ok(form(0, scalar, (value >> 16) as u16, value as u16))
}

fn read_boolean(line: &mut Line) -> Result<usize, Wrong> {
    line.takes_one(&["FALSE", "TRUE"]).ok_or_else(|| line.expected("FALSE or TRUE"))
}

/// An INTEGER in two's complement.
fn read_integer(line: &mut Line) -> Result<u32, Wrong> {
    if line.takes("-") {
        return Ok(line.number_to(1 << 31)?.wrapping_neg());
    }
    line.number_to((1 << 31) - 1)
}

fn read_set(line: &mut Line) -> Result<u32, Wrong> {
    line.take("{")?;
    let mut set = 0;
    let mut more = !line.takes("}");
    while more {
        let first = line.number_to(31)?;
        let last = if line.takes("..") { line.number_to(31)? } else { first };
        for element in first..=last {
            set |= 1 << element;
        }
        more = line.takes(",");
        if !more {
            line.take("}")?;
        }
    }
    Ok(set)
}

fn read_statement<'a>(line: &mut Line<'a>) -> Read<'a> {
    if line.is_at_row() {
        let target = line.row(NODES)?;
        line.take(":=")?;
        return Ok(form(0, target, line.row(NODES)?, 0));
    }
    if line.takes("call") {
        let procedure = line.row(PROCEDURES)?;
        return Ok(form(1, procedure, read_first_argument(line)?, 0));
    }
    if line.takes("IF") {
        line.take("NOT")?;
        let condition = line.row(NODES)?;
        line.take("GOTO")?;
        return Ok(form(2, condition, line.row(STATEMENTS)?, 0));
    }
    if line.takes("GOTO") {
        return Ok(form(3, 0, line.row(STATEMENTS)?, 0));
    }
    if line.takes("RETURN") {
        return Ok(form(4, 0, 0, 0));
    }
    for (word, kind) in [("READ", 5), ("WRITE", 6), ("HALT", 7)] {
        if line.takes(word) {
            return Ok(form(kind, line.row(NODES)?, 0, 0));
        }
    }
    Err(line.expected("a statement"))
}

/// The node of a call's first argument, 0 without any.
fn read_first_argument<'a>(line: &mut Line<'a>) -> Result<Operand<'a>, Wrong> {
    if !line.takes("(") {
        return Ok(Operand::Number(0));
    }
    for word in ["arguments", "from", "node"] {
        line.take(word)?;
    }
    let first = line.row(NODES)?;
    line.take(")")?;
    Ok(first)
}
