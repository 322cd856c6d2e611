//! The rules that the questions ask for, in the papers' words and in the order of the questions. Of a row that breaks
//! several rules of its question, one is reported; of what question 14 asks too.

/// A rule of one question.
#[derive(Debug, PartialEq, Eq)]
pub struct Rule {
    /// 1 to 14.
    pub question: u32,
    /// What has to hold, as a sentence.
    pub words: &'static str,
}

macro_rules! rules {
    ($(#[$list_doc:meta])* $list:ident $($name:ident $question:literal $words:literal)*) => {
        $(#[doc = $words] pub static $name: Rule = Rule { question: $question, words: $words };)*

        $(#[$list_doc])*
        pub static $list: [&Rule; [$($question),*].len()] = [$(&$name),*];
    };
}

rules! {
    /// Every rule of the check, question by question.
    ALL

    FIRST_BYTE 1 "The image has a first byte."
    VERSION 1 "The first byte, the version, is 1."

    LENGTH_PRESENT 2 "Bytes 1 to 4 are present."
    LENGTH 2 "Bytes 1 to 4 give the length of the whole image."

    COUNT_PRESENT 3 "Each of the six tables begins with a row count of two bytes."
    TYPE_COUNT 3 "The image has 3 to 64 type rows."
    FIELD_COUNT 3 "The image has 0 to 256 field rows."
    VARIABLE_COUNT 3 "The image has 0 to 256 variable rows."
    PROCEDURE_COUNT 3 "The image has 1 to 64 procedure rows."
    NODE_COUNT 3 "The image has 0 to 2,048 node rows."
    STATEMENT_COUNT 3 "The image has 1 to 1,024 statement rows."
    ROWS_PRESENT 3 "Each table has as many rows of eight bytes as its count says."
    NOTHING_LEFT 3 "The image ends with the last statement row."

    TYPE_ZERO_BYTE 4 "The second byte of a type row is 0."
    SCALAR_ROW 4 "Type rows 0, 1 and 2 are of kinds 0 (BOOLEAN), 1 (INTEGER) and 2 (SET)."
    SCALAR_UNUSED 4 "The numbers a, b and c of type rows 0 to 2 are 0."
    LATER_TYPE 4 "Type rows from 3 on are of kind 3 (array) or 4 (record)."
    ARRAY_UNUSED 4 "The number c of an array is 0."
    ELEMENT_TYPE 4 "An array's element type stands in a lower row."
    ARRAY_LENGTH 4 "An array's length is 1 to 4,096."
    BASE_LOWER 4 "A record's base stands in a lower row."
    BASE_RECORD 4 "A record's base is a record."
    FIRST_FIELD 4 "A record's first own field is the next unused field row, also where it has no own fields."
    OWN_FIELDS 4 "A record's own fields are rows of the field table."
    FIELD_KIND 4 "A field row is of kind 0."
    FIELD_ZERO_BYTE 4 "The second byte of a field row is 0."
    FIELD_UNUSED 4 "The numbers b and c of a field row are 0."
    FIELD_TYPE 4 "A field's type stands in a lower row than its record."
    TYPE_SIZE 4 "A type has at most 4,096 cells."
    FIELD_CLAIMED 4 "Each field row is an own field of a record."

    VARIABLE_KIND 5 "A variable is of kind 0 (global), 1 (local), 2 (value parameter) or 3 (VAR parameter)."
    VARIABLE_ZERO_BYTE 5 "The second byte of a variable row is 0."
    VARIABLE_UNUSED 5 "The numbers b and c of a variable row are 0."
    VARIABLE_TYPE 5 "A variable's type is a row of the type table."
    GLOBALS_FIRST 5 "Globals come before all other variables."

    PROCEDURE_KIND 6 "A procedure row is of kind 0."
    PROCEDURE_ZERO_BYTE 6 "The second byte of a procedure row is 0."
    MODULE_BODY_START 6 "The body of procedure 0 begins at statement 0."
    MODULE_BODY_PARAMETERS 6 "Procedure 0, the module body, has no parameters."
    BODY_START 6 "A body begins at a row of the statement table."
    BODY_NOT_EMPTY 6 "A body begins before the next procedure's body."
    ENOUGH_VARIABLES 6 "A procedure's parameters and locals are unused rows of the variable table."
    PARAMETER_KIND 6 "A procedure's first variables, as many as it has parameters, are value or VAR parameters."
    LOCAL_KIND 6 "The variables after a procedure's parameters, as many as it has locals, are locals."
    VARIABLE_CLAIMED 6 "Each variable is a global, or a parameter or local of a procedure."

    NODE_KIND 7 "A node is of kind 0 to 8."
    NODE_ZERO_BYTE 7 "The second byte of a node row is 0."
    NODE_UNUSED 7 "A number that a node's kind has no use for is 0."
    CONSTANT_TYPE 7 "A constant's type is 0 (BOOLEAN), 1 (INTEGER) or 2 (SET)."
    BOOLEAN_CONSTANT 7 "A BOOLEAN constant is 0 or 1."
    NODE_VARIABLE 7 "The variable that a node names is a row of the variable table."
    NODE_TYPE 7 "The type that a guard or type test names is a row of the type table."
    CHILD_EXISTS 7 "A node's children are rows of the node table."
    CHILD_LOWER 7 "A node's children have lower rows."
    CHILD_NO_ARGUMENT 7 "A node's children are not arguments (kind 8)."
    PART_OF_DESIGNATOR 7 "A field or an element is one of a designator (kinds 1 to 4)."
    DYADIC_OPERATOR 7 "A dyadic operator is 1 to 16."
    MONADIC_OPERATOR 7 "A monadic operator is 1 or 2."

    STATEMENT_KIND 8 "A statement is of kind 0 to 7."
    STATEMENT_ZERO_BYTE 8 "The second byte of a statement row is 0."
    STATEMENT_UNUSED 8 "A number that a statement's kind has no use for is 0."
    STATEMENT_NODE 8 "The nodes that a statement names are rows of the node table."
    ONLY_CALLS_NAME_ARGUMENTS 8 "Only calls name arguments (kind 8)."
    TARGET_DESIGNATOR 8 "What is assigned to or read into is a designator (kinds 1 to 4)."
    CALLED_PROCEDURE 8 "A called procedure is a row of the procedure table."
    MODULE_BODY_CALLED 8 "Procedure 0, the module body, is never called."
    NO_ARGUMENTS 8 "A call of a procedure without parameters has b 0."
    ARGUMENTS_EXIST 8 "A call's arguments, one for each parameter, are rows of the node table."
    ARGUMENT_KIND 8 "A call's arguments, one for each parameter, are nodes of kind 8."
    JUMP_TARGET 8 "A jump's target lies in the jump's own body."
    BODY_END 8 "A body's last statement is a jump (3), RETURN (4) or HALT (7)."

    NAMED_NEVER 9 "Each node is named by a node or a statement."
    NAMED_TWICE 9 "No node is named twice."

    FIELD_OF_RECORD 10 "A field is one of a record."
    FIELD_EXISTS 10 "The record has the field that is named, the base's fields counted first."
    ELEMENT_OF_ARRAY 10 "An element is one of an array."
    INDEX_INTEGER 10 "An index is INTEGER."
    GUARDED_PARAMETER 10 "The variable of a guard or type test is a VAR parameter."
    GUARDED_RECORD 10 "The variable of a guard or type test is of record type."
    GUARD_EXTENDS 10 "The type of a guard or type test extends the variable's type."
    PLUS_MINUS_TIMES 10 "+, - and * take two INTEGERs or two SETs."
    DIV_MOD 10 "DIV and MOD take two INTEGERs."
    SLASH 10 "/ takes two SETs."
    EQUALITY 10 "= and # take two operands of one scalar type."
    ORDER 10 "<, <=, > and >= take two INTEGERs."
    AND_OR 10 "& and OR take two BOOLEANs."
    IN 10 "IN takes an INTEGER and a SET."
    RANGE 10 "A range takes two INTEGERs."
    MONADIC_MINUS 10 "Monadic - takes an INTEGER or a SET."
    NOT 10 "~ takes a BOOLEAN."

    OWN_VARIABLES 11 "The variables that a statement uses are global or its procedure's own."
    ASSIGNED_TYPE 11 "What is assigned has the target's type, or is a record that extends the target's type."
    VALUE_ARGUMENT_TYPE 11 "What is passed by value has the parameter's type, or is a record that extends it."
    VAR_ARGUMENT_DESIGNATOR 11 "What is passed to a VAR parameter is a designator."
    VAR_ARGUMENT_TYPE 11 "What is passed to a VAR parameter has its type or, for records, an extension of it."
    CONDITION_TYPE 11 "A condition is BOOLEAN."
    READ_TYPE 11 "What is read into is INTEGER."
    WRITE_TYPE 11 "What is written is INTEGER."
    HALT_CONSTANT 11 "HALT's number is a constant."
    HALT_TYPE 11 "HALT's number is INTEGER."
}

rules! {
    /// What a run asks of its store after the check.
    STORE

    STORE_ABOVE 12 "The store has at most 65,536 cells."
    STORE_BELOW 13 "The store has at least the cells of the globals and of procedure 0's frame."
}

rules! {
    /// What a continuation asks after that: question 14, which gives no row.
    STATE

    EARLIER_REFUSAL 14 "The earlier result's refusal is 0."
    EARLIER_FAULT 14 "The earlier result's row of refusal is 0."
    EARLIER_OUTCOME 14 "The earlier result's outcome is 0."
    EARLIER_TRAP 14 "The earlier result's trap is 0."
    EARLIER_HALT 14 "The earlier result's HALT number is 0."
    READ_COUNT 14 "No more inputs are read than are lent."
    WRITTEN_COUNT 14 "No more outputs are written than places are lent."
    STEP_SUM 14 "Steps done plus steps lent are at most 4294967295."

    ROW_EXISTS 14 "The row is one of the statement table."
    TOP_IN_STORE 14 "Top lies within the store."
    TOP_FRAME 14 "The frame of the procedure whose body has the row begins at base and ends at top."
    LINK_RANGE 14 "A link is a number from 0 to 65,535."
    CALLER_EXISTS 14 "The caller that a link names is a row of the procedure table."
    RETURN_IN_BODY 14 "A return row lies in the caller's body, after its first row."
    RETURN_AFTER_CALL 14 "A return row follows a call."
    RETURN_AFTER_ITS_CALL 14 "A return row follows a call of the procedure whose frame has it."
    OLDER_FRAME 14 "A frame begins where the caller's ends, which begins at the base that a link gives."
    MODULE_FRAME 14 "Procedure 0's frame begins where the globals end."
    MODULE_LINKS 14 "The links of procedure 0's frame are 0."
    BOOLEAN_RANGE 14 "A BOOLEAN is 0 or 1."
    INTEGER_RANGE 14 "An INTEGER is a number from -2147483648 to 2147483647."
    SET_RANGE 14 "A SET is a number from 0 to 4294967295."
    ADDRESS_RANGE 14 "An address is a number from 0 to 65,535."
    TYPE_RANGE 14 "A type cell is a number from 0 to 65,535."
    TYPE_EXISTS 14 "The type that a type cell names is a row of the type table."
    TYPE_SAME 14 "A VAR parameter's type cell names its own type where that is no record."
    TYPE_EXTENDS 14 "A VAR parameter's type cell names its own type or an extension where that is a record."
    OBJECT_BEGINS 14 "At a VAR parameter's address begins a variable, an element or a field."
    OBJECT_TYPE 14 "What begins at a VAR parameter's address was declared with the named type."
    OBJECT_NO_BASE 14 "What begins at a VAR parameter's address was declared with the named type, not with an extension."
    OBJECT_NOT_OWN 14 "What begins at a VAR parameter's address is not in the parameter's own frame."
    OBJECT_NOT_YOUNGER 14 "What begins at a VAR parameter's address is not in a younger frame."

    MARK_BELOW 14 "The mark is not below top."
    MARK_ABOVE 14 "The mark is not above the store's length."
}

/// What Sound asks of a cell. Question 14 takes each cell as the kind that its place gives.
pub static CELL_KIND: Rule = Rule { question: 14, words: "A cell has the kind that its place gives." };
