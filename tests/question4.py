#!/usr/bin/env python3
"""Images for question 4: the types with their fields, one rule each, and the answers that document 01 gives.

question4.py          write vectors/types/
question4.py --check  compare vectors/types/ with what would be written; exits 1 where it differs

A case is a name, the type rows and the field rows as (kind, zero byte, a, b, c), and the row that question 4 reports,
None where it has nothing to report. The answers are by hand. All else in an image is as small as can be: no variables,
one procedure, no nodes, one RETURN. So an image is either refused by question 4 or accepted, and run.

Both ways also compare the answers with `refusal` below, a second reading of document 01, and `refusal` with the
answers in vectors/special/, vectors/doorrun/, vectors/in/, vectors/division/ and vectors/runs/, as far as questions 1
to 4 decide them. Nothing here comes from the crates.
"""
import pathlib
import re
import sys

VECTORS = pathlib.Path(__file__).resolve().parent.parent / 'vectors'
LENT = 29714  # doorrun takes no more of its input

BOOLEAN, INTEGER, SET = SCALARS = [(0, 0, 0, 0, 0), (1, 0, 0, 0, 0), (2, 0, 0, 0, 0)]


def field(row):
    """A good field row, of the type in that row."""
    return (0, 0, row, 0, 0)


CASES = [
    # "Rows 0, 1, 2 are kinds 0 BOOLEAN, 1 INTEGER, 2 SET."
    ('scalars only', SCALARS, [], None),
    ('row 0 of kind 1', [(1, 0, 0, 0, 0), INTEGER, SET], [], 0),
    ('row 1 of kind 0', [BOOLEAN, (0, 0, 0, 0, 0), SET], [], 1),
    ('row 2 of kind 1', [BOOLEAN, INTEGER, (1, 0, 0, 0, 0)], [], 2),
    ('row 2 an array', [BOOLEAN, INTEGER, (3, 0, 1, 1, 0)], [], 2),
    ('row 2 a record', [BOOLEAN, INTEGER, (4, 0, 0, 0, 0)], [], 2),
    ('rows 0 and 1 exchanged', [INTEGER, BOOLEAN, SET], [], 0),
    ('rows 1 and 2 exchanged', [BOOLEAN, SET, INTEGER], [], 1),

    # "A row is 8 bytes: kind, a zero byte, 16-bit numbers a, b, c."
    ('row 0, zero byte 1', [(0, 1, 0, 0, 0), INTEGER, SET], [], 0),
    ('row 1, zero byte 128', [BOOLEAN, (1, 128, 0, 0, 0), SET], [], 1),
    ('row 2, zero byte 255', [BOOLEAN, INTEGER, (2, 255, 0, 0, 0)], [], 2),
    ('array, zero byte 1', SCALARS + [(3, 1, 1, 1, 0)], [], 3),
    ('record, zero byte 1', SCALARS + [(4, 1, 0, 0, 0)], [], 3),
    ('field, zero byte 1', SCALARS + [(4, 0, 0, 0, 1)], [(0, 1, 1, 0, 0)], 3),

    # "A number without a use below is 0."
    ('row 0, a is 1', [(0, 0, 1, 0, 0), INTEGER, SET], [], 0),
    ('row 0, b is 1', [(0, 0, 0, 1, 0), INTEGER, SET], [], 0),
    ('row 0, c is 1', [(0, 0, 0, 0, 1), INTEGER, SET], [], 0),
    ('row 1, a is 256', [BOOLEAN, (1, 0, 256, 0, 0), SET], [], 1),
    ('row 1, b is 256', [BOOLEAN, (1, 0, 0, 256, 0), SET], [], 1),
    ('row 1, c is 256', [BOOLEAN, (1, 0, 0, 0, 256), SET], [], 1),
    ('row 2, a is 65535', [BOOLEAN, INTEGER, (2, 0, 65535, 0, 0)], [], 2),
    ('row 2, b is 65535', [BOOLEAN, INTEGER, (2, 0, 0, 65535, 0)], [], 2),
    ('row 2, c is 65535', [BOOLEAN, INTEGER, (2, 0, 0, 0, 65535)], [], 2),
    ('array, c is 1', SCALARS + [(3, 0, 1, 1, 1)], [], 3),
    ('array, c is 256', SCALARS + [(3, 0, 1, 1, 256)], [], 3),
    ('field, b is 1', SCALARS + [(4, 0, 0, 0, 1)], [(0, 0, 1, 1, 0)], 3),
    ('field, c is 1', SCALARS + [(4, 0, 0, 0, 1)], [(0, 0, 1, 0, 1)], 3),
    ('field, b is 256', SCALARS + [(4, 0, 0, 0, 1)], [(0, 0, 1, 256, 0)], 3),
    ('field, c is 256', SCALARS + [(4, 0, 0, 0, 1)], [(0, 0, 1, 0, 256)], 3),

    # "Later rows are kind 3, array (..), or kind 4, record (..)."
    ('row 3 of kind 0', SCALARS + [(0, 0, 0, 0, 0)], [], 3),
    ('row 3 of kind 1', SCALARS + [(1, 0, 0, 0, 0)], [], 3),
    ('row 3 of kind 2', SCALARS + [(2, 0, 0, 0, 0)], [], 3),
    ('row 3 of kind 5', SCALARS + [(5, 0, 1, 1, 0)], [], 3),  # a good array but for the kind
    ('row 3 of kind 255', SCALARS + [(255, 0, 0, 0, 0)], [], 3),  # a good record but for the kind
    ('row 4 of kind 2', SCALARS + [(3, 0, 1, 1, 0), (2, 0, 1, 1, 0)], [], 4),  # a good array but for the kind

    # "array (a element type, b length 1 to 4,096)"
    ('array of 1 BOOLEAN', SCALARS + [(3, 0, 0, 1, 0)], [], None),
    ('array of 1 INTEGER', SCALARS + [(3, 0, 1, 1, 0)], [], None),
    ('array of 1 SET', SCALARS + [(3, 0, 2, 1, 0)], [], None),
    ('array of 0 INTEGER', SCALARS + [(3, 0, 1, 0, 0)], [], 3),
    ('array of 4096 INTEGER', SCALARS + [(3, 0, 1, 4096, 0)], [], None),
    ('array of 4097 INTEGER', SCALARS + [(3, 0, 1, 4097, 0)], [], 3),
    ('array of 65535 INTEGER', SCALARS + [(3, 0, 1, 65535, 0)], [], 3),
    # The same where every size is 0, so that only the length can be at fault.
    ('array of 0 empty records', SCALARS + [(4, 0, 0, 0, 0), (3, 0, 3, 0, 0)], [], 4),
    ('array of 4096 empty records', SCALARS + [(4, 0, 0, 0, 0), (3, 0, 3, 4096, 0)], [], None),
    ('array of 4097 empty records', SCALARS + [(4, 0, 0, 0, 0), (3, 0, 3, 4097, 0)], [], 4),
    ('array of 65535 empty records', SCALARS + [(4, 0, 0, 0, 0), (3, 0, 3, 65535, 0)], [], 4),

    # "Base, element and field types stand in lower rows": an element
    ('array of itself', SCALARS + [(3, 0, 3, 1, 0)], [], 3),
    ('second array of itself', SCALARS + [(3, 0, 1, 1, 0), (3, 0, 4, 1, 0)], [], 4),
    ('array of the next row', SCALARS + [(3, 0, 4, 1, 0), (3, 0, 1, 1, 0)], [], 3),
    ('array of a missing row', SCALARS + [(3, 0, 4, 1, 0)], [], 3),
    ('array of row 256', SCALARS + [(3, 0, 256, 1, 0)], [], 3),
    ('array of row 65535', SCALARS + [(3, 0, 65535, 1, 0)], [], 3),

    # "Size: scalar 1; array length times element; .. No size exceeds 4,096."
    ('array 64 x 64', SCALARS + [(3, 0, 1, 64, 0), (3, 0, 3, 64, 0)], [], None),
    ('array 64 x 65', SCALARS + [(3, 0, 1, 64, 0), (3, 0, 3, 65, 0)], [], 4),  # 4,160
    ('array 1 x 4096', SCALARS + [(3, 0, 1, 4096, 0), (3, 0, 3, 1, 0)], [], None),
    ('array 16 x 4096', SCALARS + [(3, 0, 1, 4096, 0), (3, 0, 3, 16, 0)], [], 4),  # 65,536
    ('array 4096 x 4096', SCALARS + [(3, 0, 1, 4096, 0), (3, 0, 3, 4096, 0)], [], 4),  # 16,777,216
    ('array 16 x 16 x 16', SCALARS + [(3, 0, 1, 16, 0), (3, 0, 3, 16, 0), (3, 0, 4, 16, 0)], [], None),
    ('array 17 x 16 x 16', SCALARS + [(3, 0, 1, 16, 0), (3, 0, 3, 16, 0), (3, 0, 4, 17, 0)], [], 5),  # 4,352

    # "record (a is 0 or base row plus 1, ..)" and "a base is a record"
    ('empty record', SCALARS + [(4, 0, 0, 0, 0)], [], None),
    ('base a lower record', SCALARS + [(4, 0, 0, 0, 0), (4, 0, 4, 0, 0)], [], None),
    ('base BOOLEAN', SCALARS + [(4, 0, 1, 0, 0)], [], 3),
    ('base INTEGER', SCALARS + [(4, 0, 2, 0, 0)], [], 3),
    ('base SET', SCALARS + [(4, 0, 3, 0, 0)], [], 3),
    ('base an array', SCALARS + [(3, 0, 1, 1, 0), (4, 0, 4, 0, 0)], [], 4),
    ('base an array before a record', SCALARS + [(3, 0, 1, 1, 0), (4, 0, 0, 0, 0), (4, 0, 4, 0, 0)], [], 5),
    ('base a record before an array', SCALARS + [(4, 0, 0, 0, 0), (3, 0, 1, 1, 0), (4, 0, 4, 0, 0)], [], None),
    ('base row without the 1', SCALARS + [(4, 0, 0, 0, 0), (4, 0, 3, 0, 0)], [], 4),  # 3 is base row 2, SET

    # "Base, element and field types stand in lower rows": a base
    ('base itself', SCALARS + [(4, 0, 4, 0, 0)], [], 3),
    ('base a higher record', SCALARS + [(4, 0, 5, 0, 0), (4, 0, 0, 0, 0)], [], 3),
    ('base a missing row', SCALARS + [(4, 0, 5, 0, 0)], [], 3),
    ('base number 256', SCALARS + [(4, 0, 256, 0, 0)], [], 3),
    ('base number 260', SCALARS + [(4, 0, 0, 0, 0), (4, 0, 260, 0, 0)], [], 4),  # 256 + 4
    ('base number 65535', SCALARS + [(4, 0, 65535, 0, 0)], [], 3),

    # "A field row has kind 0 and type a."
    ('field BOOLEAN', SCALARS + [(4, 0, 0, 0, 1)], [field(0)], None),
    ('field INTEGER', SCALARS + [(4, 0, 0, 0, 1)], [field(1)], None),
    ('field SET', SCALARS + [(4, 0, 0, 0, 1)], [field(2)], None),
    ('field of kind 1', SCALARS + [(4, 0, 0, 0, 1)], [(1, 0, 1, 0, 0)], 3),
    ('field of kind 255', SCALARS + [(4, 0, 0, 0, 1)], [(255, 0, 1, 0, 0)], 3),

    # "Base, element and field types stand in lower rows": a field's type, lower than the record
    ('field an array', SCALARS + [(3, 0, 1, 2, 0), (4, 0, 0, 0, 1)], [field(3)], None),
    ('field an empty record', SCALARS + [(4, 0, 0, 0, 0), (4, 0, 0, 0, 1)], [field(3)], None),
    ('field of the type of the base', SCALARS + [(4, 0, 0, 0, 1), (4, 0, 4, 1, 1)], [field(1), field(3)], None),
    ('field of its own record', SCALARS + [(4, 0, 0, 0, 1)], [field(3)], 3),
    ('field of the next row', SCALARS + [(4, 0, 0, 0, 1), (3, 0, 1, 1, 0)], [field(4)], 3),
    ('field of a missing row', SCALARS + [(4, 0, 0, 0, 1)], [field(4)], 3),
    ('field of row 256', SCALARS + [(4, 0, 0, 0, 1)], [field(256)], 3),
    ('field of row 65535', SCALARS + [(4, 0, 0, 0, 1)], [field(65535)], 3),

    # "Records use up the field rows in order without gaps"
    ('two records side by side', SCALARS + [(4, 0, 0, 0, 1), (4, 0, 0, 1, 2)], [field(1)] * 3, None),
    ('two records, a gap', SCALARS + [(4, 0, 0, 0, 1), (4, 0, 0, 2, 1)], [field(1)] * 3, 4),
    ('two records, one field of both', SCALARS + [(4, 0, 0, 0, 2), (4, 0, 0, 1, 2)], [field(1)] * 3, 4),
    ('two records in the wrong order', SCALARS + [(4, 0, 0, 1, 1), (4, 0, 0, 0, 1)], [field(1)] * 2, 3),
    ('an array between two records', SCALARS + [(4, 0, 0, 0, 1), (3, 0, 1, 3, 0), (4, 0, 0, 1, 1)],
     [field(1)] * 2, None),
    ('extension claims the fields of its base', SCALARS + [(4, 0, 0, 0, 1), (4, 0, 4, 0, 2)], [field(1)] * 2, 4),

    # "b is the next unused row even when c is 0"
    ('no fields, b is 1', SCALARS + [(4, 0, 0, 1, 0)], [], 3),
    ('256 fields, b is 256', SCALARS + [(4, 0, 0, 256, 0)], [field(1)] * 256, 3),
    ('nothing own, b is the field count', SCALARS + [(4, 0, 0, 0, 2), (4, 0, 0, 2, 0)], [field(1)] * 2, None),
    ('nothing own, b is the field count 256', SCALARS + [(4, 0, 0, 0, 256), (4, 0, 0, 256, 0)], [field(1)] * 256, None),
    ('nothing own, b too low', SCALARS + [(4, 0, 0, 0, 2), (4, 0, 0, 0, 0)], [field(1)] * 2, 4),
    ('nothing own, b too high', SCALARS + [(4, 0, 0, 0, 2), (4, 0, 0, 3, 0)], [field(1)] * 2, 4),
    ('nothing own, between two records', SCALARS + [(4, 0, 0, 0, 1), (4, 0, 0, 1, 0), (4, 0, 0, 1, 1)],
     [field(1)] * 2, None),

    # "b first own field row, c own field count": so many are there
    ('one field too few', SCALARS + [(4, 0, 0, 0, 2)], [field(1)], 3),
    ('one field too few for the second record', SCALARS + [(4, 0, 0, 0, 256), (4, 0, 0, 256, 1)], [field(1)] * 256, 4),
    ('no fields, c is 256', SCALARS + [(4, 0, 0, 0, 256)], [], 3),
    ('no fields, c is 65535', SCALARS + [(4, 0, 0, 0, 65535)], [], 3),
    ('b is 1, c is 65535', SCALARS + [(4, 0, 0, 0, 1), (4, 0, 0, 1, 65535)], [field(1)], 4),  # together 65,536
    ('256 fields, c is 257', SCALARS + [(4, 0, 0, 0, 257)], [field(1)] * 256, 3),

    # "(Unclaimed field: row = type count.)"
    ('unclaimed field, no record', SCALARS, [field(1)], 3),
    ('unclaimed field, empty record', SCALARS + [(4, 0, 0, 0, 0)], [field(1)], 4),
    ('unclaimed field after a claimed one', SCALARS + [(4, 0, 0, 0, 1)], [field(1)] * 2, 4),
    ('unclaimed field with faults', SCALARS + [(4, 0, 0, 0, 1)], [field(1), (9, 9, 9, 9, 9)], 4),
    ('unclaimed field and a faulty array', SCALARS + [(3, 0, 1, 0, 0), (3, 0, 1, 1, 0)], [field(1)], 3),

    # "Size: .. record base plus own fields, base first. No size exceeds 4,096."
    ('record 2048 + 2048', SCALARS + [(3, 0, 1, 2048, 0), (4, 0, 0, 0, 2)], [field(3)] * 2, None),
    ('record 2048 + 2048 + 1', SCALARS + [(3, 0, 1, 2048, 0), (4, 0, 0, 0, 3)], [field(3), field(3), field(1)], 4),
    ('record 16 times 4096', SCALARS + [(3, 0, 1, 4096, 0), (4, 0, 0, 0, 16)], [field(3)] * 16, 4),  # 65,536
    ('record 256 times 4096', SCALARS + [(3, 0, 1, 4096, 0), (4, 0, 0, 0, 256)], [field(3)] * 256, 4),  # 1,048,576
    ('base 2048, own 2048', SCALARS + [(3, 0, 1, 2048, 0), (4, 0, 0, 0, 1), (4, 0, 5, 1, 1)], [field(3)] * 2, None),
    ('base 4096, nothing own', SCALARS + [(3, 0, 1, 4096, 0), (4, 0, 0, 0, 1), (4, 0, 5, 1, 0)], [field(3)], None),
    ('base 4096, own an empty record',
     SCALARS + [(4, 0, 0, 0, 0), (3, 0, 1, 4096, 0), (4, 0, 0, 0, 1), (4, 0, 6, 1, 1)], [field(4), field(3)], None),
    ('base 4096, own 1', SCALARS + [(3, 0, 1, 4096, 0), (4, 0, 0, 0, 1), (4, 0, 5, 1, 1)], [field(3), field(1)], 5),
    ('base 4096, own 255 times 4096', SCALARS + [(3, 0, 1, 4096, 0), (4, 0, 0, 0, 1), (4, 0, 5, 1, 255)],
     [field(3)] * 256, 5),  # 1,048,576
    ('array of 2048 extensions 1 + 1', SCALARS + [(4, 0, 0, 0, 1), (4, 0, 4, 1, 1), (3, 0, 4, 2048, 0)],
     [field(1), field(2)], None),
    ('array of 2049 extensions 1 + 1', SCALARS + [(4, 0, 0, 0, 1), (4, 0, 4, 1, 1), (3, 0, 4, 2049, 0)],
     [field(1), field(2)], 5),  # 4,098

    # "Base, element and field types stand in lower rows", "Size: .. record base plus own fields": the longest chains,
    # row r on base row r - 1
    ('chain of 61 records', SCALARS + [(4, 0, 0, 0, 0)] + [(4, 0, r, 0, 0) for r in range(4, 64)], [], None),
    ('chain of 61 records, the last its own base',
     SCALARS + [(4, 0, 0, 0, 0)] + [(4, 0, r, 0, 0) for r in range(4, 63)] + [(4, 0, 64, 0, 0)], [], 63),
    ('chain of 61 records of a field each',
     SCALARS + [(4, 0, 0, 0, 1)] + [(4, 0, r, r - 3, 1) for r in range(4, 64)], [field(1)] * 61, None),
    # Rows 4 to 62 have 68 cells of their own, together 4,012; row 63 has 68 and 16 or 17.
    ('chain of 60 records, 4096 cells',
     SCALARS + [(3, 0, 1, 68, 0), (4, 0, 0, 0, 1)] + [(4, 0, r, r - 4, 1) for r in range(5, 63)] + [(4, 0, 63, 59, 17)],
     [field(3)] * 60 + [field(1)] * 16, None),
    ('chain of 60 records, 4097 cells',
     SCALARS + [(3, 0, 1, 68, 0), (4, 0, 0, 0, 1)] + [(4, 0, r, r - 4, 1) for r in range(5, 63)] + [(4, 0, 63, 59, 18)],
     [field(3)] * 60 + [field(1)] * 17, 63),

    # "types (3 to 64), fields (0 to 256)": rows 3 to 62 claim 4 fields each, together 240, row 63 the others
    ('64 types, 256 fields', SCALARS + [(4, 0, 0, 4 * i, 4) for i in range(60)] + [(4, 0, 0, 240, 16)],
     [field(1)] * 256, None),
    ('64 types, 256 fields, one unclaimed', SCALARS + [(4, 0, 0, 4 * i, 4) for i in range(60)] + [(4, 0, 0, 240, 15)],
     [field(1)] * 256, 64),
    ('64 types, 256 fields, one too few', SCALARS + [(4, 0, 0, 4 * i, 4) for i in range(60)] + [(4, 0, 0, 240, 17)],
     [field(1)] * 256, 63),
    ('64 types, 256 fields, the last of row 62',
     SCALARS + [(4, 0, 0, 4 * i, 4) for i in range(60)] + [(4, 0, 0, 240, 16)], [field(1)] * 255 + [field(62)], None),
    ('64 types, 256 fields, the last of row 63',
     SCALARS + [(4, 0, 0, 4 * i, 4) for i in range(60)] + [(4, 0, 0, 240, 16)], [field(1)] * 255 + [field(63)], 63),
    ('one record of 256 fields', SCALARS + [(4, 0, 0, 0, 256)], [field(1)] * 256, None),
    ('64 types, each array of the one before', SCALARS + [(3, 0, r - 1, 1, 0) for r in range(3, 64)], [], None),

    # "Does each type row, with its own fields, keep its rule?": a field's fault is its record's
    ('faulty field of the second record', SCALARS + [(4, 0, 0, 0, 2), (4, 0, 0, 2, 2)],
     [field(1), field(1), field(1), (1, 0, 1, 0, 0)], 4),
    ('second record holds the first', SCALARS + [(4, 0, 0, 0, 1), (4, 0, 0, 1, 1)], [field(1), field(3)], None),
    ('first record holds the second', SCALARS + [(4, 0, 0, 0, 1), (4, 0, 0, 1, 1)], [field(4), field(1)], 3),
    ('faulty field of a base', SCALARS + [(4, 0, 0, 0, 1), (4, 0, 4, 1, 1)], [(0, 0, 1, 1, 0), field(1)], 3),
    ('faulty field between two good ones', SCALARS + [(3, 0, 1, 1, 0), (4, 0, 0, 0, 3)],
     [field(3), field(4), field(3)], 4),

    # "The first "no" decides; the row is the lowest at fault"
    ('rows 1 and 2 at fault', [BOOLEAN, (1, 0, 0, 0, 1), (2, 1, 0, 0, 0)], [], 1),
    ('rows 0 and 3 at fault', [(0, 0, 0, 1, 0), INTEGER, SET, (0, 0, 0, 0, 0)], [], 0),
    ('faulty element, then a faulty record', SCALARS + [(3, 0, 3, 1, 0), (4, 0, 0, 7, 0)], [], 3),
    ('faulty record, then a faulty element', SCALARS + [(4, 0, 0, 7, 0), (3, 0, 4, 1, 0)], [], 3),
    ('faulty field, then a faulty element', SCALARS + [(4, 0, 0, 0, 1), (3, 0, 4, 1, 0)], [(1, 0, 1, 0, 0)], 3),
    ('faulty element, then a faulty field', SCALARS + [(3, 0, 3, 1, 0), (4, 0, 0, 0, 1)], [(1, 0, 1, 0, 0)], 3),
    ('faulty record, then a worse one', SCALARS + [(4, 0, 0, 0, 1), (4, 9, 9, 9, 9)],
     [(0, 0, 1, 0, 1), (9, 9, 9, 9, 9)], 3),
    ('too large, then larger', SCALARS + [(3, 0, 1, 4096, 0), (3, 0, 3, 2, 0), (3, 0, 4, 2, 0)], [], 4),
]


def image(types, fields):
    """The smallest image with these types and fields: one procedure, whose body is a RETURN."""
    body = b''
    for rows in (types, fields, [], [(0, 0, 0, 0, 0)], [], [(4, 0, 0, 0, 0)]):
        body += len(rows).to_bytes(2, 'big')
        for kind, zero, a, b, c in rows:
            body += bytes([kind, zero]) + b''.join(number.to_bytes(2, 'big') for number in (a, b, c))
    return b'\x01' + (5 + len(body)).to_bytes(4, 'big') + body


def files():
    """What vectors/types/ is to have: each file's bytes by its name."""
    found, names, expect = {}, '', ''
    for name, types, fields, row in CASES:
        file = re.sub('[^A-Za-z0-9]', '_', name) + '.img'
        if file in found:
            sys.exit(f'question4: {file} is there twice')
        found[file] = image(types, fields)
        names += f'{file} {name}\n'
        expect += file + '\n' + ('0 0 1 0 0 0 1 0 0\n' if row is None else f'4 {row} 0 0 0 0 0 0 0\n')
    found['names.txt'] = names.encode('ascii')
    found['expect.txt'] = expect.encode('ascii')
    return found


# The second reading of document 01: an image's refusal and row by questions 1 to 4, 0 and 0 where these accept it.

def refusal(data):
    if data[:1] != b'\x01':
        return 1, 0
    if len(data) < 5 or int.from_bytes(data[1:5], 'big') != len(data):
        return 2, 0
    tables, at = [], 5
    for least, most in ((3, 64), (0, 256), (0, 256), (1, 64), (0, 2048), (1, 1024)):
        count = int.from_bytes(data[at:at + 2], 'big')
        end = at + 2 + 8 * count
        if at + 2 > len(data) or not least <= count <= most or end > len(data):
            return 3, 0
        tables.append([parts(data[start:start + 8]) for start in range(at + 2, end, 8)])
        at = end
    if at != len(data):
        return 3, 0
    row = lowest_at_fault(tables[0], tables[1])
    return (0, 0) if row is None else (4, row)


def parts(row):
    return row[0], row[1], 256 * row[2] + row[3], 256 * row[4] + row[5], 256 * row[6] + row[7]


def lowest_at_fault(types, fields):
    sizes, used = [], 0  # of the rows so far, which all keep their rules
    for row, (kind, zero, a, b, c) in enumerate(types):
        if zero != 0:
            return row
        if row <= 2:
            if (kind, a, b, c) != (row, 0, 0, 0):
                return row
            size = 1
        elif kind == 3:
            if a >= row or b < 1 or b > 4096 or c != 0:
                return row
            size = b * sizes[a]
        elif kind == 4:
            size = 0
            if a != 0:
                base = a - 1
                if base >= row or types[base][0] != 4:
                    return row
                size = sizes[base]
            if b != used or b + c > len(fields):
                return row
            used = b + c
            for own in fields[b:used]:
                if own != (0, 0, own[2], 0, 0) or own[2] >= row:
                    return row
                size += sizes[own[2]]
        else:
            return row
        if size > 4096:
            return row
        sizes.append(size)
    return None if used == len(fields) else len(types)


def answers(folder):
    """The name, refusal and row of each image of a folder."""
    if (folder / 'runs.txt').exists():
        lines = (folder / 'runs.txt').read_text(encoding='ascii').splitlines()[1:]
        pairs = [(line.split(' ')[0], line.split('|')[2]) for line in lines]
    else:
        lines = (folder / 'expect.txt').read_text(encoding='ascii').splitlines()
        pairs = [pair for pair in zip(lines, lines[1:]) if pair[0].endswith('.img')]
    return [(name, *(int(word) for word in numbers.split()[:2])) for name, numbers in pairs]


def disagreements():
    """Where the second reading answers otherwise than the cases, or than the other images; and how many these are."""
    wrong, others = [], 0
    for name, types, fields, row in CASES:
        by_hand, second = (0, 0) if row is None else (4, row), refusal(image(types, fields))
        if by_hand != second:
            wrong.append(f'{name}: by hand {by_hand}, by the second reading {second}')
    for folder in (VECTORS / name for name in ('special', 'doorrun', 'in', 'division', 'runs')):
        for name, first, row in answers(folder):
            others += 1
            given, second = (first, row) if first <= 4 else (0, 0), refusal((folder / name).read_bytes()[:LENT])
            if given != second:
                wrong.append(f'{folder.name}/{name}: given {given}, by the second reading {second}')
    if image(SCALARS, []) != (VECTORS / 'special/smallest.img').read_bytes():
        wrong.append('the image of the scalars only is not special/smallest.img')
    return wrong, others


def main(words):
    if words not in ([], ['--check']):
        print('usage: question4.py [--check]', file=sys.stderr)
        return 2
    wrong, others = disagreements()
    folder, wanted = VECTORS / 'types', files()
    if not words:
        folder.mkdir(exist_ok=True)
        for path in folder.glob('*.img'):
            path.unlink()
        for name, data in wanted.items():
            (folder / name).write_bytes(data)
    there = {path.name: path.read_bytes() for path in folder.iterdir()} if folder.is_dir() else {}
    for name in sorted(wanted.keys() | there.keys()):
        if wanted.get(name) != there.get(name):
            wrong.append(f'vectors/types/{name} is not what the table gives; run tests/question4.py')
    for line in wrong:
        print(f'question4: {line}')
    refused = sum(row is not None for *_, row in CASES)
    print(f'question4: {len(CASES)} images, {refused} refused; {others} others compared; {len(wrong)} differences')
    return 1 if wrong else 0


if __name__ == '__main__':
    sys.exit(main(sys.argv[1:]))
