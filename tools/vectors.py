#!/usr/bin/env python3
"""Test vectors for reading one MIGRA record.

    python3 vectors.py FOLDER

writes FOLDER/data/ (files of fixed records), FOLDER/args (the names, one a
line, in the order to be read) and FOLDER/stdout (the expected output).

Made from documents alone: document 01 (requirements and rules), its readings
(R01 to R16), document 02's requests W-202 (a text neither begins nor ends in
byte A0), W-203 (domains of orientation, justification and NODO TIPO) and
W-204 (file 8, OB_COMP, and the catalogue's C), and source 000 (MIGRA v1,
sections 5.1 to 5.6 and chapter 10).
No code of the project was read.

The first character of a data file's name is the MIGRA file number.

Parts:
  1. the layout, from document 01's table and source 000's section 5.5.2
  2. a reader of one record, from document 01
  3. the source's examples, transcribed (values as printed)
  4. document 01's small delivery S
  5. damage
  6. file numbers outside 1 to 8, ragged, empty and short files
  7. checks of this script against document 01
"""

import os
import sys

# ---------------------------------------------------------------------------
# 1. Layout (document 01, "What the box receives"; source 000, section 5.5)
#
# A field is (name, kind, width, demanded).
#   kind  N    digits
#         A    text
#         CODE text CODIGO: NA and ND count as missing
#         TYPE catalogue TIPO: P, X, L, T or C (S stays out until W-208)
#         NODE NODO TIPO: A, C, E, I or H (5.6.11)
#         TURN orientation: degrees 000 to 359 and minutes 00 to 59 (5.6.6)
#         JUST justification: 1 to 9 (5.6.7)
#         WAY  TRAMO sense: + or -
#         SIGN sign of the number in the next field
#         COOR number whose sign stands in the field before
#   demanded: True where the field may not be missing.  Z in a position and
#   the six centroid fields are ruled by the partner rule, not by this column.
# ---------------------------------------------------------------------------

def six(demanded):
    """Position or centroid: sign A1, X N9, sign A1, Y N10, sign A1, Z N8."""
    return [
        ('SIGNO_X', 'SIGN', 1, demanded), ('X', 'COOR', 9, demanded),
        ('SIGNO_Y', 'SIGN', 1, demanded), ('Y', 'COOR', 10, demanded),
        ('SIGNO_Z', 'SIGN', 1, False), ('Z', 'COOR', 8, False),
    ]

LAYOUT = {
    1: [('CODIGO', 'CODE', 7, True), ('TIPO', 'TYPE', 1, True),
        ('NOMBRE_C', 'A', 60, False), ('DEFINICI', 'A', 60, False)],
    2: [('ID_OPUN', 'N', 10, True), ('ID_OCOMP', 'N', 10, False),
        ('ID_NODO', 'N', 10, False), ('CODIGO', 'CODE', 7, True),
        ('NOMBRE_I', 'A', 60, False), ('ORIENTAC', 'TURN', 5, False),
        ('M', 'N', 3, False)] + six(True),
    3: [('ID_OTEX', 'N', 10, True), ('ID_OCOMP', 'N', 10, False),
        ('CODIGO', 'CODE', 7, True), ('LITERAL', 'A', 60, False),
        ('ALTURA', 'N', 3, True), ('ANCHURA', 'N', 3, False),
        ('ORIENTAC', 'TURN', 5, False), ('JUSTIFI', 'JUST', 1, True)] + six(True),
    4: [('ID_OLIN', 'N', 10, True), ('ID_OCOMP', 'N', 10, False),
        ('CODIGO', 'CODE', 7, True), ('NOMBRE_I', 'A', 60, False)] + six(False),
    5: [('ID_TRAMO', 'N', 10, True), ('ID_OLIN', 'N', 10, True),
        ('ID_PERIM', 'N', 10, False), ('ID_LINEA', 'N', 10, False),
        ('CODIGO', 'CODE', 7, True), ('ID_NODOI', 'N', 10, True),
        ('ID_NODOF', 'N', 10, True), ('SENTIDO', 'WAY', 1, False)],
    6: [('ID_LINEA', 'N', 10, True), ('NO_ORDEN', 'N', 5, True)] + six(True),
    7: [('ID_NODO', 'N', 10, True), ('TIPO', 'NODE', 1, False)] + six(True),
    8: [('ID_OCOMP', 'N', 10, True), ('CODIGO', 'CODE', 7, True),
        ('NOMBRE_I', 'A', 60, False)] + six(False),
}

FILE_NAME = {1: 'CATALOGO', 2: 'OB_PUN', 3: 'OB_TEX', 4: 'OB_LIN',
             5: 'TRAMO', 6: 'VERTICE', 7: 'NODO', 8: 'OB_COMP'}

# The field at which a centroid's six begin, in the files that have one.
CENTROID_AT = {4: 5, 8: 4}

DIGITS = b'0123456789'


def record_length(k):
    """Sum of the widths plus the number of fields plus 1."""
    return sum(w for _, _, w, _ in LAYOUT[k]) + len(LAYOUT[k]) + 1


def is_number(kind):
    return kind in ('N', 'TURN', 'JUST', 'COOR')


# ---------------------------------------------------------------------------
# 2. The reader (document 01, "A lawful record", "What the reasons are",
#    single-record calls)
#
# read(k, data, n) gives ('NO', reason, field) or ('OK', values), where values
# is one entry a field, sign fields left out: None (missing), an int for an N
# field, ('signed', int) for a coordinate, or bytes for a text.
# ---------------------------------------------------------------------------

def cut(k, record):
    """Fields are found by place.  Fields from index 0, and the index of the
    byte after each field."""
    fields, after, at = [], [], 0
    for _, _, width, _ in LAYOUT[k]:
        fields.append(record[at:at + width])
        at += width
        after.append(at)
        at += 1
    return fields, after


def blank(field):
    """R07: blank is byte 20 alone."""
    return all(b == 0x20 for b in field)


def missing(kind, field):
    """Every byte blank; for CODIGO also NA and ND (R08: exactly, and blanks)."""
    if blank(field):
        return True
    return kind == 'CODE' and field.rstrip(b' ') in (b'NA', b'ND')


def damaged(kind, field):
    """22 or 23 if the field breaks its N or A rule, else 0."""
    if is_number(kind):
        if blank(field) or all(b in DIGITS for b in field):
            return 0
        return 22
    for b in field:
        if not (0x20 <= b <= 0x7E or 0xA0 <= b <= 0xFF):
            return 23
    if field[0] == 0x20 and not blank(field):
        return 23
    # W-202: the text is the field without its trailing blanks
    text = field.rstrip(b' ')
    if text[:1] == b'\xa0' or text[-1:] == b'\xa0':
        return 23
    return 0


def breaks_of(k, record):
    """Every break of one record, as a set of (field, reason)."""
    found = set()
    layout = LAYOUT[k]
    fields, after = cut(k, record)

    # 20: what stands after the last field, told once at field 0 (R02)
    if record[-2:] != b'\x0d\x0a':
        found.add((0, 20))

    # OB_LIN and OB_COMP: if any of the six centroid fields is present (not
    # blank; damaged and out of domain count as present, R05), X, Y and their
    # signs are.  The six are the record's last.
    centroid = k in CENTROID_AT and any(not blank(f) for f in fields[-6:])

    for i, (name, kind, _, demanded) in enumerate(layout):
        no = i + 1
        field = fields[i]

        # 21: of every field but the last (R02)
        if no < len(layout) and record[after[i]] != 0x7C:
            found.add((no, 21))

        harm = damaged(kind, field)
        if harm:
            found.add((no, harm))
            continue                       # damaged: neither missing nor 25

        if missing(kind, field):
            partner = None                 # the other half of sign and number
            if kind == 'SIGN':
                partner = fields[i + 1]
            elif kind == 'COOR':
                partner = fields[i - 1]
            if (demanded
                    or (partner is not None and not blank(partner))
                    or (centroid and name in ('SIGNO_X', 'X', 'SIGNO_Y', 'Y'))):
                found.add((no, 24))
            continue                       # missing: no 25

        if kind == 'TYPE' and field not in (b'P', b'X', b'L', b'T', b'C'):
            found.add((no, 25))
        if kind == 'WAY' and field not in (b'+', b'-'):
            found.add((no, 25))
        if kind == 'NODE' and field not in (b'A', b'C', b'E', b'I', b'H'):
            found.add((no, 25))
        if kind == 'TURN' and (int(field[:3]) > 359 or int(field[3:]) > 59):
            found.add((no, 25))
        if kind == 'JUST' and field == b'0':
            found.add((no, 25))
        if kind == 'SIGN':
            number = fields[i + 1]
            if field not in (b'+', b'-'):
                found.add((no, 25))
            elif field == b'-' and all(b == 0x30 for b in number):
                found.add((no, 25))        # - before zero, told at the sign
    return found


def values_of(k, record):
    """The values of a lawful record."""
    fields, _ = cut(k, record)
    values = []
    for i, (_, kind, _, _) in enumerate(LAYOUT[k]):
        field = fields[i]
        if kind == 'SIGN':
            continue
        if blank(field):
            values.append(None)
        elif kind in ('N', 'TURN', 'JUST'):
            values.append(int(field))
        elif kind == 'COOR':
            number = int(field)
            values.append(('signed', -number if fields[i - 1] == b'-' else number))
        else:
            values.append(field.rstrip(b' '))
    return values


def written(k, values):
    """The bytes of a record of these values (for the trailing = only)."""
    cells, left = [], list(values)
    for _, kind, width, _ in LAYOUT[k]:
        if kind == 'SIGN':
            value = left[0]                # belongs to the next field
            if value is None:
                cells.append(b' ')
            else:
                cells.append(b'-' if value[1] < 0 else b'+')
            continue
        value = left.pop(0)
        if value is None:
            cells.append(b' ' * width)
        elif kind in ('N', 'TURN', 'JUST'):
            cells.append(b'%0*d' % (width, value))
        elif kind == 'COOR':
            cells.append(b'%0*d' % (width, abs(value[1])))
        else:
            cells.append(value.ljust(width, b' '))
    return b'|'.join(cells) + b'\r\n'


def read(k, data, n):
    if k not in LAYOUT:
        return ('NO', 60, 0)
    length = record_length(k)
    whole = len(data) // length            # a ragged tail is no record
    if n == 0 or n > whole:
        return ('NO', 66, 0)
    record = data[(n - 1) * length:n * length]
    found = breaks_of(k, record)
    if found:
        field, reason = min(found)         # by field and then reason
        return ('NO', reason, field)
    values = values_of(k, record)
    assert written(k, values) == record    # what = promises
    return ('OK', values)


def shown(value):
    if value is None:
        return b'.'
    if isinstance(value, bytes):
        return b'"' + value + b'"'
    if isinstance(value, tuple):
        return b'%+d' % value[1]
    return b'%d' % value


def line_of(answer):
    if answer[0] == 'NO':
        return b'NO %02d %02d' % (answer[1], answer[2])
    return b' '.join(shown(v) for v in answer[1]) + b' ='


def expected(name, data):
    k = int(name[0])
    out = [name.encode('ascii')]
    last = len(data) // record_length(k) + 1 if k in LAYOUT else 1
    for n in range(1, last + 1):
        out.append(b'%05d ' % n + line_of(read(k, data, n)))
    return b''.join(line + b'\n' for line in out)


# ---------------------------------------------------------------------------
# Building a record.  cells: one entry a field, bytes of the full width.
# ---------------------------------------------------------------------------

def build(k, cells, bars=None, end=b'\r\n'):
    """bars: {field number: byte that stands in the place of its bar}."""
    bars = bars or {}
    assert len(cells) == len(LAYOUT[k])
    out = b''
    for i, (cell, (name, _, width, _)) in enumerate(zip(cells, LAYOUT[k])):
        assert len(cell) == width, (k, name, cell)
        out += cell
        if i + 1 < len(cells):
            out += bars.get(i + 1, b'|')
    out += end
    assert len(out) == record_length(k)
    return out


def row_cells(k, row):
    """One row of a table: cells in field order, separated by bars, each
    without its surrounding blanks; an empty cell is a blank field.  A number
    is rebuilt at the width of section 5.5 (the printed columns of the
    coordinates are wider or narrower and don't decide); a text is ISO 8859-1
    and is filled with blanks."""
    printed = [c.strip() for c in row.split('|')]
    assert len(printed) == len(LAYOUT[k]), (k, row)
    cells = []
    for text, (name, kind, width, _) in zip(printed, LAYOUT[k]):
        if text == '':
            cells.append(b' ' * width)
        elif is_number(kind):
            assert text.isascii() and text.isdigit(), (k, name, row)
            if name not in ('X', 'Y', 'Z'):
                assert len(text) == width, (k, name, row)
            cells.append(b'%0*d' % (width, int(text)))
        else:
            cells.append(text.encode('latin-1').ljust(width, b' '))
    return cells


def table(k, text):
    rows = [r for r in text.split('\n') if r.strip() and not r.strip().startswith('#')]
    return [build(k, row_cells(k, r)) for r in rows]


# ---------------------------------------------------------------------------
# 3. The examples of chapter 10, as source 000 prints them.
#
# EXAMPLE[(example, file)] = (first line in the source text, rows, wanted)
#   wanted: None where every record is lawful; (reason, field) where every
#   record is refused so; or a list with one entry a record.  It is what the
#   transcriber expects by eye; the reader must agree (part 7).
# The columns stand in the order of the layout.  Page numbers are the ones of
# the source's own table of contents.  Lines are those of the text file.
#
# Files of the examples outside the eight (OB_SUP and PERIME of 10.3 to 10.5,
# and the metadata) are left out: document 01 leaves them for later.  No record
# of the eight files was unreadable; the readings made are noted at each table.
# ---------------------------------------------------------------------------

EXAMPLE = {}

# --- 10.1 Espagueti (from page 71) -----------------------------------------

# lines 2991 to 2995
EXAMPLE[1, 1] = (2991, '''
0190000 | X | TOPONIMO TEMA1            | Anotacion generica
0372401 | T | LAGO                      | Seccion continua de margen de lago
0512700 | P | ERMITA                    | Edificio religioso catolico aislado
0670601 | T | CARRETERA                 | Seccion continua de carretera
1010600 | P | VERTICE GEODESICO ORDEN 1 | Punto de coordenadas geodesicas
''', None)

# lines 3002 and 3003; IDOC, ID_N, the third S and P_Z print nothing: blank.
EXAMPLE[1, 2] = (3002, '''
0000000001 | | | 0512700 | Ermita del Santo | 00000 | 001 | + | 0000000003 | + | 0000000002 | |
0000000002 | | | 1010600 | Almudena         | 00000 | 001 | + | 0000000003 | + | 0000000002 | |
''', None)

# line 3008
EXAMPLE[1, 3] = (3008, '''
0000000001 | | 0190000 | HOLA | 001 | 001 | 00000 | 1 | + | 0000000002 | + | 0000000006 | |
''', None)

# lines 3013 to 3016; own id and CODIGO alone are printed.  The linear object
# (field 2) may not be missing: 24 there.
EXAMPLE[1, 5] = (3013, '''
0000000001 | | | | 0332401 | | |
0000000002 | | | | 0630601 | | |
0000000003 | | | | 0332401 | | |
0000000004 | | | | 0332401 | | |
''', (24, 2))

# lines 3021 to 3034; the first column is headed ID_TRAMO there: line id here.
EXAMPLE[1, 6] = (3021, '''
0000000001 | 00001 | + | 0000000002 | + | 0000000004 | |
0000000001 | 00002 | + | 0000000002 | + | 0000000003 | |
0000000001 | 00003 | + | 0000000003 | + | 0000000003 | |
0000000001 | 00004 | + | 0000000002 | + | 0000000004 | |
0000000002 | 00001 | + | 0000000007 | + | 0000000003 | |
0000000002 | 00002 | + | 0000000003 | + | 0000000004 | |
0000000002 | 00003 | + | 0000000005 | + | 0000000007 | |
0000000003 | 00001 | + | 0000000009 | + | 0000000001 | |
0000000003 | 00002 | + | 0000000007 | + | 0000000003 | |
0000000003 | 00003 | + | 0000000005 | + | 0000000007 | |
0000000003 | 00004 | + | 0000000004 | + | 0000000008 | |
0000000004 | 00001 | + | 0000000007 | + | 0000000003 | |
0000000004 | 00002 | + | 0000000009 | + | 0000000005 | |
0000000004 | 00003 | + | 0000000005 | + | 0000000007 | |
''', None)

# --- 10.2 Cadena-nodo (from page 77) ---------------------------------------

# lines 3332 to 3338
EXAMPLE[2, 1] = (3332, '''
0190000 | X | TOPONIMO TEMA1            | Anotacion generica
0332400 | L | LAGO                      | Margen de lago
0332401 | T | LAGO                      | Seccion continua de margen de lago
0512700 | P | ERMITA                    | Edificio religioso catolico aislado
0630600 | L | CARRETERA                 | Camino asfaltado para el trafico rodado publico
0630601 | T | CARRETERA                 | Seccion continua de carretera
1010600 | P | VERTICE GEODESICO ORDEN 1 | Punto de coordenadas geodesicas
''', None)

# lines 3345 and 3346; one id is printed under IDOC and ID_NOD.  It is read as
# the node: node 6 is the isolated one at that place (line 3400), and the
# example has no composite objects.
EXAMPLE[2, 2] = (3345, '''
0000000001 | | 0000000006 | 0512700 | Ermita del Santo | 00000 | 001 | + | 0000000003 | + | 0000000002 | |
0000000002 | | 0000000006 | 1010600 | Almudena         | 00000 | 001 | + | 0000000003 | + | 0000000002 | |
''', None)

# line 3351
EXAMPLE[2, 3] = (3351, '''
0000000001 | | 0190000 | HOLA | 001 | 001 | 00000 | 1 | + | 0000000002 | + | 0000000006 | |
''', None)

# lines 3356 to 3359; the note of line 3207 says that there are no centroids.
EXAMPLE[2, 4] = (3356, '''
0000000001 | | 0630600 | Nacional I           | | | | | |
0000000002 | | 0332400 | Orilla de Lago Menor | | | | | |
0000000003 | | 0332400 | Orilla de Lago Mayor | | | | | |
0000000004 | | 0332400 | Orilla de Lago Mayor | | | | | |
''', None)

# lines 3364 to 3369
EXAMPLE[2, 5] = (3364, '''
0000000001 | 0000000002 | | 0000000001 | 0332401 | 0000000001 | 0000000001 | +
0000000002 | 0000000001 | | 0000000002 | 0630601 | 0000000002 | 0000000003 | +
0000000003 | 0000000003 | | 0000000003 | 0332401 | 0000000003 | 0000000004 | +
0000000004 | 0000000001 | | 0000000004 | 0630601 | 0000000003 | 0000000004 | +
0000000005 | 0000000004 | | 0000000005 | 0332401 | 0000000003 | 0000000004 | +
0000000006 | 0000000001 | | 0000000006 | 0630601 | 0000000004 | 0000000005 | +
''', None)

# lines 3374 to 3389; X is printed with 8 digits and Y with 9 here.
EXAMPLE[2, 6] = (3374, '''
0000000001 | 00001 | + | 00000002 | + | 000000004 | |
0000000001 | 00002 | + | 00000002 | + | 000000003 | |
0000000001 | 00003 | + | 00000003 | + | 000000003 | |
0000000001 | 00004 | + | 00000002 | + | 000000004 | |
0000000002 | 00001 | + | 00000004 | + | 000000008 | |
0000000002 | 00002 | + | 00000005 | + | 000000007 | |
0000000003 | 00001 | + | 00000005 | + | 000000007 | |
0000000003 | 00002 | + | 00000003 | + | 000000004 | |
0000000003 | 00003 | + | 00000007 | + | 000000003 | |
0000000004 | 00001 | + | 00000005 | + | 000000007 | |
0000000004 | 00002 | + | 00000007 | + | 000000003 | |
0000000005 | 00001 | + | 00000005 | + | 000000007 | |
0000000005 | 00002 | + | 00000009 | + | 000000005 | |
0000000005 | 00003 | + | 00000007 | + | 000000003 | |
0000000006 | 00001 | + | 00000007 | + | 000000003 | |
0000000006 | 00002 | + | 00000009 | + | 000000001 | |
''', None)

# lines 3394 to 3396 and 3398 to 3400 (a page ends between)
EXAMPLE[2, 7] = (3394, '''
0000000001 | E | + | 000000002 | + | 0000000004 | |
0000000002 | E | + | 000000004 | + | 0000000008 | |
0000000003 | E | + | 000000005 | + | 0000000007 | |
0000000004 | E | + | 000000007 | + | 0000000003 | |
0000000005 | E | + | 000000009 | + | 0000000001 | |
0000000006 | A | + | 000000003 | + | 0000000002 | |
''', None)

# --- 10.3 Topologia completa (from page 85) --------------------------------
# All sign columns of this example print nothing while X and Y are printed:
# they are read as blank, which is 24 at the sign of X.

# lines 3677 to 3686; type S stands outside the domain: 25.
EXAMPLE[3, 1] = (3677, '''
0190000 | X | TOPONIMO TEMA1       | Anotacion generica
0352400 | S | LAGO                 | Deposito natural de agua al aire libre
0352401 | T | LAGO                 | Seccion continua de margen de lago
0512700 | P | ERMITA               | Edificio religioso catolico aislado
1010600 | P | VERTICE GEOD ORDEN 1 | Punto de coordenadas geodesicas
0251000 | S | CAMPO ABIERTO        | Zona de campo abierto
0251001 | T | CAMPO ABIERTO        | Limite de campo abierto
0300100 | C | LAGO COMPUESTO       | Lago compuesto de varios lagos simples
1050100 | S | COMPLEMENTARIO       | Superficie complementaria que completa el plano
1050101 | T | COMPLEMENTARIO       | Seccion continua de limite del complementario
''', [None, (25, 2), None, None, None, (25, 2), None, None, (25, 2), None])

# lines 3696 and 3697
EXAMPLE[3, 2] = (3696, '''
0000000001 | 0000000000 | 0000000006 | 0512700 | Ermita del Santo | 00000 | 000 | | 0000000003 | | 0000000002 | |
0000000002 | 0000000000 | 0000000006 | 1010600 | Almudena         | 00000 | 000 | | 0000000003 | | 0000000002 | |
''', (24, 8))

# line 3702
EXAMPLE[3, 3] = (3702, '''
0000000001 | 0000000000 | 0190000 | HOLA | 001 | 001 | 00000 | 1 | | 0000000002 | | 0000000006 | |
''', (24, 9))

# line 3691; like the others without its signs
EXAMPLE[3, 8] = (3691, '''
0000000001 | 0300100 | Lago Mayor | | 000000000 | | 0000000000 | |
''', (24, 4))

# lines 3728 and 3732 to 3746; linear object 0 is an id like others (R10).
EXAMPLE[3, 5] = (3728, '''
0000000001 | 0000000000 | 0000000001 | 0000000001 | 0332401 | 0000000001 | 0000000001 | +
0000000002 | 0000000000 | 0000000002 | 0000000002 | 0251001 | 0000000002 | 0000000003 | +
0000000003 | 0000000000 | 0000000002 | 0000000003 | 0251001 | 0000000003 | 0000000004 | +
0000000004 | 0000000000 | 0000000002 | 0000000006 | 0251001 | 0000000004 | 0000000005 | +
0000000005 | 0000000000 | 0000000002 | 0000000007 | 0251001 | 0000000005 | 0000000002 | +
0000000006 | 0000000000 | 0000000003 | 0000000001 | 0251001 | 0000000001 | 0000000001 | -
0000000007 | 0000000000 | 0000000004 | 0000000003 | 0332401 | 0000000003 | 0000000004 | +
0000000008 | 0000000000 | 0000000004 | 0000000004 | 0332401 | 0000000004 | 0000000003 | -
0000000009 | 0000000000 | 0000000005 | 0000000005 | 0332401 | 0000000003 | 0000000004 | +
0000000010 | 0000000000 | 0000000005 | 0000000004 | 0332401 | 0000000004 | 0000000003 | -
0000000011 | 0000000000 | 0000000006 | 0000000002 | 0251001 | 0000000002 | 0000000003 | -
0000000012 | 0000000000 | 0000000006 | 0000000008 | 0251001 | 0000000003 | 0000000004 | +
0000000013 | 0000000000 | 0000000006 | 0000000006 | 0251001 | 0000000004 | 0000000005 | +
0000000014 | 0000000000 | 0000000006 | 0000000005 | 0251001 | 0000000005 | 0000000002 | -
0000000015 | 0000000000 | 0000000007 | 0000000008 | 1050101 | 0000000002 | 0000000005 | +
0000000016 | 0000000000 | 0000000007 | 0000000007 | 1050101 | 0000000005 | 0000000002 | +
''', None)

# lines 3753 to 3776
EXAMPLE[3, 6] = (3753, '''
0000000001 | 00001 | | 000000002 | | 0000000004 | |
0000000001 | 00002 | | 000000002 | | 0000000003 | |
0000000001 | 00003 | | 000000003 | | 0000000003 | |
0000000001 | 00004 | | 000000002 | | 0000000004 | |
0000000002 | 00001 | | 000000004 | | 0000000008 | |
0000000002 | 00002 | | 000000005 | | 0000000007 | |
0000000003 | 00001 | | 000000005 | | 0000000007 | |
0000000003 | 00002 | | 000000003 | | 0000000004 | |
0000000003 | 00003 | | 000000007 | | 0000000003 | |
0000000004 | 00001 | | 000000005 | | 0000000007 | |
0000000004 | 00002 | | 000000007 | | 0000000003 | |
0000000005 | 00001 | | 000000005 | | 0000000007 | |
0000000005 | 00002 | | 000000009 | | 0000000005 | |
0000000005 | 00003 | | 000000007 | | 0000000003 | |
0000000006 | 00001 | | 000000007 | | 0000000003 | |
0000000006 | 00002 | | 000000009 | | 0000000001 | |
0000000007 | 00001 | | 000000009 | | 0000000001 | |
0000000007 | 00002 | | 000000001 | | 0000000001 | |
0000000007 | 00003 | | 000000001 | | 0000000008 | |
0000000007 | 00004 | | 000000004 | | 0000000008 | |
0000000008 | 00001 | | 000000004 | | 0000000008 | |
0000000008 | 00002 | | 000000010 | | 0000000008 | |
0000000008 | 00003 | | 000000010 | | 0000000001 | |
0000000008 | 00004 | | 000000009 | | 0000000001 | |
''', (24, 3))

# lines 3781 to 3786
EXAMPLE[3, 7] = (3781, '''
0000000001 | E | | 000000002 | | 0000000004 | |
0000000002 | E | | 000000004 | | 0000000008 | |
0000000003 | E | | 000000005 | | 0000000007 | |
0000000004 | E | | 000000007 | | 0000000003 | |
0000000005 | E | | 000000009 | | 0000000001 | |
0000000006 | A | | 000000003 | | 0000000002 | |
''', (24, 3))

# --- 10.4 Topologia parcial, caso 1 (from page 93) -------------------------

# lines 4068 to 4074; type L of 0352400 as printed (10.3 and 10.5 print S).
EXAMPLE[4, 1] = (4068, '''
0190000 | X | TOPONIMO TEMA 1           | Anotacion generica
0352400 | L | LAGO                      | Deposito natural de agua al aire libre
0352401 | T | LAGO                      | Seccion continua de margen de lago
0512700 | P | ERMITA                    | Edificio religioso catolico aislado
0630600 | L | CARRETERA                 | Camino asfaltado para el trafico rodado publico
0630601 | T | CARRETERA                 | Seccion continua de carretera
1010600 | P | VERTICE GEODESICO ORDEN 1 | Punto de coordenadas geodesicas
''', None)

# lines 4079 and 4080; the sign of Z is printed + and Z is blank: 24 at Z.
EXAMPLE[4, 2] = (4079, '''
0000000001 | | 0000000006 | 0512700 | Ermita del Santo | 00000 | 000 | + | 0000000003 | + | 0000000002 | + |
0000000002 | | 0000000006 | 1010600 | Almudena         | 00000 | 000 | + | 0000000003 | + | 0000000002 | + |
''', (24, 13))

# line 4085; nothing is printed for Z, neither sign nor number: both blank.
EXAMPLE[4, 3] = (4085, '''
0000000001 | | 0190000 | HOLA | 001 | 001 | 00000 | 1 | + | 0000000002 | + | 0000000006 | |
''', None)

# line 4090; three signs + and no numbers: 24 at X.
EXAMPLE[4, 4] = (4090, '''
0000000001 | | 0630600 | NACIONAL 1 | + | | + | | + |
''', (24, 6))

# lines 4107 to 4112; tramos of a perimeter have no linear object: 24.
EXAMPLE[4, 5] = (4107, '''
0000000001 |            | 0000000001 | 0000000001 | 0332401 | 0000000001 | 0000000001 | +
0000000002 | 0000000001 |            | 0000000002 | 0630601 | 0000000002 | 0000000003 | +
0000000003 |            | 0000000002 | 0000000003 | 0332401 | 0000000003 | 0000000004 | +
0000000004 | 0000000001 |            | 0000000004 | 0630601 | 0000000003 | 0000000004 | +
0000000005 |            | 0000000002 | 0000000005 | 0332401 | 0000000004 | 0000000003 | -
0000000006 | 0000000001 |            | 0000000006 | 0630601 | 0000000004 | 0000000005 | +
''', [(24, 2), None, (24, 2), None, (24, 2), None])

# lines 4117 to 4132; sign of Z + and Z blank: 24 at Z.
EXAMPLE[4, 6] = (4117, '''
0000000001 | 00001 | + | 0000000002 | + | 0000000004 | + |
0000000001 | 00002 | + | 0000000002 | + | 0000000003 | + |
0000000001 | 00003 | + | 0000000003 | + | 0000000003 | + |
0000000001 | 00004 | + | 0000000002 | + | 0000000004 | + |
0000000002 | 00001 | + | 0000000004 | + | 0000000008 | + |
0000000002 | 00002 | + | 0000000005 | + | 0000000007 | + |
0000000003 | 00001 | + | 0000000005 | + | 0000000007 | + |
0000000003 | 00002 | + | 0000000003 | + | 0000000004 | + |
0000000003 | 00003 | + | 0000000007 | + | 0000000003 | + |
0000000004 | 00001 | + | 0000000005 | + | 0000000007 | + |
0000000004 | 00002 | + | 0000000007 | + | 0000000003 | + |
0000000005 | 00001 | + | 0000000007 | + | 0000000003 | + |
0000000005 | 00002 | + | 0000000009 | + | 0000000005 | + |
0000000005 | 00003 | + | 0000000005 | + | 0000000007 | + |
0000000006 | 00001 | + | 0000000007 | + | 0000000003 | + |
0000000006 | 00002 | + | 0000000009 | + | 0000000001 | + |
''', (24, 8))

# lines 4139 to 4144; sign of Z + and Z blank: 24 at Z.
EXAMPLE[4, 7] = (4139, '''
0000000001 | C | + | 0000000002 | + | 0000000004 | + |
0000000002 | C | + | 0000000004 | + | 0000000008 | + |
0000000003 | C | + | 0000000005 | + | 0000000007 | + |
0000000004 | C | + | 0000000007 | + | 0000000003 | + |
0000000005 | C | + | 0000000009 | + | 0000000001 | + |
0000000006 | A | + | 0000000003 | + | 0000000002 | + |
''', (24, 8))

# --- 10.5 Topologia parcial, caso 2 (from page 101) ------------------------

# lines 4396 to 4404; the accent of "Sección" is in the source.
EXAMPLE[5, 1] = (4396, '''
0190000 | X | TOPONIMO TEMA 1           | Anotacion generica
0352400 | S | LAGO                      | Deposito natural de agua al aire libre
0352401 | T | LAGO                      | Seccion continua de margen de lago
0512700 | P | ERMITA                    | Edificio religioso catolico aislado
0630600 | L | CARRETERA                 | Camino asfaltado para el trafico rodado publico
0630601 | T | CARRETERA                 | Camino asfaltado para el trafico rodado publico
0730200 | L | LINEA ELECTRICA >110KW    | Linea electrica de alta tension
0730201 | T | LINEA ELECTRICA >110KW    | Sección de linea electrica de alta tension
1010600 | P | VERTICE GEODESICO ORDEN 1 | Punto de coordenadas geodesicas
''', [None, (25, 2), None, None, None, None, None, None, None])

# lines 4409 and 4411 (a page ends between)
EXAMPLE[5, 2] = (4409, '''
0000000001 | | 0000000006 | 0512700 | Ermita del Santo | 00000 | 000 | + | 0000000003 | + | 0000000002 | |
0000000002 | | 0000000006 | 1010600 | Almudena         | 00000 | 000 | + | 0000000003 | + | 0000000002 | |
''', None)

# line 4416
EXAMPLE[5, 3] = (4416, '''
0000000001 | | 0190000 | HOLA | 001 | 001 | 00000 | 1 | + | 0000000002 | + | 0000000006 | |
''', None)

# lines 4421 and 4422; the six centroid columns print blanks alone.
EXAMPLE[5, 4] = (4421, '''
0000000001 | | 0630600 | NACIONAL I                        | | | | | |
0000000002 | | 0730201 | LINEA DE ALTA TENSION DE S.MARTIN | | | | | |
''', None)

# lines 4439 to 4447
EXAMPLE[5, 5] = (4439, '''
0000000001 |            | 0000000001 | 0000000001 | 0332401 | 0000000001 | 0000000001 | +
0000000002 | 0000000001 |            | 0000000002 | 0630601 | 0000000002 | 0000000003 | +
0000000003 | 0000000002 |            | 0000000003 | 0730201 | 0000000003 | 0000000004 | +
0000000004 |            | 0000000002 | 0000000003 | 0332401 | 0000000003 | 0000000004 | +
0000000005 | 0000000001 |            | 0000000004 | 0630601 | 0000000003 | 0000000004 | +
0000000006 |            | 0000000002 | 0000000005 | 0332401 | 0000000004 | 0000000003 | -
0000000007 | 0000000001 |            | 0000000006 | 0332401 | 0000000004 | 0000000005 | +
0000000008 | 0000000002 |            | 0000000007 | 0730101 | 0000000007 | 0000000003 | +
0000000009 | 0000000002 |            | 0000000008 | 0730101 | 0000000004 | 0000000008 | +
''', [(24, 2), None, None, (24, 2), None, (24, 2), None, None, None])

# lines 4452 to 4463 and 4467 to 4474 (a page ends between)
EXAMPLE[5, 6] = (4452, '''
0000000001 | 00001 | + | 0000000002 | + | 0000000004 | |
0000000001 | 00002 | + | 0000000002 | + | 0000000003 | |
0000000001 | 00003 | + | 0000000003 | + | 0000000003 | |
0000000001 | 00004 | + | 0000000002 | + | 0000000004 | |
0000000002 | 00001 | + | 0000000004 | + | 0000000008 | |
0000000002 | 00002 | + | 0000000005 | + | 0000000007 | |
0000000003 | 00001 | + | 0000000005 | + | 0000000007 | |
0000000003 | 00002 | + | 0000000003 | + | 0000000004 | |
0000000003 | 00003 | + | 0000000007 | + | 0000000003 | |
0000000004 | 00001 | + | 0000000005 | + | 0000000007 | |
0000000004 | 00002 | + | 0000000007 | + | 0000000003 | |
0000000005 | 00001 | + | 0000000007 | + | 0000000003 | |
0000000005 | 00002 | + | 0000000009 | + | 0000000005 | |
0000000005 | 00003 | + | 0000000005 | + | 0000000007 | |
0000000006 | 00001 | + | 0000000007 | + | 0000000003 | |
0000000006 | 00002 | + | 0000000009 | + | 0000000001 | |
0000000007 | 00001 | + | 0000000003 | + | 0000000008 | |
0000000007 | 00002 | + | 0000000005 | + | 0000000007 | |
0000000008 | 00001 | + | 0000000007 | + | 0000000003 | |
0000000008 | 00002 | + | 0000000006 | + | 0000000001 | |
''', None)

# lines 4483 to 4490
EXAMPLE[5, 7] = (4483, '''
0000000001 | E | + | 0000000002 | + | 0000000004 | |
0000000002 | E | + | 0000000004 | + | 0000000008 | |
0000000003 | H | + | 0000000005 | + | 0000000007 | |
0000000004 | H | + | 0000000007 | + | 0000000003 | |
0000000005 | E | + | 0000000009 | + | 0000000001 | |
0000000006 | A | + | 0000000003 | + | 0000000002 | |
0000000007 | E | + | 0000000003 | + | 0000000008 | |
0000000008 | E | + | 0000000006 | + | 0000000001 | |
''', None)

# ---------------------------------------------------------------------------
# 4. The small delivery S (document 01, "The verdict program").  Every field
#    not named there is blank.
# ---------------------------------------------------------------------------

S = {
    1: '''
0100000 | L | |
0100001 | T | |
''',
    4: '''
0000000001 | | 0100000 | | | | | | |
''',
    5: '''
0000000001 | 0000000001 | | | 0100001 | 0000000001 | 0000000002 |
''',
    6: '''
0000000001 | 00001 | + | 100 | + | 200 | |
0000000001 | 00002 | + | 140 | + | 200 | |
''',
    7: '''
0000000001 | | + | 100 | + | 200 | |
0000000002 | | + | 140 | + | 200 | |
''',
}

NODE_1 = b'0000000001| |+|000000100|+|0000000200| |        \r\n'   # as printed

# ---------------------------------------------------------------------------
# 5. Damage.  One lawful record a file, of this script's own making, with
#    every optional part filled and all numbers different.
# ---------------------------------------------------------------------------

WHOLE = {
    1: '0330402 | T | Río intermitente | Tramo de cauce',
    2: '0000002101 | 0000002202 | 0000002303 | 0512700 | Ermita de la Peña'
       ' | 24059 | 027 | - | 000002909 | + | 0000002111 | - | 00002313',
    3: '0000003101 | 0000003202 | 0190000 | Año de 1996'
       ' | 035 | 036 | 30759 | 8 | + | 000003110 | - | 0000003312 | + | 00003514',
    4: '0000004101 | 0000004202 | 0630600 | Nacional I'
       ' | - | 000004606 | - | 0000004808 | - | 00004010',
    5: '0000005101 | 0000005202 | 0000005303 | 0000005404 | 0630601'
       ' | 0000005606 | 0000005707 | -',
    6: '0000006101 | 00602 | - | 000006404 | + | 0000006606 | - | 00006808',
    7: '0000007101 | H | + | 000007404 | - | 0000007606 | - | 00007808',
    8: '0000008101 | 0300100 | Red de desagüe'
       ' | + | 000008505 | - | 0000008707 | + | 00008909',
}


class Damage:
    """Copies of the whole record of file k, each with a want: None where the
    copy is lawful, else (reason, field).  The want is said by hand at each
    case; the reader above must agree (part 7)."""

    def __init__(self, k):
        self.k = k
        self.base = row_cells(k, WHOLE[k])
        self.records, self.wants, self.notes = [], [], []

    def put(self, note, want, change=None, bars=None, end=b'\r\n'):
        """change: {field number: new bytes, filled with blanks to the width}."""
        cells = list(self.base)
        for no, new in (change or {}).items():
            cells[no - 1] = new.ljust(LAYOUT[self.k][no - 1][2], b' ')
        record = build(self.k, cells, bars, end)
        if record in self.records:         # the same damage by another way
            assert self.wants[self.records.index(record)] == want, note
            return
        self.records.append(record)
        self.wants.append(want)
        self.notes.append(note)

    def kind(self, no):
        return LAYOUT[self.k][no - 1][1]

    def width(self, no):
        return LAYOUT[self.k][no - 1][2]

    def numbers(self):
        return range(1, len(LAYOUT[self.k]) + 1)

    def byte(self, no, at, b):
        """The base's field with one byte replaced."""
        cell = bytearray(self.base[no - 1])
        cell[at] = b
        return bytes(cell)


# Document 01's list of what may not be missing, by field number, in a record
# where all else is present: the demanded fields, and both halves of every
# sign and number.  Written out by hand, apart from LAYOUT.
NOT_BLANK = {
    1: {1, 2},
    2: {1, 4, 8, 9, 10, 11, 12, 13},
    3: {1, 3, 5, 8, 9, 10, 11, 12, 13, 14},
    4: {1, 3, 5, 6, 7, 8, 9, 10},
    5: {1, 2, 5, 6, 7},
    6: {1, 2, 3, 4, 5, 6, 7, 8},
    7: {1, 3, 4, 5, 6, 7, 8},
    8: {1, 2, 4, 5, 6, 7, 8, 9},
}


def common_damage(d):
    """The kinds of damage that every file gets, field by field."""
    last = max(d.numbers())

    d.put('whole', None)

    # each field with its first byte replaced by byte 00
    for no in d.numbers():
        d.put('00 at first byte of %d' % no,
              (22 if is_number(d.kind(no)) else 23, no),
              {no: d.byte(no, 0, 0x00)})

    # each N field with its last byte replaced by ?
    for no in d.numbers():
        if is_number(d.kind(no)):
            d.put('? at last byte of %d' % no, (22, no),
                  {no: d.byte(no, -1, 0x3F)})

    # each field blanked whole
    for no in d.numbers():
        d.put('blank %d' % no, (24, no) if no in NOT_BLANK[d.k] else None,
              {no: b''})

    # each bar replaced by ;
    for no in d.numbers():
        if no < last:
            d.put('; for bar %d' % no, (21, no), bars={no: b';'})

    # the end
    d.put('0D replaced', (20, 0), end=b' \n')
    d.put('0A replaced', (20, 0), end=b'\r ')
    d.put('0D and 0A exchanged', (20, 0), end=b'\n\r')


def orders(d, harmed_no, blank_no):
    """Several breaks in one record: the least field first, then the least
    reason.  harmed_no: a field to damage; blank_no: one that may not be blank,
    with a lower number than the last."""
    last = max(d.numbers())
    harm = 22 if is_number(d.kind(harmed_no)) else 23
    d.put('end broken and field %d harmed' % harmed_no, (20, 0),
          {harmed_no: d.byte(harmed_no, 0, 0x00)}, end=b'  ')
    d.put('all bars ; and end broken', (20, 0),
          bars={no: b';' for no in d.numbers() if no < last}, end=b'|\n')
    d.put('all bars ;', (21, 1), bars={no: b';' for no in d.numbers() if no < last})
    d.put('bar %d broken and its field harmed' % harmed_no, (21, harmed_no),
          {harmed_no: d.byte(harmed_no, 0, 0x00)}, bars={harmed_no: b';'})
    d.put('bar %d broken and its field blank' % blank_no, (21, blank_no),
          {blank_no: b''}, bars={blank_no: b';'})
    first, second = sorted((harmed_no, blank_no))
    d.put('field %d harmed, field %d blank' % (harmed_no, blank_no),
          (harm, harmed_no) if first == harmed_no else (24, blank_no),
          {harmed_no: d.byte(harmed_no, 0, 0x00), blank_no: b''})
    d.put('field %d broken, bar %d broken' % (first, second),
          (harm, first) if first == harmed_no else (24, first),
          {first: d.byte(first, 0, 0x00) if first == harmed_no else b''},
          bars={second: b' '})


def text_damage(d, no, code):
    """A text field of more than one byte: bars, blanks, bytes."""
    w = d.width(no)
    at = 1
    d.put('bar inside text %d' % no, None, {no: d.byte(no, at, 0x7C)})
    d.put('text %d begins in a blank' % no, (23, no), {no: d.byte(no, 0, 0x20)})
    d.put('text %d blank but its last byte' % no, (23, no), {no: b' ' * (w - 1) + b'x'})
    for b in (0x1F, 0x7F, 0x80, 0x9F):
        d.put('%02X in text %d' % (b, no), (23, no), {no: d.byte(no, at, b)})
    d.put('7F at last byte of text %d' % no, (23, no), {no: d.byte(no, -1, 0x7F)})
    for b in (0x7E, 0xA0, 0xA1, 0xFF):
        d.put('%02X in text %d' % (b, no), None, {no: d.byte(no, at, b)})
    a0_damage(d, no)
    if code:
        # CODIGO (R08)
        d.put('CODIGO NA', (24, no), {no: b'NA'})
        d.put('CODIGO ND', (24, no), {no: b'ND'})
        d.put('CODIGO blank and NA', (23, no), {no: b' NA'})
        d.put('CODIGO na', None, {no: b'na'})
        d.put('CODIGO N.D.', None, {no: b'N.D.'})
        d.put('CODIGO NA and A0', (23, no), {no: b'NA\xa0'})
        d.put('CODIGO ND and A0', (23, no), {no: b'ND\xa0\xa0'})
        d.put('CODIGO A0 and NA', (23, no), {no: b'\xa0NA'})
        d.put('CODIGO NA, A0 and A', None, {no: b'NA\xa0A'})
        d.put('CODIGO NA and A1', None, {no: b'NA\xa1'})
    else:
        # NA and ND are texts of their own; a text may fill the field
        d.put('text %d NA' % no, None, {no: b'NA'})
        d.put('text %d ND' % no, None, {no: b'ND'})
        d.put('text %d NA and A0' % no, (23, no), {no: b'NA\xa0'})
        d.put('text %d all bars' % no, None, {no: b'|' * w})


def a0_damage(d, no):
    """W-202: A0 first, last, before trailing blanks, alone; and near misses.
    A0 is no blank (R07), so a field of it isn't missing."""
    w = d.width(no)
    d.put('A0 first in text %d' % no, (23, no), {no: d.byte(no, 0, 0xA0)})
    d.put('A1 first in text %d' % no, None, {no: d.byte(no, 0, 0xA1)})
    d.put('A0 last in text %d' % no, (23, no), {no: b'x' * (w - 1) + b'\xa0'})
    d.put('A1 last in text %d' % no, None, {no: b'x' * (w - 1) + b'\xa1'})
    d.put('A0 last but one in text %d' % no, None,
          {no: b'x' * (w - 2) + b'\xa0x'})
    d.put('A0 before blanks in text %d' % no, (23, no), {no: b'x\xa0'})
    d.put('A1 before blanks in text %d' % no, None, {no: b'x\xa1'})
    d.put('text %d between A0' % no, (23, no), {no: b'\xa0x\xa0'})
    d.put('A0 between in text %d' % no, None, {no: b'x\xa0x'})
    d.put('A0 and blanks between in text %d' % no, None, {no: b'x \xa0 x'})
    d.put('A0 alone in text %d' % no, (23, no), {no: b'\xa0'})
    d.put('A1 alone in text %d' % no, None, {no: b'\xa1'})
    d.put('text %d all A0' % no, (23, no), {no: b'\xa0' * w})
    d.put('blank and A0 in text %d' % no, (23, no), {no: b' \xa0'})


def more_codes(d, no):
    """Some codes more, told once (in the catalogue)."""
    d.put('CODIGO NAD', None, {no: b'NAD'})
    d.put('CODIGO N A', None, {no: b'N A'})
    d.put('CODIGO NA NA', None, {no: b'NA NA'})


def sign_damage(d, first):
    """The three signs of a position or centroid whose six fields begin at
    field `first`: outside + and -, - before zero, - before a blank number."""
    for sign_no in (first, first + 2, first + 4):
        number_no = sign_no + 1
        zeros = b'0' * d.width(number_no)
        for s in (b'*', b'0', b'\xa1'):
            d.put('sign %r at %d' % (s, sign_no), (25, sign_no), {sign_no: s})
        d.put('sign A0 at %d' % sign_no, (23, sign_no), {sign_no: b'\xa0'})
        d.put('- before zero at %d' % sign_no, (25, sign_no),
              {sign_no: b'-', number_no: zeros})
        d.put('+ before zero at %d' % sign_no, None,
              {sign_no: b'+', number_no: zeros})
        d.put('- before a blank number at %d' % sign_no, (24, number_no),
              {sign_no: b'-', number_no: b''})


# sign by number, for one coordinate (R05, R06).  s: told at the sign,
# n: told at the number.  The first row's first entry differs for Z, which may
# be missing whole.
#                   blank     zero      one       damaged
SIGN_BY_NUMBER = {
    b' ':         ('24 s',   '24 s',   '24 s',   '24 s'),
    b'+':         ('24 n',   'lawful', 'lawful', '22 n'),
    b'-':         ('24 n',   '25 s',   'lawful', '22 n'),
    b'*':         ('25 s',   '25 s',   '25 s',   '25 s'),
    b'\x9f':      ('23 s',   '23 s',   '23 s',   '23 s'),
    b'\xa0':      ('23 s',   '23 s',   '23 s',   '23 s'),
}


def sign_by_number(d, sign_no, may_miss):
    number_no = sign_no + 1
    w = d.width(number_no)
    numbers = (b' ' * w, b'0' * w, b'0' * (w - 1) + b'1', b' ' * (w - 2) + b'11')
    for sign, row in SIGN_BY_NUMBER.items():
        for number, told in zip(numbers, row):
            if may_miss and sign == b' ' and number == numbers[0]:
                told = 'lawful'
            want = None
            if told != 'lawful':
                want = (int(told[:2]), sign_no if told[3] == 's' else number_no)
            d.put('sign %r number %r' % (sign, number), want,
                  {sign_no: sign, number_no: number})


def number_damage(d, no):
    """An N field: bytes beside the digits, blanks in part, a sign, A0."""
    w = d.width(no)
    d.put('2F in %d' % no, (22, no), {no: d.byte(no, -1, 0x2F)})
    d.put('3A in %d' % no, (22, no), {no: d.byte(no, -1, 0x3A)})
    if w > 1:
        d.put('leading blank in %d' % no, (22, no), {no: d.byte(no, 0, 0x20)})
        d.put('trailing blank in %d' % no, (22, no), {no: d.byte(no, -1, 0x20)})
    d.put('+ at first byte of %d' % no, (22, no), {no: d.byte(no, 0, 0x2B)})
    d.put('bar at last byte of %d' % no, (22, no), {no: d.byte(no, -1, 0x7C)})
    d.put('all A0 in %d' % no, (22, no), {no: b'\xa0' * w})


def extremes(d):
    """Lawful: all numbers greatest, with - before them; all numbers least with
    +.  An orientation is at most 35959, a justification at least 1."""
    nines, zeros = {}, {}
    for no in d.numbers():
        if is_number(d.kind(no)):
            nines[no] = b'9' * d.width(no)
            zeros[no] = b'0' * d.width(no)
            if d.kind(no) == 'TURN':
                nines[no] = b'35959'
            if d.kind(no) == 'JUST':
                zeros[no] = b'1'
        elif d.kind(no) == 'SIGN':
            nines[no] = b'-'
            zeros[no] = b'+'
    d.put('all numbers greatest', None, nines)
    d.put('all numbers least', None, zeros)
    # all that may be missing missing: optional fields, and Z or the centroid
    spare = {}
    for no in d.numbers():
        if no not in NOT_BLANK[d.k]:
            spare[no] = b''
        elif LAYOUT[d.k][no - 1][0] in ('SIGNO_Z', 'Z'):
            spare[no] = b''
        elif no >= CENTROID_AT.get(d.k, len(LAYOUT[d.k]) + 1):
            spare[no] = b''
    d.put('all that may be missing', None, spare)


def turn_damage(d, no):
    """An orientation: degrees past 359, minutes past 59, and near misses."""
    for angle in (b'00000', b'00059', b'00100', b'09959', b'35900', b'35959'):
        d.put('orientation %r' % angle, None, {no: angle})
    for angle in (b'00060', b'00099', b'35960', b'36000', b'36059', b'36060',
                  b'99959', b'99999'):
        d.put('orientation %r' % angle, (25, no), {no: angle})
    d.put('orientation 359 and blanks', (22, no), {no: b'359'})
    d.put('orientation 360.0', (22, no), {no: b'360.0'})


def damage_1():
    d = Damage(1)
    common_damage(d)
    for t in b'PXLC':
        d.put('TIPO %c' % t, None, {2: bytes([t])})
    for t in (b'S', b'p', b'c', b'|', b'?', b'\xa1'):
        d.put('TIPO %r' % t, (25, 2), {2: t})
    for t in (b'\x9f', b'\x7f', b'\xa0'):
        d.put('TIPO %r' % t, (23, 2), {2: t})
    text_damage(d, 1, True)
    more_codes(d, 1)
    text_damage(d, 3, False)
    text_damage(d, 4, False)
    d.put('all texts full', None, {1: b'ABC-123', 3: b'N' * 60, 4: b'\xd1' * 60})
    d.put('only what may not be missing', None, {3: b'', 4: b''})
    orders(d, 1, 2)
    return d


def damage_2():
    d = Damage(2)
    common_damage(d)
    text_damage(d, 4, True)
    text_damage(d, 5, False)
    sign_damage(d, 8)
    turn_damage(d, 6)
    number_damage(d, 7)
    extremes(d)
    orders(d, 9, 4)
    return d


def damage_3():
    d = Damage(3)
    common_damage(d)
    text_damage(d, 3, True)
    text_damage(d, 4, False)
    sign_damage(d, 9)
    turn_damage(d, 7)
    for j in b'123456789':
        d.put('justification %c' % j, None, {8: bytes([j])})
    d.put('justification 0', (25, 8), {8: b'0'})
    number_damage(d, 8)
    extremes(d)
    orders(d, 3, 5)
    return d


def damage_4():
    d = Damage(4)
    common_damage(d)
    text_damage(d, 3, True)
    text_damage(d, 4, False)
    sign_damage(d, 5)
    extremes(d)
    orders(d, 6, 3)
    centroid_damage(d)
    return d


def centroid_damage(d):
    """Each subset of the centroid's six fields blank, the rest as in the whole
    record (so each subset of the three coordinates, each single field blank,
    and each single field present, are among them).  If any is present, the
    first four are; the last two go together."""
    first = CENTROID_AT[d.k]
    six_nos = range(first, first + 6)
    sign_x, x, _, y, sign_z, z = six_nos
    for mask in range(64):
        present = [no for i, no in enumerate(six_nos) if mask >> i & 1]
        blanks = [no for no in six_nos if no not in present]
        want = None
        if present:
            wrong = [no for no in range(first, first + 4) if no not in present]
            if (sign_z in present) != (z in present):
                wrong.append(sign_z if z in present else z)
            if wrong:
                want = (24, min(wrong))
        d.put('centroid fields %s present' % present, want, {no: b'' for no in blanks})
    # Damaged and out of domain count as present (R05).
    none = {no: b'' for no in six_nos}
    d.put('only X, damaged', (24, sign_x), {**none, x: b'       11'})
    d.put('only Y, damaged', (24, sign_x), {**none, y: b'0000000x11'})
    d.put('only Z, damaged', (24, sign_x), {**none, z: b'      11'})
    d.put('only sign of X, *', (25, sign_x), {**none, sign_x: b'*'})
    d.put('only sign of X, 9F', (23, sign_x), {**none, sign_x: b'\x9f'})
    d.put('only sign of Z, *', (24, sign_x), {**none, sign_z: b'*'})
    d.put('only sign of Z, 00', (24, sign_x), {**none, sign_z: b'\x00'})


def damage_5():
    d = Damage(5)
    common_damage(d)
    text_damage(d, 5, True)
    d.put('sense +', None, {8: b'+'})
    for s in (b'*', b'0', b'|', b'\xa1'):
        d.put('sense %r' % s, (25, 8), {8: s})
    for s in (b'\x1f', b'\x7f', b'\x9f', b'\xa0'):
        d.put('sense %r' % s, (23, 8), {8: s})
    number_damage(d, 4)
    extremes(d)
    orders(d, 4, 2)
    return d


def damage_6():
    d = Damage(6)
    common_damage(d)
    sign_damage(d, 3)
    sign_by_number(d, 5, False)
    sign_by_number(d, 7, True)
    number_damage(d, 2)
    extremes(d)
    orders(d, 4, 2)
    return d


def damage_7():
    d = Damage(7)
    common_damage(d)
    sign_damage(d, 3)
    sign_by_number(d, 3, False)
    sign_by_number(d, 7, True)
    # NODO TIPO: a code of 5.6.11 in capitals, or blank (W-203)
    for t in (b'A', b'C', b'E', b'I', b'H'):
        d.put('TIPO %r' % t, None, {2: t})
    for t in (b'a', b'e', b'h', b'P', b'B', b'D', b'?', b'|', b'0', b'\x7e', b'\xa1', b'\xff'):
        d.put('TIPO %r' % t, (25, 2), {2: t})
    for t in (b'\x1f', b'\x7f', b'\x80', b'\x9f', b'\xa0'):
        d.put('TIPO %r' % t, (23, 2), {2: t})
    number_damage(d, 1)
    extremes(d)
    orders(d, 1, 3)
    return d


def damage_8():
    d = Damage(8)
    common_damage(d)
    text_damage(d, 2, True)
    text_damage(d, 3, False)
    sign_damage(d, 4)
    number_damage(d, 1)
    extremes(d)
    orders(d, 5, 2)
    centroid_damage(d)
    return d


DAMAGE = {1: damage_1, 2: damage_2, 3: damage_3, 4: damage_4,
          5: damage_5, 6: damage_6, 7: damage_7, 8: damage_8}

LIMIT = 8192        # every data file stays under this many bytes
MOST = 80           # and has no more records than this


def in_files(k, label, records):
    """One name if the records fit, else label1, label2, .. of like length."""
    most = min(MOST, (LIMIT - 1) // record_length(k))
    parts = -(-len(records) // most)
    if parts == 1:
        return [('%d-%s' % (k, label), records)]
    each = -(-len(records) // parts)
    return [('%d-%s%d' % (k, label, p + 1), records[p * each:(p + 1) * each])
            for p in range(parts)]


# ---------------------------------------------------------------------------
# 6 and putting together: [(name, bytes)] in the order of `args`
# ---------------------------------------------------------------------------

def all_files():
    files = []

    # (a) example 10.2, (b) examples 10.1, 10.3, 10.4, 10.5
    for example in (2, 1, 3, 4, 5):
        for k in LAYOUT:
            if (example, k) in EXAMPLE:
                _, rows, _ = EXAMPLE[example, k]
                files.append(('%d-ej%d' % (k, example), b''.join(table(k, rows))))

    # (c) S
    for k in sorted(S):
        files.append(('%d-s' % k, b''.join(table(k, S[k]))))
    nodes = b''.join(table(7, S[7]))

    # (d) damage
    for k in LAYOUT:
        for name, records in in_files(k, 'damaged', DAMAGE[k]().records):
            files.append((name, b''.join(records)))

    # (e) file numbers outside 1 to 8
    files.append(('9-nofile', nodes))
    files.append(('0-nofile', nodes))

    # (f) a ragged tail is no record
    files.append(('7-ragged', nodes + NODE_1[:20]))
    files.append(('7-empty', b''))
    files.append(('7-short', NODE_1[:49]))
    return files


# ---------------------------------------------------------------------------
# 7. Checks against document 01
# ---------------------------------------------------------------------------

def told(answer):
    return None if answer[0] == 'OK' else (answer[1], answer[2])


def check():
    # record lengths
    assert [record_length(k) for k in LAYOUT] == [133, 149, 144, 128, 77, 54, 50, 117]

    # node 1's printed record, and how it is read
    assert table(7, S[7])[0] == NODE_1 and len(NODE_1) == 50
    assert line_of(read(7, NODE_1, 1)) == b'1 . +100 +200 . ='

    # case 6: node 1 with X - and zeros is 25 at field 3
    case6 = NODE_1.replace(b'|+|000000100|', b'|-|000000000|')
    assert case6 != NODE_1 and told(read(7, case6, 1)) == (25, 3)
    # case 7: node 1 with an X of seven blanks and 11 is 22 at field 4
    case7 = NODE_1.replace(b'|000000100|', b'|       11|')
    assert case7 != NODE_1 and told(read(7, case7, 1)) == (22, 4)
    # case 13's record: a bar in the object's name is lawful
    bar = build(4, row_cells(4, S[4].strip())[:3] + [b'A|B'.ljust(60)]
                + row_cells(4, S[4].strip())[4:])
    assert line_of(read(4, bar, 1)) == b'1 . "0100000" "A|B" . . . ='

    # S is lawful, record by record; counts of document 01's verdict line
    counts = {1: 2, 4: 1, 5: 1, 6: 2, 7: 2}
    for k in S:
        records = table(k, S[k])
        assert len(records) == counts[k]
        for record in records:
            assert told(read(k, record, 1)) is None

    # the examples: what the transcriber expects, record by record
    for (example, k), (_, rows, wanted) in EXAMPLE.items():
        records = table(k, rows)
        if not isinstance(wanted, list):
            wanted = [wanted] * len(records)
        assert len(wanted) == len(records)
        for record, want in zip(records, wanted):
            assert told(read(k, record, 1)) == want, (example, k, record)
    # numbers of records that the metadata of the examples give (files 1 to 8)
    said = {1: {1: 5, 2: 2, 3: 1, 5: 4, 6: 14},                      # 2848 on
            2: {1: 7, 2: 2, 3: 1, 4: 4, 5: 6, 6: 16, 7: 6},          # 3154 on
            3: {1: 10, 2: 2, 3: 1, 5: 16, 6: 24, 7: 6, 8: 1},        # 3520 on
            4: {1: 7, 2: 2, 3: 1, 4: 1, 5: 6, 6: 16, 7: 6},          # 3899 on
            5: {1: 9, 2: 2, 3: 1, 4: 2, 5: 9, 6: 20, 7: 8}}          # 4253 on
    for example in said:
        mine = {k: len(table(k, EXAMPLE[example, k][1]))
                for k in LAYOUT if (example, k) in EXAMPLE}
        assert mine == said[example], (example, mine)

    # damage: the want said at each case
    for k in LAYOUT:
        d = DAMAGE[k]()
        assert told(read(k, d.records[0], 1)) is None
        assert all(not blank(c) for c in d.base)
        for record, want, note in zip(d.records, d.wants, d.notes):
            assert told(read(k, record, 1)) == want, (k, note, want, read(k, record, 1))

    files = all_files()
    names = [name for name, _ in files]
    assert len(set(names)) == len(names)
    assert all(len(data) < LIMIT for _, data in files)


def main():
    if len(sys.argv) != 2:
        sys.exit('usage: vectors.py FOLDER')
    check()
    folder = sys.argv[1]
    os.makedirs(os.path.join(folder, 'data'), exist_ok=True)
    files = all_files()
    for name, data in files:
        with open(os.path.join(folder, 'data', name), 'wb') as f:
            f.write(data)
    with open(os.path.join(folder, 'args'), 'wb') as f:
        f.write(b''.join(name.encode('ascii') + b'\n' for name, _ in files))
    with open(os.path.join(folder, 'stdout'), 'wb') as f:
        f.write(b''.join(expected(name, data) for name, data in files))


if __name__ == '__main__':
    main()
