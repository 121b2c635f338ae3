#!/usr/bin/env python3
"""What the fronts of a file come to: fronts.py CASE, a folder of cases/cut, prints its table of answers.

It reads by the rules of docs/FILES.md, docs/LANGUAGE.md and docs/SQL.md, and never by a program. The file that is cut is a
good one for the most part: of a script and of a text it is known how many statements are whole, and what whole statements,
whole records and whole edits come to stands in the folder, in whole.tsv. Of the file of a data set all is worked out here.
"""
import datetime
import decimal
import re
import sys

HEADER = ['dataset', 'component', 'role', 'type', 'codes']
ROLES = ['identifier', 'measure', 'attribute']
TYPES = {'TEXT': 'string', 'INTEGER': 'integer', 'NUMBER': 'number', 'BOOLEAN': 'boolean', 'DATE': 'date', 'PERIOD': 'time_period'}
ROUNDINGS = {'HALF_UP': decimal.ROUND_HALF_UP, 'HALF_EVEN': decimal.ROUND_HALF_EVEN, 'DOWN': decimal.ROUND_DOWN}


class Fault(Exception):
    """A line that is told, and its exit code."""


# ---- records

def records(data):
    """The records of a file, each a list of fields in bytes: a quote counts at the start of a field alone."""
    if data.startswith(b'\xef\xbb\xbf'):
        data = data[3:]
    rows, row, field, at, inside, quoted = [], [], b'', 0, False, False
    while at < len(data):
        sign = data[at:at + 1]
        if inside and sign == b'"' and data[at + 1:at + 2] == b'"':
            field, at = field + b'"', at + 1
        elif inside:
            if sign == b'"':
                inside = False
            else:
                field += sign
        elif sign == b'"' and not field and not quoted:
            inside = quoted = True
        elif sign == b',':
            row, field, quoted = row + [field], b'', False
        elif sign in b'\r\n':
            if row or field or quoted:
                rows.append(row + [field])
            row, field, quoted = [], b'', False
        else:
            field += sign
        at += 1
    if row or field or quoted:
        rows.append(row + [field])
    return rows


# ---- the structures file

def broken_rule(record, known):
    """The first rule that a record of the structures file breaks; `known` has the components of each data set."""
    if len(record) != 5:
        return 2
    name, component, role, kind, codes = record
    if not re.fullmatch('[A-Za-z][A-Za-z0-9_.]{0,63}', name):
        return 3
    if not re.fullmatch("[^'\0-\x1f\x7f]{1,64}", component):
        return 4
    if role not in ROLES:
        return 5
    if kind not in TYPES.values():
        return 6
    declared = known.setdefault(name, {})
    if component in declared:
        return 7
    listed = codes.split('|') if codes else []
    if listed and ((role, kind) != ('identifier', 'string') or '' in listed or len(set(listed)) < len(listed)):
        return 8
    declared[component] = role, kind, listed, False
    return 0


def structures(data):
    """The components of each data set, or a fault."""
    rows = [[field.decode() for field in row] for row in records(data)]
    if rows[:1] != [HEADER]:
        raise Fault('error: structures line 1 rule 1', 2)
    known, first = {}, {}
    for line, record in enumerate(rows[1:], 2):
        rule = broken_rule(record, known)
        if rule:
            raise Fault(f'error: structures line {line} rule {rule}', 2)
        first.setdefault(record[0], line)
    for name, declared in known.items():
        if all(role != 'identifier' for role, _, _, _ in declared.values()):
            raise Fault(f'error: structures line {first[name]} rule 10', 2)
    return known


# ---- the file of a data set

def numeral(text, scale, rounding, whole):
    if len(text) > 64 or not re.fullmatch(r'[+-]?([0-9]+\.?[0-9]*|\.[0-9]+)([eE][+-]?[0-9]{1,3})?', text):
        return None
    with decimal.localcontext() as context:
        context.prec = 3000
        value = decimal.Decimal(text)
        if whole and value != value.to_integral_value():
            return None
        value = value.quantize(decimal.Decimal(1).scaleb(-scale), rounding)
        if abs(value) >= decimal.Decimal(10) ** (18 - scale):
            return None
        return value


def day(text):
    if not re.fullmatch('[0-9]{4}-[0-9]{2}-[0-9]{2}', text):
        return None
    try:
        datetime.date(int(text[:4]) or 2000, int(text[5:7]), int(text[8:]))
    except ValueError:
        return None
    return text


def period(text):
    """A period in order, and as it is written: years, halves, quarters, months."""
    if re.fullmatch('[0-9]{4}', text):
        text += '-A1'
    if re.fullmatch('[0-9]{4}-[0-9]{2}', text):
        text = text[:5] + 'M' + text[5:]
    for rank, letter, most, digits in (0, 'A', 1, 1), (1, 'S', 2, 1), (2, 'Q', 4, 1), (3, 'M', 12, 2):
        if re.fullmatch('[0-9]{4}-%s[0-9]{%d}' % (letter, digits), text) and 1 <= int(text[6:]) <= most:
            return (rank, text[:4], int(text[6:])), text
    return None


def written(value):
    """A number without zeros that are not needed."""
    text = format(value, 'f')
    text = text.rstrip('0').rstrip('.') if '.' in text else text
    return '0' if text in ('-0', '') else text


def value_of(text, kind, settings):
    """A value in order and as it is written, or None where the text is none of the kind."""
    if kind == 'string':
        return text, text
    if kind in ('integer', 'number'):
        value = numeral(text, *settings, kind == 'integer')
        return None if value is None else (value, written(value))
    if kind == 'boolean':
        return (text.lower() == 'true', text.lower()) if text.lower() in ('true', 'false') else None
    if kind == 'date':
        return day(text) and (text, text)
    return period(text)


def fault_of_header(header, components):
    names = set()
    for column, field in enumerate(header, 1):
        name = field.decode(errors='replace')
        if name not in components or name in names:
            return column
        names.add(name)
    if len(names) < len(components):
        return len(header) + 1 if header else 1
    return None


def fault_of_field(field, component, settings):
    role, kind, codes, not_null = component
    try:
        text = field.decode()
    except UnicodeDecodeError:
        return 'NotText'
    if not text:
        return 'NullIdentifier' if role == 'identifier' else 'NotNull' if not_null else None
    if value_of(text, kind, settings) is None:
        return 'BadValue'
    return 'NotInCodes' if codes and text not in codes else None


def read(data, name, components, settings):
    """The points of a data set, each the values of its components in the order of these, or a fault."""
    def fault(line, column, kind):
        raise Fault(f'error: input {name} line {line} column {column} {kind}', 4)

    rows = records(data)
    header = rows[0] if rows else []
    column = fault_of_header(header, components)
    if column:
        fault(1, column, 'BadHeader')
    header = [field.decode() for field in header]
    keys, points = set(), []
    for line, row in enumerate(rows[1:], 2):
        if len(row) != len(header):
            fault(line, min(len(row), len(header)) + 1, 'WrongWidth')
        for column, field in enumerate(row, 1):
            kind = fault_of_field(field, components[header[column - 1]], settings)
            if kind:
                fault(line, column, kind)
        fields = dict(zip(header, (field.decode() for field in row)))
        point = [value_of(fields[name], kind, settings) if fields[name] else None for name, (_, kind, _, _) in components.items()]
        key = tuple(value for value, (role, _, _, _) in zip(point, components.values()) if role == 'identifier')
        if key in keys:
            fault(line, 1, 'DuplicateKey')
        keys.add(key)
        points.append(point)
    return points


def quoted(field):
    return '"' + field.replace('"', '""') + '"' if re.search('[,"\r\n]', field) else field


def in_order(value):
    return (0,) if value is None else (1, value[0])


def text_of(components, points, order):
    """The text of an output whose points go by some components, and then by all."""
    names = list(components)
    places = [names.index(name) for name in order] + list(range(len(names)))
    points = sorted(points, key=lambda point: [in_order(point[place]) for place in places])
    lines = [[quoted(name) for name in names]] + [[quoted(value[1]) if value else '' for value in point] for point in points]
    return ''.join(','.join(line) + '\n' for line in lines)


# ---- scripts and texts

# Tokens, or what is no token; a quote or a comment that is not closed is everything up to the end.
VTL = re.compile(r"""(?P<blank>[ \t\r\n]+|//[^\n]*(?:\n|$)|/\*(?:(?!\*/).)*\*/)|(?P<open>/\*.*|"(?:[^"]|"")*\Z|'[^']*\Z)|"(?:[^"]|"")*"|'[^']*'|[A-Za-z][A-Za-z0-9_.]*|[0-9]+(?:\.[0-9]+)?|:=|<-|.""", re.S)
SQL = re.compile(r"""(?P<blank>[ \t\r\n]+)|(?P<open>"(?:[^"]|"")*\Z|'(?:[^']|'')*\Z)|"(?:[^"]|"")*"|'(?:[^']|'')*'|[A-Za-z_]+|[0-9]+(?:\.[0-9]+)?|.""", re.S)


def whole(text, token):
    """How many statements of a front are whole, and the byte at which more begins, or None. A definition ends behind `ruleset`."""
    done, more, words, at = 0, None, [], 0
    while at < len(text):
        found = token.match(text, at)
        if not found.group('blank'):
            more = at if more is None else more
            words.append(found.group())
            if words[-1] == ';' and (words[0] != 'define' or words[-2] == 'ruleset'):
                done, more, words = done + 1, None, []
        at = found.end()
    return done, None if more is None else len(text[:more].encode())


def text_in(path):
    with open(path, 'rb') as file:
        return file.read()


def after(case, count):
    """What so many whole statements or records come to."""
    for line in text_in(f'{case}/whole.tsv').decode().splitlines():
        number, code, answer = line.split('\t')
        if int(number) == count:
            return code, answer
    raise SystemExit(f'{case}/whole.tsv has no line {count}')


def said(name, text):
    return '0', f'{name}.csv:' + text.replace('\r', '^').replace('\n', '|')


def answer_of_script(case, front):
    done, more = whole(front.decode(), VTL)
    if more is None:
        return after(case, done)
    raise Fault(f'error: syntax after {done} statements at byte {more}', 2)


def answer_of_text(case, front):
    done, more = whole(front.decode(), SQL)
    if more is None and done:
        return after(case, done)
    raise Fault(f'error: sql syntax after {done} statements at byte {len(front) if more is None else more}', 3)


def answer_of_edits(case, front):
    """Of whole lines that are right it stands in the folder what they come to."""
    try:
        lines = front.decode().split('\n')
    except UnicodeDecodeError:
        raise Fault('error: not text: edits', 2) from None
    if lines[-1]:
        raise Fault(f'error: edits line {len(lines)}', 2)
    return after(case, len(lines) - 1)


def answer_of_structures(case, front):
    structures(front)
    return after(case, len(records(front)) - 1)


def answer_of_input(case, front):
    known = structures(text_in(f'{case}/structures.csv'))
    components = {n: c for role in ROLES for n, c in known['DS_1'].items() if c[0] == role}
    points = read(front, 'DS_1', components, (6, decimal.ROUND_HALF_UP))
    return said('DS_r', text_of(components, points, [n for n, c in components.items() if c[0] == 'identifier']))


def declared(text):
    """The settings, the columns and the order of a text of one table that is read and written."""
    scale, rounding = re.search(r'SET SCALE (\d) ROUNDING (\w+);', text).groups()
    columns, key = re.search(r'INPUT "T" \((.*)\) KEY \((.*)\);', text).groups()
    keys = re.findall('"([^"]*)"', key)
    found = re.findall(r'"(\w+)" (\w+)( NOT NULL)?(?: CODES \((.*?)\))?(?:, |$)', columns)
    made = {}
    for name, kind, not_null, codes in found:
        role = 'identifier' if name in keys else 'measure'
        made[name] = role, TYPES[kind], re.findall("'([^']*)'", codes), bool(not_null)
    components = {n: c for role in ROLES for n, c in made.items() if c[0] == role}
    order = re.findall(r'"(\w+)"', re.search('ORDER BY (.*);', text).group(1))
    return (int(scale), ROUNDINGS[rounding]), components, order


def answer_of_table(case, front):
    settings, components, order = declared(text_in(f'{case}/script.sql').decode())
    return said('T', text_of(components, read(front, 'T', components, settings), order))


READERS = {
    'script.vtl': answer_of_script,
    'script.sql': answer_of_text,
    'structures.csv': answer_of_structures,
    'edits': answer_of_edits,
    'in/DS_1.csv': answer_of_input,
    'in/T.csv': answer_of_table,
}


def main(case):
    cut = text_in(f'{case}/cut').decode().strip()
    data = text_in(f'{case}/{cut}')
    rows = []
    for size in range(len(data) + 1):
        try:
            code, answer = READERS[cut](case, data[:size])
        except Fault as fault:
            answer, code = fault.args
        if rows and rows[-1][2:] == [str(code), answer]:
            rows[-1][1] = size
        else:
            rows.append([size, size, str(code), answer])
    for row in rows:
        print(*row, sep='\t')


main(*sys.argv[1:])
