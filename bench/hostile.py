#!/usr/bin/env python3
"""Inputs that were chosen to be slow, or that are so by bad luck, each beside a plain one of the same size.

hostile.py list            prints a line for each case: its name, its plain counterpart, how many rows it has, and the
                           program that reads it
hostile.py CASE FOLDER N   writes the case with N rows (names, codes, tables, parts of a text) into a folder that is made:
                           script.vtl, structures.csv, in/ and out/ for `vtl run`; script.sql for `vtl_probe sql`; or
                           script.sql, in/ and out/ for `vtl engine`

Hashes of the standard library have a fixed seed, so that texts of one hash can be worked out: they have 16 bytes after
which the state is known, the eight bytes of this state, by which it is multiplied with nothing, and then any eight bytes.
"""
import hashlib
import itertools
import math
import os
import random
import sys

# ---- the standard library's hash

MULTIPLIER = 0x9E3779B97F4A7C15
SEED = 0x243F6A8885A308D3
WORD = (1 << 64) - 1
LETTERS = b'ABCDEFGHIJKLMNOPQRSTUVWXYZabcdefghijklmnopqrstuvwxyz0123456789_.'


def folded(a, b):
    product = a * b
    return (product & WORD) ^ (product >> 64)


def word_at(data, at):
    return int.from_bytes(data[at:at + 8], 'little')


def fed_number(state, number):
    """The state after a number of eight bytes."""
    return folded(state ^ number, MULTIPLIER ^ 16)


def front_of_one_hash(state, blocks):
    """A front of 16 bytes a block and of eight more; texts that begin with it and end in any eight bytes have one hash."""
    length = 16 * blocks + 16
    chance = random.Random(1)
    while True:
        front = b'N' + bytes(chance.choices(LETTERS, k=16 * blocks - 1))
        reached = (state + length) & WORD
        for at in range(0, 16 * blocks, 16):
            reached = folded(word_at(front, at) ^ reached, word_at(front, at + 8) ^ MULTIPLIER)
        last = reached.to_bytes(8, 'little')
        if all(byte in LETTERS for byte in last):
            return front + last


def of_one_hash(state, blocks, count):
    front = front_of_one_hash(state, blocks)
    for _, end in zip(range(count), itertools.product(LETTERS, repeat=8)):
        yield front + bytes(end)


# What was fed before a text: nothing for a name; the number of its kind for the cell of a row; the number of cells before
# that for a key that is fed as a list.
NAME = SEED
ROW = fed_number(SEED, 4)
KEY = fed_number(fed_number(SEED, 1), 4)


def shuffled(texts):
    texts = list(texts)
    random.Random(2).shuffle(texts)
    return texts


# ---- files

def write(path, chunks):
    with open(path, 'wb') as file:
        for chunk in chunks:
            file.write(chunk)


def run_folder(folder, script, structures):
    os.makedirs(f'{folder}/in')
    os.makedirs(f'{folder}/out')
    write(f'{folder}/script.vtl', [script.encode()])
    write(f'{folder}/structures.csv', itertools.chain([b'dataset,component,role,type,codes\n'], structures))


def data_sets(folder, script, components, **rows):
    structures = [f'{name},{component},\n'.encode() for name in rows for component in components]
    run_folder(folder, script, structures)
    header = ','.join(component.split(',')[0] for component in components)
    for name, lines in rows.items():
        write(f'{folder}/in/{name}.csv', itertools.chain([header.encode() + b'\n'], (line + b'\n' for line in lines)))


TEXT_KEY = 'Id_1,identifier,string'
INTEGER_KEY = 'Id_1,identifier,integer'
INTEGER = 'Me_1,measure,integer'
TEXT = 'Me_1,measure,string'
COPY = 'DS_r <- DS_1;\n'
CHAIN = 200


def mixed(count):
    """The numbers below a count in a mixed order."""
    step = 700001
    while math.gcd(step, count) != 1:
        step += 2
    return ((i * step) % count for i in range(count))


def plain_text(i):
    return b'k%011d' % i


def long_text(i):
    """As long as a text of one hash of two blocks."""
    return hashlib.md5(b'%d' % i).hexdigest().encode() + b'%016d' % i


# ---- structures files and SQL texts

def names(folder, count, texts):
    run_folder(folder, '\n', (text + b',i,identifier,date,\n' for text in texts))


def chosen_names(folder, count):
    names(folder, count, of_one_hash(NAME, 1, count))


def plain_names(folder, count):
    names(folder, count, (b'N%031d' % i for i in range(count)))


def codes(folder, texts):
    run_folder(folder, '\n', itertools.chain([b'D,i,identifier,string,'], [b'|'.join(texts)], [b'\n']))


def chosen_codes(folder, count):
    codes(folder, of_one_hash(NAME, 1, count))


def plain_codes(folder, count):
    codes(folder, (b'C%031d' % i for i in range(count)))


def tables(folder, texts):
    os.makedirs(folder)
    inputs = (b'INPUT "' + text + b'" ("a" INTEGER) KEY ("a");\n' for text in texts)
    write(f'{folder}/script.sql', itertools.chain([b'SET SCALE 6 ROUNDING HALF_UP;\n'], inputs))


def chosen_tables(folder, count):
    tables(folder, of_one_hash(NAME, 1, count))


def plain_tables(folder, count):
    tables(folder, (b'N%031d' % i for i in range(count)))


# ---- data sets

def members(folder, count, literals):
    words = (''.join(word) for word in itertools.product('abcdefghijklmnopqrstuvwxyz', repeat=3))
    listed = ','.join('"%s"' % word for word in itertools.islice(words, literals))
    rows = (b'%d,x%02d' % (i, i % 100) for i in mixed(count))
    data_sets(folder, 'DS_r <- DS_1[filter Me_1 in {%s}];\n' % listed, [INTEGER_KEY, TEXT], DS_1=rows)


def one_member(folder, count):
    members(folder, count, 1)


def many_members(folder, count):
    members(folder, count, 250)


def most_members(folder, count):
    members(folder, count, 10000)


def copied(folder, texts):
    data_sets(folder, COPY, [TEXT_KEY, INTEGER], DS_1=(text + b',1' for text in texts))


def plain_rows(folder, count):
    copied(folder, (long_text(i) for i in mixed(count)))


def chosen_rows(folder, count):
    copied(folder, shuffled(of_one_hash(ROW, 2, count)))


def one_front(folder, count):
    copied(folder, (b'urn:sdmx:org.sdmx.infomodel.codelist.Code=%08d' % i for i in mixed(count)))


def two_keys(folder, rows):
    data_sets(folder, COPY, [TEXT_KEY, 'Id_2,identifier,integer', INTEGER], DS_1=rows)


def ties(folder, count):
    """Sixteen digits fill the word that a sort begins from; ten rows tie in it."""
    two_keys(folder, (hashlib.md5(b'%d' % (i // 10)).hexdigest()[:20].encode() + b',%d,1' % (i % 10) for i in mixed(count)))


def plain_pairs_of_keys(folder, count):
    two_keys(folder, (b'station-%09d,%d,1' % (i // 10, i % 10) for i in mixed(count)))


def outliers(folder, count):
    """One unknown, written 999999999999, in each of two integer identifiers."""
    rows = [b'%d,%d,1' % (i // 1000, i % 1000) for i in mixed(count - 1)]
    rows.append(b'999999999999,999999999999,1')
    data_sets(folder, COPY, [INTEGER_KEY, 'Id_2,identifier,integer', INTEGER], DS_1=rows)


def no_outliers(folder, count):
    rows = (b'%d,%d,1' % (i // 1000, i % 1000) for i in mixed(count))
    data_sets(folder, COPY, [INTEGER_KEY, 'Id_2,identifier,integer', INTEGER], DS_1=rows)


def paired(folder, texts):
    texts = shuffled(texts)
    rows = [text + b',1' for text in texts]
    data_sets(folder, 'DS_r <- DS_1 + DS_2;\n', [TEXT_KEY, INTEGER], DS_1=rows, DS_2=rows)


def chosen_keys(folder, count):
    paired(folder, of_one_hash(KEY, 2, count))


def keys_as_rows(folder, count):
    paired(folder, of_one_hash(ROW, 2, count))


def plain_keys(folder, count):
    paired(folder, (long_text(i) for i in range(count)))


def many_identifiers(folder, count, width):
    components = ['I%d,identifier,integer' % i for i in range(width)] + [INTEGER]
    rows = [b','.join(b'%d' % (i // 10 ** (j % 7) % 10) for j in range(width)) + b',1' for i in mixed(count)]
    data_sets(folder, 'DS_r <- DS_1 + DS_2;\n', components, DS_1=rows, DS_2=rows)


def wide_keys(folder, count):
    many_identifiers(folder, count, 32)


def narrow_keys(folder, count):
    """As many cells as in the wide keys: their rows are fewer."""
    many_identifiers(folder, count * 33 // 9, 8)


def chain(folder, count, assigned):
    steps = ''.join(f'r{i} {assigned if i < CHAIN else "<-"} r{i - 1} + 1;\n' for i in range(1, CHAIN + 1))
    data_sets(folder, 'r0 := DS_1;\n' + steps, [INTEGER_KEY, INTEGER], DS_1=(b'%d,1' % i for i in mixed(count)))


def kept_results(folder, count):
    chain(folder, count, '<-')


def passing_results(folder, count):
    chain(folder, count, ':=')


def clause(folder, count, text):
    script = 'DS_r <- DS_1[%s];\n' % text
    data_sets(folder, script, [TEXT_KEY, INTEGER], DS_1=(plain_text(i) + b',1' for i in mixed(count)))


def renamed(folder, count):
    clause(folder, count, 'rename Me_1 to x')


def short_rows(folder, count):
    copied(folder, (plain_text(i) for i in mixed(count)))


def parts_of_texts(folder, count):
    clause(folder, count, 'calc x := substr(Id_1, 1, 3)')


def changed_texts(folder, count):
    clause(folder, count, 'calc x := replace(trim(Id_1), "0", "00")')


def lengths_of_texts(folder, count):
    clause(folder, count, 'calc x := length(Id_1)')


# A text that is doubled so often has a megabyte.
TEXT_DOUBLINGS = 20


def megabytes(folder, count, script, text):
    data_sets(folder, script, [INTEGER_KEY, TEXT], DS_1=(b'%d,%s' % (i, text) for i in range(count)))


def doubled_texts(folder, count):
    steps = ''.join(f'r{i} := {f"r{i - 1}" if i else "DS_1"}[calc Me_1 := Me_1 || Me_1];\n' for i in range(TEXT_DOUBLINGS))
    megabytes(folder, count, f'{steps}DS_r <- r{TEXT_DOUBLINGS - 1};\n', b'x')


def texts_of_a_file(folder, count):
    megabytes(folder, count, COPY, b'x' * (1 << TEXT_DOUBLINGS))


# ---- texts that the engine runs

SETTINGS = 'SET SCALE 2 ROUNDING HALF_UP;\n'


def balanced(parts, word):
    """Parts with a word between them, in brackets, so that they are no deeper than the logarithm of their number."""
    while len(parts) > 1:
        pairs = zip(parts[::2], parts[1::2])
        left = parts[len(parts) - 1:] if len(parts) % 2 else []
        parts = [f'({a} {word} {b})' for a, b in pairs] + left
    return parts[0]


def engine_folder(folder, inputs, text):
    """A text over tables of integers, each of a name, columns of which the first is the key, and rows."""
    os.makedirs(f'{folder}/in')
    os.makedirs(f'{folder}/out')
    declared = []
    for name, columns, rows in inputs:
        listed = ', '.join(f'"{column}" INTEGER' for column in columns)
        declared.append(f'INPUT "{name}" ({listed}) KEY ("{columns[0]}");\n')
        lines = [','.join(columns)] + [','.join(map(str, row)) for row in rows]
        write(f'{folder}/in/{name}.csv', [('\n'.join(lines) + '\n').encode()])
    write(f'{folder}/script.sql', [(SETTINGS + ''.join(declared) + text).encode()])


def keyed(count):
    return [(i, i) for i in range(count)]


PAIR = ['id', 'v']
JOINED = 'FROM "T" AS "a" INNER JOIN "T" AS "b" ON "b"."id" = "a"."id"'


def one_table(folder, rows, query):
    engine_folder(folder, [('T', PAIR, keyed(rows))], f'CREATE TABLE "U" AS {query};\nEXPORT "U";\n')


def creates(folder, names):
    names = [name.decode() for name in names]
    made = (f'CREATE TABLE "{name}" AS SELECT 1 AS "x" FROM "T" AS "t";\n' for name in names)
    engine_folder(folder, [('T', PAIR, keyed(1))], ''.join(made) + f'EXPORT "{names[-1]}";\n')


def chosen_creates(folder, count):
    creates(folder, of_one_hash(NAME, 1, count))


def plain_creates(folder, count):
    creates(folder, (b'N%031d' % i for i in range(count)))


def exports(folder, names):
    names = [name.decode() for name in names]
    made = ''.join(f'CREATE TABLE "{name}" AS SELECT 1 AS "x" FROM "T" AS "t";\n' for name in names)
    engine_folder(folder, [('T', PAIR, keyed(1))], made + ''.join(f'EXPORT "{name}";\n' for name in names))


def chosen_exports(folder, count):
    exports(folder, of_one_hash(NAME, 1, count))


def plain_exports(folder, count):
    exports(folder, (b'N%031d' % i for i in range(count)))


def where(folder, count, start):
    parts = [f'"a"."v" < {10 + i}' for i in range(count)]
    one_table(folder, 10, f'SELECT "a"."id" AS "id" {start} WHERE {balanced(parts, "AND")}')


def parts_beside_a_join(folder, count):
    where(folder, count, JOINED)


def parts_alone(folder, count):
    where(folder, count, 'FROM "T" AS "a"')


def unions(folder, count, start):
    one_table(folder, 1, '\nUNION ALL '.join(f'SELECT {i} AS "n" {start}' for i in range(count)))


def planned_unions(folder, count):
    unions(folder, count, JOINED)


def unions_of_products(folder, count):
    unions(folder, count, 'FROM "T" AS "a" CROSS JOIN "T" AS "b"')


def tests(folder, count, number):
    parts = [
        f'EXISTS (SELECT 1 FROM "T" AS "t" WHERE "t"."c{number(i) % 30}" = "a"."c{number(i) // 30 % 30}" AND "t"."c{number(i) // 900}" = "a"."id")'
        for i in range(count)
    ]
    columns = ['id'] + [f'c{i}' for i in range(30)]
    rows = [[i] * 31 for i in range(100)]
    query = f'SELECT COUNT(*) AS "n" FROM "T" AS "a" WHERE {balanced(parts, "AND")}'
    engine_folder(folder, [('T', columns, rows)], f'CREATE TABLE "U" AS {query};\nEXPORT "U";\n')


def different_exists(folder, count):
    tests(folder, count, lambda i: i)


def equal_exists(folder, count):
    tests(folder, count, lambda i: 7)


def selects(folder, count, width):
    columns = ['id'] + [f'a_column_of_a_long_name_{i:04d}' for i in range(1, width)]
    query = '\nUNION ALL '.join('SELECT 1 AS "n" FROM "T" AS "t"' for _ in range(count))
    engine_folder(folder, [('T', columns, [[1] * width])], f'CREATE TABLE "U" AS {query};\nEXPORT "U";\n')


def selects_of_a_wide_table(folder, count):
    selects(folder, count, 1024)


def selects_of_a_narrow_table(folder, count):
    selects(folder, count, 2)


def groups(folder, count, used):
    width = 1000
    sources = [f't{i}' for i in range(-(-count // width))]
    columns = [f'"{source}"."c{i}"' for source in sources for i in range(width)][:count]
    parts = [f'{used(columns, i)} = 1' for i in range(count)]
    query = f'SELECT COUNT(*) AS "n" FROM "T" AS "t0" ' + ' '.join(f'CROSS JOIN "T" AS "{s}"' for s in sources[1:])
    query += f' GROUP BY {", ".join(columns)} HAVING {balanced(parts, "AND")}'
    engine_folder(folder, [('T', [f'c{i}' for i in range(width)], [[1] * width])], f'CREATE TABLE "U" AS {query};\nEXPORT "U";\n')


def all_columns_of_groups(folder, count):
    groups(folder, count, lambda columns, i: columns[i])


def first_column_of_groups(folder, count):
    groups(folder, count, lambda columns, i: columns[0])


def joins(folder, count, condition):
    joined = ' '.join(f'INNER JOIN "T" AS "t{i}" ON {condition(i)}' for i in range(1, count))
    one_table(folder, 300, f'SELECT COUNT(*) AS "n" FROM "T" AS "t0" {joined}')


def chain_of_joins(folder, count):
    joins(folder, count, lambda i: f'"t{i}"."id" = "t{i - 1}"."id"')


def star_of_joins(folder, count):
    joins(folder, count, lambda i: f'"t{i}"."id" = "t0"."id"')


def looked_up(folder, count, start, condition):
    """Joins that take each pair of rows where they are not looked up."""
    one_table(folder, count, f'SELECT COUNT(*) AS "n" {start} {condition}')


def equality_and_more(folder, count):
    looked_up(folder, count, JOINED, 'AND "b"."v" > 0')


def equality_and_where(folder, count):
    looked_up(folder, count, JOINED, 'WHERE "b"."v" > 0')


def product_with_an_equality(folder, count):
    looked_up(folder, count, 'FROM "T" AS "a" CROSS JOIN "T" AS "b"', 'WHERE "b"."id" = "a"."id"')


def equality_alone(folder, count):
    looked_up(folder, count, JOINED, '')


def third_of_two_sources(folder, count):
    looked_up(folder, count, JOINED, 'INNER JOIN "T" AS "c" ON "c"."id" = "a"."id" AND "c"."v" = "b"."v"')


def third_of_one_source(folder, count):
    looked_up(folder, count, JOINED, 'INNER JOIN "T" AS "c" ON "c"."id" = "a"."id" AND "c"."v" = "a"."v"')


def exists_of_two_sources(folder, count):
    looked_up(folder, count, JOINED, 'WHERE EXISTS (SELECT 1 FROM "T" AS "t" WHERE "t"."id" = "a"."id" AND "t"."v" = "b"."v")')


def exists_of_one_source(folder, count):
    looked_up(folder, count, JOINED, 'WHERE EXISTS (SELECT 1 FROM "T" AS "t" WHERE "t"."id" = "a"."id" AND "t"."v" = "a"."v")')


def held_product(folder, count):
    """A thousand rows, each with each of others: so many pairs."""
    inputs = [('S', PAIR, keyed(1000)), ('T', PAIR, keyed(count // 1000))]
    engine_folder(folder, inputs, 'CREATE TABLE "U" AS SELECT COUNT(*) AS "n" FROM "S" AS "s" CROSS JOIN "T" AS "t";\nEXPORT "U";\n')


def refused_product(folder, count):
    """Each row with each: more pairs than a machine holds."""
    looked_up(folder, count, 'FROM "T" AS "a" CROSS JOIN "T" AS "b"', '')


def one_group(folder, count):
    """A group of all rows, whose values are all held for their median."""
    looked_up(folder, count, 'FROM "T" AS "t"', 'HAVING MEDIAN("t"."v") >= 0.0')


def group_of_each_row(folder, count):
    looked_up(folder, count, 'FROM "T" AS "t"', 'GROUP BY "t"."v" HAVING MEDIAN("t"."v") < 0.0')


DOUBLINGS = 8


def doubled_tables(folder, count):
    """Tables that are each the one before twice, until there are so many rows."""
    copy = 'SELECT "t"."v" AS "v" FROM "U{0}" AS "t"'
    made = ''.join(f'CREATE TABLE "U{i + 1}" AS {copy.format(i)} UNION ALL {copy.format(i)};\n' for i in range(DOUBLINGS))
    count_all = f'CREATE TABLE "U" AS SELECT COUNT(*) AS "n" FROM "U{DOUBLINGS}" AS "t";\nEXPORT "U";\n'
    engine_folder(folder, [('U0', PAIR, keyed(count >> DOUBLINGS))], made + count_all)


def table_of_a_file(folder, count):
    looked_up(folder, count, 'FROM "T" AS "t"', '')


# ---- what is cut off, at a limit or beyond it

def one_record(folder, data):
    structures = b'DS_1,Id_1,identifier,string,\n'
    run_folder(folder, COPY, [structures])
    write(f'{folder}/in/DS_1.csv', [b'Id_1\n', data])


def open_quote(folder, count):
    """A quote at the start of a field that nothing closes."""
    one_record(folder, b'"' + b'x,\n' * (count // 3))


def closed_quote(folder, count):
    one_record(folder, b'"' + b'x,\n' * (count // 3) + b'"\n')


def commas(folder, count):
    one_record(folder, b',' * count)


def line_feeds(folder, count):
    one_record(folder, b'\n' * count)


def text_of_a_query(folder, count, end):
    one_table(folder, 1, f"SELECT '{'x' * count}{end} AS \"x\" FROM \"T\" AS \"t\"")


def open_text(folder, count):
    """A text of the dialect that nothing closes."""
    text_of_a_query(folder, count, '')


def closed_text(folder, count):
    text_of_a_query(folder, count, "'")


def numerals(folder, count, digits):
    data_sets(folder, COPY, [INTEGER_KEY, INTEGER], DS_1=(b'%d,%s' % (i, (b'%d' % i).zfill(digits)) for i in mixed(count)))


def longest_numerals(folder, count):
    numerals(folder, count, 64)


def usual_numerals(folder, count):
    numerals(folder, count, 18)


def rows_of(folder, width, count):
    """Rows of so many components, which a structures file of the second version may have."""
    names = ['id'] + [f'm{i}' for i in range(1, width)]
    run_folder(folder, COPY, [])
    roles = (f'DS_1,{name},{"measure" if name != "id" else "identifier"},integer,,{str(name != "id").lower()}\n' for name in names)
    head = 'structures,2,6,half_up,,\ndataset,component,role,type,codes,nullable\n'
    write(f'{folder}/structures.csv', [(head + ''.join(roles)).encode()])
    rest = b',7' * (width - 1) + b'\n'
    write(f'{folder}/in/DS_1.csv', itertools.chain([','.join(names).encode() + b'\n'], (b'%d' % i + rest for i in mixed(count))))


def widest_rows(folder, count):
    rows_of(folder, 256, count)


def narrow_rows(folder, count):
    """As many cells: their rows are more."""
    rows_of(folder, 8, count * 32)


def queries(folder, width, count):
    items = ', '.join(f'"t"."v" AS "c{i}"' for i in range(width))
    one_table(folder, count, f'SELECT {items} FROM "T" AS "t"')


def widest_query(folder, count):
    queries(folder, 4096, count)


def narrow_query(folder, count):
    """As many cells: their rows are more."""
    queries(folder, 8, count * 512)


def joined_data_sets(folder, count, script):
    data_sets(folder, script, [INTEGER_KEY], DS_1=(b'%d' % i for i in mixed(count)))


def joins_in_joins(folder, count):
    """As deep as a statement may be."""
    joined_data_sets(folder, count, f'DS_r <- {"inner_join(" * 127}DS_1{" as a, DS_1 as b)" * 127};\n')


def joins_in_turn(folder, count):
    steps = ''.join(f'r{i} := inner_join({f"r{i - 1}" if i else "DS_1"} as a, DS_1 as b);\n' for i in range(127))
    joined_data_sets(folder, count, steps + 'DS_r <- r126;\n')


def one_point_too_many(folder, count):
    numbered(folder, 1000001, count)


def as_many_points(folder, count):
    numbered(folder, 1000000, count)


def numbered(folder, rows, count):
    data_sets(folder, COPY, [INTEGER_KEY], DS_1=(b'%d' % i for i in range(rows * count // 1000000)))


def most_nodes(folder, count):
    """As many operators on a data set as a script may have."""
    statements = ''.join(f'r{i} := {"- " * 126}{f"r{i - 1}" if i else "DS_1"};\n' for i in range(32))
    data_sets(folder, statements + 'DS_r <- r31;\n', [INTEGER_KEY, INTEGER], DS_1=(b'%d,1' % i for i in range(count)))


def as_many_results(folder, count):
    """Half as many, each a result of its own."""
    statements = ''.join(f'r{i} := - {f"r{i - 1}" if i else "DS_1"};\n' for i in range(2016))
    data_sets(folder, statements + 'DS_r <- r2015;\n', [INTEGER_KEY, INTEGER], DS_1=(b'%d,1' % i for i in range(2 * count)))


def selected(folder, items):
    one_table(folder, 100, '\nUNION ALL '.join(f'SELECT {item} AS "x" FROM "T" AS "t"' for item in items))


def deepest_cases(folder, count):
    selected(folder, ['CASE WHEN "t"."v" > 5 THEN ' * 511 + '"t"."v"' + ' ELSE 0 END' * 511] * count)


def flat_cases(folder, count):
    selected(folder, ['CASE ' + 'WHEN "t"."v" < 0 THEN 0 ' * 511 + 'ELSE "t"."v" END'] * count)


def too_deep(folder, count):
    one_table(folder, 1, f'SELECT {"(" * count}1{")" * count} AS "x" FROM "T" AS "t"')


def as_many_brackets(folder, count):
    one_table(folder, 1, f'SELECT {"(1) + " * 500}1 AS "x" FROM "T" AS "t"' + f'\nUNION ALL SELECT {"(1) + " * 500}1 AS "x" FROM "T" AS "t"' * (count // 500))


def years(folder, count, query):
    """Two years for each of some groups, the first of all and the last."""
    os.makedirs(f'{folder}/in')
    os.makedirs(f'{folder}/out')
    text = f'INPUT "T" ("g" INTEGER, "p" PERIOD) KEY ("g", "p");\nCREATE TABLE "U" AS {query};\nEXPORT "U";\n'
    write(f'{folder}/script.sql', [(SETTINGS + text).encode()])
    rows = (b'%d,0000\n%d,9999\n' % (i, i) for i in range(count))
    write(f'{folder}/in/T.csv', itertools.chain([b'g,p\n'], rows))


def sparse_series(folder, count):
    years(folder, count, 'SELECT "s"."g" AS "g", "s"."p" AS "p" FROM SERIES "T" ON "p" BY ("g") SINGLE AS "s"')


def dense_series(folder, count):
    """As many rows: each group with each year."""
    years(folder, count, 'SELECT "t"."g" AS "g", "t"."p" AS "p" FROM "T" AS "t"')
    write(f'{folder}/in/T.csv', itertools.chain([b'g,p\n'], (b'%d,%04d\n' % (i, year) for i in range(count) for year in range(10000))))


# the case, its plain counterpart, how many rows, and what reads it
CASES = [
    (chosen_names, plain_names, 20164, 'vtl'),
    (chosen_codes, plain_codes, 31773, 'vtl'),
    (chosen_tables, plain_tables, 100000, 'vtl_probe'),
    (many_members, one_member, 1000000, 'vtl'),
    (most_members, one_member, 1000000, 'vtl'),
    (chosen_rows, plain_rows, 500000, 'vtl'),
    (one_front, plain_rows, 500000, 'vtl'),
    (ties, plain_pairs_of_keys, 1000000, 'vtl'),
    (outliers, no_outliers, 1000000, 'vtl'),
    (chosen_keys, plain_keys, 500000, 'vtl'),
    (keys_as_rows, plain_keys, 500000, 'vtl'),
    (wide_keys, narrow_keys, 200000, 'vtl'),
    (kept_results, passing_results, 50000, 'vtl'),
    (renamed, short_rows, 1000000, 'vtl'),
    (parts_of_texts, lengths_of_texts, 1000000, 'vtl'),
    (changed_texts, lengths_of_texts, 1000000, 'vtl'),
    (doubled_texts, texts_of_a_file, 50, 'vtl'),
    (chosen_creates, plain_creates, 4000, 'engine'),
    (chosen_exports, plain_exports, 8000, 'engine'),
    (parts_beside_a_join, parts_alone, 20000, 'engine'),
    (planned_unions, unions_of_products, 32000, 'engine'),
    (different_exists, equal_exists, 2000, 'engine'),
    (selects_of_a_wide_table, selects_of_a_narrow_table, 1000, 'engine'),
    (all_columns_of_groups, first_column_of_groups, 16000, 'engine'),
    (chain_of_joins, star_of_joins, 2000, 'engine'),
    (equality_and_more, equality_and_where, 200000, 'engine'),
    (product_with_an_equality, equality_alone, 200000, 'engine'),
    (third_of_two_sources, third_of_one_source, 200000, 'engine'),
    (exists_of_two_sources, exists_of_one_source, 200000, 'engine'),
    (held_product, equality_alone, 1000000, 'engine'),
    (refused_product, equality_alone, 1000000, 'engine'),
    (one_group, group_of_each_row, 1000000, 'engine'),
    (doubled_tables, table_of_a_file, 1000000, 'engine'),
    (open_quote, closed_quote, 60000000, 'vtl'),
    (commas, closed_quote, 60000000, 'vtl'),
    (line_feeds, closed_quote, 60000000, 'vtl'),
    (open_text, closed_text, 60000000, 'engine'),
    (longest_numerals, usual_numerals, 1000000, 'vtl'),
    (widest_rows, narrow_rows, 8000, 'vtl'),
    (widest_query, narrow_query, 500, 'engine'),
    (joins_in_joins, joins_in_turn, 5000, 'vtl'),
    (one_point_too_many, as_many_points, 1000000, 'vtl'),
    (most_nodes, as_many_results, 2000, 'vtl'),
    (deepest_cases, flat_cases, 500, 'engine'),
    (too_deep, as_many_brackets, 1000000, 'engine'),
    (sparse_series, dense_series, 90, 'engine'),
]


def main(words):
    if words == ['list']:
        for case, plain, count, reader in CASES:
            print(case.__name__, plain.__name__, count, reader)
        return
    known = {function.__name__: function for row in CASES for function in row[:2]}
    if len(words) != 3 or words[0] not in known:
        sys.exit(__doc__)
    known[words[0]](words[1], int(words[2]))


main(sys.argv[1:])
