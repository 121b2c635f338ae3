#!/usr/bin/env python3
"""Runs at each limit of README.md and one past it: limits.py FOLDER [large] makes a folder for each, as those of cases/run.

What is wanted is worked out here, by the rules. With `large` it makes those whose files have more than 10 MB, or that take
many seconds.
"""
import os
import sys

MILLION = 1000000
# The KB of stack that the deepest script and the deepest text have, as README names them.
STACK, STACK_OF_A_TEXT = 1024, 3072
HEADER = 'dataset,component,role,type,codes\n'
SECOND = 'structures,2,6,half_up,,\ndataset,component,role,type,codes,nullable\n'


def file_of(path, text):
    os.makedirs(os.path.dirname(path), exist_ok=True)
    with open(path, 'w', encoding='utf-8', newline='') as file:
        file.write(text)


class Cases:
    def __init__(self, folder):
        self.folder = folder
        self.stack = None

    def put(self, name, files, outputs=None, line=None, code=0, words=None):
        """A case: its files, the outputs or the line and its code, or both, and perhaps the KB of its stack."""
        for path, text in files.items():
            file_of(f'{self.folder}/{name}/{path}', text)
        os.makedirs(f'{self.folder}/{name}/in', exist_ok=True)
        for output, text in (outputs or {}).items():
            file_of(f'{self.folder}/{name}/expected/{output}.csv', text)
        if line:
            file_of(f'{self.folder}/{name}/line', line + '\n')
            file_of(f'{self.folder}/{name}/code', f'{code}\n')
        if self.stack:
            file_of(f'{self.folder}/{name}/stack', f'{self.stack}\n')
        if words:
            file_of(f'{self.folder}/{name}/words', '\n'.join(words) + '\n')

    def script(self, name, script, structures, inputs, options=(), **wanted):
        header = '' if structures.startswith(SECOND) else HEADER
        files = {'script.vtl': script, 'structures.csv': header + structures}
        files.update((f'in/{key}.csv', text) for key, text in inputs.items())
        words = ['run', 'script.vtl', 'structures.csv', 'in', 'out', *options] if options else None
        self.put(name, files, words=words, **wanted)

    def text(self, name, text, inputs, **wanted):
        files = {'script.sql': text}
        files.update((f'in/{key}.csv', data) for key, data in inputs.items())
        self.put(name, files, **wanted)


def components(dataset, *given):
    return ''.join(f'{dataset},{name},{role},{kind},\n' for name, role, kind in given)


def second(dataset, *given):
    """The same as a whole file of version 2, of components that may be null."""
    return SECOND + ''.join(f'{dataset},{name},{role},{kind},,{str(role != "identifier").lower()}\n' for name, role, kind in given)


KEY = ('Id_1', 'identifier', 'string')
INTEGER = ('Me_1', 'measure', 'integer')
PLAIN = components('DS_1', KEY, INTEGER)
COPY = 'DS_r <- DS_1;'
ROW = {'DS_1': 'Id_1,Me_1\na,7\n'}
SAME = {'DS_r': 'Id_1,Me_1\na,7\n'}


def filled(text, size, sign=' '):
    return text + sign * (size - len(text))


# ---- bytes and rows

def sizes(cases):
    most = 65536
    too_long = {'line': 'error: too long: script.vtl', 'code': 4}
    for name, front, end, sign in [('spaces', COPY, '', ' '), ('a_comment', COPY + '/*', '*/', 'x'), ('a_text', 'DS_r <- DS_1[filter Id_1 <> "', '"];', 'x'),
                                   ('line_feeds', COPY, '', '\n')]:
        cases.script(f'script_of_{name}', filled(front, most - len(end), sign) + end, PLAIN, ROW, outputs=SAME)
        cases.script(f'script_of_{name}_too_long', filled(front, most + 1 - len(end), sign) + end, PLAIN, ROW, **too_long)
    most = 4194304 - len(HEADER)
    too_long = {'line': 'error: too long: structures.csv', 'code': 4}
    codes = 'DS_1,Id_1,identifier,string,b|a'
    for name, front, end, sign in [('line_feeds', PLAIN, '', '\n'), ('a_code', codes, '\n' + components('DS_1', INTEGER), 'a')]:
        cases.script(f'structures_of_{name}', COPY, filled(front, most - len(end), sign) + end, ROW if sign == '\n' else {'DS_1': 'Id_1,Me_1\nb,7\n'},
                     outputs=SAME if sign == '\n' else {'DS_r': 'Id_1,Me_1\nb,7\n'})
        cases.script(f'structures_of_{name}_too_long', COPY, filled(front, most + 1 - len(end), sign) + end, ROW, **too_long)
    text = 'SET SCALE 6 ROUNDING HALF_UP;\nINPUT "DS_1" ("Id_1" TEXT, "Me_1" INTEGER) KEY ("Id_1");\nEXPORT "DS_1";\n'
    cases.text('text_of_spaces', filled(text, 2 * MILLION), ROW, outputs={'DS_1': SAME['DS_r']})


def rows(cases):
    numbers = components('DS_1', ('Id_1', 'identifier', 'integer'))
    count = 'DS_r <- count(DS_1);\n'
    data = 'Id_1\n' + ''.join(f'{i}\n' for i in range(MILLION))
    cases.script('points', count, numbers, {'DS_1': data}, outputs={'DS_r': f'int_var\n{MILLION}\n'})
    fault = {'line': f'error: input DS_1 line {MILLION + 2} column 1 TooManyRows', 'code': 4}
    cases.script('points_too_many', count, numbers, {'DS_1': data + f'{MILLION}\n'}, **fault)


def large(cases):
    most = 67108864
    data = filled(ROW['DS_1'], most, '\n')
    cases.script('input_of_line_feeds', COPY, PLAIN, {'DS_1': data}, outputs=SAME)
    cases.script('input_of_line_feeds_too_long', COPY, PLAIN, {'DS_1': data + '\n'}, line='error: too long: in/DS_1.csv', code=4)
    texts = components('DS_1', KEY)
    data = filled('Id_1\n', most - 1, 'x') + '\n'
    cases.script('input_of_a_text', COPY, texts, {'DS_1': data}, outputs={'DS_r': data})
    cases.script('input_of_a_text_too_long', COPY, texts, {'DS_1': data + '\n'}, line='error: too long: in/DS_1.csv', code=4)
    cases.script('input_of_commas', COPY, texts, {'DS_1': filled('Id_1\n', most, ',')}, line='error: input DS_1 line 2 column 2 WrongWidth', code=4)
    text = 'SET SCALE 6 ROUNDING HALF_UP;\nINPUT "DS_1" ("Id_1" TEXT, "Me_1" INTEGER) KEY ("Id_1");\nEXPORT "DS_1";\n'
    cases.text('text_of_spaces_longer_than_an_input', filled(text, most + 1), ROW, outputs={'DS_1': SAME['DS_r']})
    cases.put('demo_of_a_million_and_one', {'script.vtl': ''}, line='error: usage', code=1, words=['demo', '1000001'])


# ---- edits

def edits(cases):
    def replay(name, script, edits, refreshes, outputs):
        files = {'script.vtl': script, 'structures.csv': HEADER + PLAIN, 'in/DS_1.csv': ROW['DS_1'], 'edits': edits}
        cases.put(name, files, outputs=outputs, line='\n'.join(refreshes))

    replay('edits_as_many_as_may_be', COPY, 'DS_1 in\n' * 8192, ['ran 1'] * 8193, SAME)
    script = 'R1 := DS_1;\n' + ''.join(f'R{i} := R{i - 1};\n' for i in range(2, 200)) + 'DS_r <- R199;\n'
    all_of_them = 'ran ' + ' '.join(map(str, range(1, 201)))
    replay('edits_of_many_statements', script, 'DS_1 in\n' * 2, [all_of_them] * 3, SAME)


# ---- widths and names

def widths(cases):
    def measures(count):
        return [(f'm{i}', 'measure', 'integer') for i in range(count)]

    def table(count):
        return ','.join(['Id_1'] + [f'm{i}' for i in range(count)]) + '\n' + ','.join(['a'] + ['7'] * count) + '\n'

    for declared, most, line in (components, 64, 66), (second, 256, 259):
        cases.script(f'components_{most}', COPY, declared('DS_1', KEY, *measures(most - 1)), {'DS_1': table(most - 1)}, outputs={'DS_r': table(most - 1)})
        cases.script(f'components_{most + 1}', COPY, declared('DS_1', KEY, *measures(most)), {'DS_1': table(most)}, line=f'error: structures line {line} rule 9', code=2)
    more = 'DS_r <- DS_1[calc {}];\n'
    for count, wanted in (255, {'outputs': {'DS_r': table(255)}}), (256, {'line': 'error: type in statement 1 rule 12', 'code': 3}):
        made = ', '.join(f'm{i} := 7' for i in range(1, count))
        cases.script(f'components_of_a_result_{count + 1}', more.format(made), components('DS_1', KEY, *measures(1)), {'DS_1': table(1)}, **wanted)
    text = 'SET SCALE 6 ROUNDING HALF_UP; INPUT "T" ("Id_1" TEXT, {}) KEY ("Id_1"); EXPORT "T";\n'
    for count, wanted in (255, {'outputs': {'T': table(255)}}), (256, {'line': 'error: sql type in statement 2 rule 12', 'code': 3}):
        cases.text(f'columns_of_an_input_{count + 1}', text.format(', '.join(f'"m{i}" INTEGER' for i in range(count))), {'T': table(count)}, **wanted)
    text = 'SET SCALE 6 ROUNDING HALF_UP; INPUT "T" ("Id_1" TEXT, "m0" INTEGER) KEY ("Id_1"); CREATE TABLE "U" AS SELECT "t"."Id_1" AS "Id_1", {} FROM "T" AS "t"; EXPORT "U";\n'
    for count, wanted in (4095, {'outputs': {'U': table(4095)}}), (4096, {'line': 'error: sql type in statement 3 rule 12', 'code': 3}):
        cases.text(f'columns_of_a_query_{count + 1}', text.format(', '.join(f'"t"."m0" AS "m{i}"' for i in range(count))), {'T': table(1)}, **wanted)


def names(cases):
    name, longer = 'N' * 64, 'N' * 65
    cases.script('name_of_a_data_set', f'DS_r <- {name};', components(name, KEY, INTEGER), {name: ROW['DS_1']}, outputs=SAME)
    cases.script('name_of_a_data_set_too_long', f'DS_r <- {longer};', PLAIN, ROW, line='error: syntax after 0 statements at byte 0', code=2)
    cases.script('name_of_a_declared_data_set_too_long', COPY, PLAIN + components(longer, KEY, INTEGER), ROW, line='error: structures line 4 rule 3', code=2)
    cases.script('name_of_a_result', f'{name} <- DS_1;', PLAIN, ROW, outputs={name: SAME['DS_r']})
    cases.script('name_of_a_result_too_long', f'{longer} <- DS_1;', PLAIN, ROW, line='error: syntax after 0 statements at byte 0', code=2)
    named = components('DS_1', KEY, (name, 'measure', 'integer'))
    cases.script('name_of_a_component', f"DS_r <- DS_1[calc {name} := '{name}' + 0];", named, {'DS_1': f'Id_1,{name}\na,7\n'}, outputs={'DS_r': f'Id_1,{name}\na,7\n'})
    cases.script('name_of_a_component_too_long', COPY, components('DS_1', KEY, (longer, 'measure', 'integer')), ROW, line='error: structures line 3 rule 4', code=2)
    cases.script('name_of_a_quoted_component_too_long', f"DS_r <- DS_1[calc '{longer}' := 1];", PLAIN, ROW, line='error: syntax after 0 statements at byte 0', code=2)
    text = 'SET SCALE 6 ROUNDING HALF_UP; INPUT "{0}" ("Id_1" TEXT, "Me_1" INTEGER) KEY ("Id_1"); EXPORT "{0}";\n'
    cases.text('name_of_an_input', text.format(name), {name: ROW['DS_1']}, outputs={name: SAME['DS_r']})
    cases.text('name_of_an_input_too_long', text.format(longer), {longer: ROW['DS_1']}, line='error: sql type in statement 2 rule 2', code=3)


# ---- numbers

def numbers(cases):
    def one(name, kind, scale, literal, **wanted):
        options = ['--scale', str(scale)]
        cases.script(name, COPY if literal is None else f'DS_r <- DS_1 + {literal};', components('DS_1', KEY, ('Me_1', 'measure', kind)),
                     {'DS_1': f'Id_1,Me_1\na,{wanted.pop("field")}\n'}, options, **wanted)

    def done(value):
        return {'outputs': {'DS_r': f'Id_1,Me_1\na,{value}\n'}}

    bad = {'line': 'error: input DS_1 line 2 column 2 BadValue', 'code': 4}
    out = {'line': 'error: out of range in DS_r', 'code': 5}
    typed = {'line': 'error: type in statement 1 rule 8', 'code': 3}
    one('numeral', 'integer', 6, None, field='0' * 63 + '7', **done(7))
    one('numeral_too_long', 'integer', 6, None, field='0' * 64 + '7', **bad)
    for scale in 0, 9:
        whole = 10 ** (18 - scale)
        step = '0.' + '0' * (scale - 1) + '1' if scale else '1'
        edge = str(whole - 1) + ('.' + '9' * scale if scale else '')
        for sign in '', '-':
            of = f'{"minus_" if sign else ""}integer_at_scale_{scale}'
            one(of, 'integer', scale, None, field=f'{sign}{whole - 1}', **done(f'{sign}{whole - 1}'))
            one(f'{of}_too_large', 'integer', scale, None, field=f'{sign}{whole}', **bad)
            one(f'{of}_reached', 'integer', scale, f'{sign}1', field=f'{sign}{whole - 2}', **done(f'{sign}{whole - 1}'))
            one(f'{of}_passed', 'integer', scale, f'{sign}1', field=f'{sign}{whole - 1}', **out)
            one(f'{of}_as_a_literal', 'integer', scale, f'{sign}{whole - 1}', field='0', **done(f'{sign}{whole - 1}'))
            one(f'{of}_as_a_literal_too_large', 'integer', scale, f'{sign}{whole}', field='0', **typed)
            of = f'{"minus_" if sign else ""}number_at_scale_{scale}'
            one(of, 'number', scale, None, field=f'{sign}{edge}', **done(f'{sign}{edge}'))
            one(f'{of}_rounded_away', 'number', scale, None, field=f'{sign}{edge}5' if scale else f'{sign}{edge}.5', **bad)
            one(f'{of}_rounded_back', 'number', scale, None, field=f'{sign}{edge}4' if scale else f'{sign}{edge}.4', **done(f'{sign}{edge}'))
            one(f'{of}_passed', 'number', scale, sign + step, field=f'{sign}{edge}', **out)
            one(f'{of}_as_a_literal', 'number', scale, f'{sign}{edge}' if scale else f'{sign}{edge}.0', field='0', **done(f'{sign}{edge}'))
    cases.script('scale_of_ten', COPY, PLAIN, ROW, ['--scale', '10'], line='error: usage', code=1)
    for scale, wanted in (9, {'outputs': {'DS_1': SAME['DS_r']}}), (10, {'line': 'error: sql type in statement 1 rule 6', 'code': 3}):
        cases.text(f'scale_of_a_text_{scale}', f'SET SCALE {scale} ROUNDING DOWN; INPUT "DS_1" ("Id_1" TEXT, "Me_1" INTEGER) KEY ("Id_1"); EXPORT "DS_1";', ROW, **wanted)


# ---- nodes and depth

def nodes(cases):
    def signs(count):
        statements, name = [], 'DS_1'
        while count:
            taken = min(count, 126)
            statements.append(f'r{len(statements)} := ' + '- ' * taken + name + ';\n')
            name = f'r{len(statements) - 1}'
            count -= taken
        return ''.join(statements) + f'DS_r <- {name};\n', len(statements)

    cases.script('nodes', signs(4096)[0], PLAIN, ROW, outputs=SAME)
    script, statements = signs(4097)
    cases.script('nodes_too_many', script, PLAIN, ROW, line=f'error: type in statement {statements} rule 20', code=3)


SETS = (PLAIN + components('DS_2', KEY, ('Me_1', 'measure', 'string')) + components('DS_3', KEY, ('Me_1', 'measure', 'boolean'))
        + components('DS_4', KEY) + components('DS_5', KEY, ('I_2', 'identifier', 'string'), INTEGER))
DATA = {'DS_1': 'Id_1,Me_1\na,7\n', 'DS_2': 'Id_1,Me_1\na,s\n', 'DS_3': 'Id_1,Me_1\na,true\n', 'DS_4': 'Id_1\na\n', 'DS_5': 'Id_1,I_2,Me_1\na,B0,7\n'}


# a name, what opens a level, what stands innermost, what closes a level, how many levels there are, and the value
SHAPES = [
    ('brackets', '(', 'DS_1', ')', 127, 7),
    ('minus', '- ', 'DS_1', '', 127, -7),
    ('plus', '+ ', 'DS_1', '', 127, 7),
    ('differences', '', 'DS_1', ' - 1', 127, 7 - 127),
    ('products', '', 'DS_1', ' * 1', 127, 7),
    ('texts', '', 'DS_2', ' || "x"', 127, 's' + 'x' * 127),
    ('not', 'not ', 'DS_3', '', 127, 'false'),
    ('and', '', 'DS_3', ' and true', 127, 'true'),
    ('xor', '', 'DS_3', ' xor true', 127, 'false'),
    ('abs', 'abs(', 'DS_1', ')', 127, 7),
    ('nvl', 'nvl(', 'DS_1', ', 0)', 127, 7),
    ('round', 'round(', 'DS_1', ', 0)', 127, 7),
    ('trim', 'trim(', 'DS_2', ')', 127, 's'),
    ('replace', 'replace(', 'DS_2', ', "s", "s")', 127, 's'),
    ('if_of_data_sets', 'if DS_3 then ', 'DS_1', ' else DS_1', 127, 7),
    ('else_of_data_sets', 'if DS_3 then DS_1 else ', 'DS_1', '', 127, 7),
    ('condition_of_data_sets', 'if ', 'DS_3', ' then DS_3 else DS_3', 127, 'true'),
    ('filters', '', 'DS_1', '[filter Me_1 > 0]', 126, 7),
    ('calculations', '', 'DS_1', '[calc Me_1 := Me_1 + 1]', 126, 7 + 126),
    ('unions', 'union(', 'DS_1', ', DS_1)', 127, 7),
    ('intersections', 'intersect(', 'DS_1', ', DS_1)', 127, 7),
    ('joins', 'inner_join(', 'DS_1', ' as a, DS_4)', 127, 7),
    ('left_joins', 'left_join(', 'DS_1', ' as a, DS_4)', 127, 7),
    ('full_joins', 'full_join(', 'DS_1', ' as a, DS_4)', 127, 7),
    ('sums', 'sum(', 'DS_1', ' group by Id_1)', 127, 7),
    ('windows', 'max(', 'DS_1', ' over (partition by Id_1))', 127, 7),
    ('calc_brackets', 'DS_1[calc Me_1 := #(', 'Me_1', ')#]', 126, 7),
    ('calc_minus', 'DS_1[calc Me_1 := #- ', 'Me_1', '#]', 126, 7),
    ('calc_sums', 'DS_1[calc Me_1 := #', 'Me_1', ' + 1#]', 126, 7 + 126),
    ('calc_abs', 'DS_1[calc Me_1 := #abs(', 'Me_1', ')#]', 126, 7),
    ('calc_nvl', 'DS_1[calc Me_1 := #nvl(', 'Me_1', ', 0)#]', 126, 7),
    ('calc_nvl_to_the_right', 'DS_1[calc Me_1 := #nvl(Me_1, ', 'Me_1', ')#]', 126, 7),
    ('calc_then', 'DS_1[calc Me_1 := #if true then ', 'Me_1', ' else 0#]', 126, 7),
    ('calc_else', 'DS_1[calc Me_1 := #if false then 0 else ', 'Me_1', '#]', 126, 7),
    ('calc_condition', 'DS_3[calc Me_1 := #if ', 'Me_1', ' then true else false#]', 126, 'true'),
    ('calc_between', 'DS_1[calc Me_1 := #nvl(mod(', 'Me_1', ', 10), 0)#]', 63, 7),
    ('calc_texts', 'DS_2[calc Me_1 := #replace(', 'Me_1', ', "s", "s")#]', 126, 's'),
    ('filter_not', 'DS_3[filter #not ', 'Me_1', '#]', 126, 'true'),
    ('filter_and', 'DS_3[filter #', 'Me_1', ' and Me_1#]', 126, 'true'),
]


def nested(opens, inner, closes, levels):
    before, _, opens = opens.rpartition('#')
    closes, _, behind = closes.partition('#')
    return before + opens * levels + inner + closes * levels + behind


def depths(cases):
    for name, opens, inner, closes, levels, value in SHAPES:
        cases.script(f'depth_of_{name}', f'DS_r <- {nested(opens, inner, closes, levels)};', SETS, DATA, outputs={'DS_r': f'Id_1,Me_1\na,{value}\n'})
        cases.script(f'depth_of_{name}_too_deep', f'DS_x := DS_1; DS_r <- {nested(opens, inner, closes, levels + 1)};', SETS, DATA,
                     line='error: syntax after 1 statements at byte 14', code=2)
    for more in 0, 1:
        items = ' + '.join(f'B{i}' for i in range(127 + more))
        rules = f'define hierarchical ruleset h (variable rule I_2) is A = {items} end hierarchical ruleset;'
        wanted = {'line': 'error: syntax after 0 statements at byte 0', 'code': 2} if more else {'outputs': {'DS_r': 'Id_1,I_2,Me_1\na,A,7\n'}}
        cases.script(f'depth_of_a_hierarchical_rule{"_too_deep" * more}', f'{rules} DS_r <- hierarchy(DS_5, h rule I_2 partial_zero);', SETS, DATA, **wanted)
        condition = 'not ' * (127 + more) + 'Me_1'
        rules = f'define datapoint ruleset d (variable Me_1) is {condition} end datapoint ruleset;'
        wanted = {'line': 'error: syntax after 0 statements at byte 0', 'code': 2} if more else {'outputs': {'DS_r': 'Id_1,ruleid,bool_var,errorcode,errorlevel\na,1,false,,\n'}}
        cases.script(f'depth_of_a_datapoint_rule{"_too_deep" * more}', f'{rules} DS_r <- check_datapoint(DS_3, d all);', SETS, DATA, **wanted)


A, B, S = '"t"."a"', '"t"."b"', '"t"."s"'
SQL_SHAPES = [
    ('minus', '- ', A, '', 511, -7),
    ('plus', '+ ', A, '', 511, 7),
    ('not', 'NOT ', B, '', 511, 'false'),
    ('brackets', '(', A, ')', 511, 7),
    ('sums', '', A, ' + 1', 511, 7 + 511),
    ('products', '', A, ' * 1', 511, 7),
    ('texts', '', S, " || 'x'", 511, 's' + 'x' * 511),
    ('and', '', B, ' AND TRUE', 511, 'true'),
    ('or', '', B, ' OR FALSE', 511, 'true'),
    ('xor', '', B, ' XOR TRUE', 511, 'false'),
    ('abs', 'ABS(', A, ')', 511, 7),
    ('mod', 'MOD(', A, ', 10)', 511, 7),
    ('coalesce', 'COALESCE(', A, ', 0)', 511, 7),
    ('coalesce_to_the_right', 'COALESCE(NULL, ', A, ')', 511, 7),
    ('replace', 'REPLACE(', S, ", 's', 's')", 511, 's'),
    ('when', 'CASE WHEN ', B, ' THEN TRUE ELSE FALSE END', 511, 'true'),
    ('then', 'CASE WHEN TRUE THEN ', A, ' ELSE 0 END', 511, 7),
    ('else', 'CASE WHEN FALSE THEN 0 ELSE ', A, ' END', 511, 7),
    ('second_when', 'CASE WHEN FALSE THEN 0 WHEN TRUE THEN ', A, ' ELSE 0 END', 511, 7),
    ('brackets_of_an_aggregate', 'MIN(#(', A, ')#)', 510, 7),
]
SQL_HEAD = 'SET SCALE 6 ROUNDING HALF_UP; INPUT "T" ("a" INTEGER, "b" BOOLEAN, "s" TEXT) KEY ("a"); '
SQL_DATA = {'T': 'a,b,s\n7,true,s\n'}


def sql_depths(cases):
    too_deep = {'line': f'error: sql syntax after 2 statements at byte {len(SQL_HEAD)}', 'code': 3}

    def both(name, query, shape, levels, value):
        for more in 0, 1:
            text = SQL_HEAD + f'CREATE TABLE "U" AS {query.replace("#", nested(*shape, levels + more))}; EXPORT "U";'
            cases.text(f'sql_depth_of_{name}{"_too_deep" * more}', text, SQL_DATA, **(too_deep if more else {'outputs': {'U': f'c\n{value}\n'}}))

    for name, opens, inner, closes, levels, value in SQL_SHAPES:
        both(name, 'SELECT # AS "c" FROM "T" AS "t"', (opens, inner, closes), levels, value)
    deep = ('CASE WHEN TRUE THEN ', B, ' ELSE FALSE END')
    both('where', 'SELECT "t"."a" AS "c" FROM "T" AS "t" WHERE #', deep, 511, 7)
    both('on', 'SELECT "t"."a" AS "c" FROM "T" AS "s" INNER JOIN "T" AS "t" ON #', deep, 511, 7)
    both('having', 'SELECT COUNT(*) AS "c" FROM "T" AS "t" GROUP BY "t"."b" HAVING #', deep, 511, 1)


def main(folder, *words):
    cases = Cases(folder)
    made = [large] if words == ('large',) else [sizes, rows, edits, widths, names, numbers, nodes, depths, sql_depths]
    for make in made:
        cases.stack = {nodes: STACK, depths: STACK, sql_depths: STACK_OF_A_TEXT}.get(make)
        make(cases)


main(*sys.argv[1:])
