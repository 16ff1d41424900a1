"""Stories of tests as text: what run-tests.py makes of a file tests/NAME/*.rows.

A file begins with a note, in lines '# ..', of what its stories are about. A story is one heading or several, each a test: what it says, a
colon, and how it is played, as 'who waits is woken by a drop: both 1'. Below it, set in, stand its rows: 'two poll -> ready 1, 0 available,
wakes nobody'. A note in lines '# ..' above a heading, or among the rows, is of what comes next.

A story can be told of several cases: a line 'with first / behind' names what its rows have in braces, and each further line 'with read / write'
is a case, by which the story is played once. A heading that stands above several stories is one test, which plays them all.

tests/NAME/rows.form says how such a text reads, or tests/NAME/TEXT.form how TEXT.rows alone does: a line 'row ..', with the type of each field in
braces; lines 'play WORDS = CODE', in which {N} stands for a number and ROWS for the story's; the lines 'use ..' of the module that is made; and
'in NAME', where types stand in another folder, or in this file of a crate. A type is an enum of these folders, whose variants are told in words,
with what they carry after them; a number; a 'bool', yes or no; an 'Option' of one of these, which may be none; 'Text' and 'Bytes', in quotes, as
Rust has them; 'Words', such texts or none; or 'Woken', the names of all who were woken, or 'nobody'.

A file NAME.text has rows of scripts: a line '== NAME', the script, a line that ends in '=>', and what it prints. NAME.scripts stands for such a
text of the scripts of the folder that it names, in the order of their names.

A file NAME.codes makes functions that tell the values of enums apart which have no `#[derive(Hash)]`: lines 'of TYPE', lines 'in FILE' for the
crates' files where the enums stand, and lines 'use ..'. `code_of_TYPE` gives one number for the variant and for what it carries of few values, and
beside it the numbers that it carries. What a type parameter stands for isn't told apart.

A file NAME.lines makes a constant, LINES: each of its lines, in which bytes are written as in Rust's texts of bytes.
"""

import glob
import math
import os
import re

WOKEN = 'Woken'
REASONS = 'crates/lock_program/src/refusal.rt'


def text_of(path):
    with open(path, encoding='utf-8') as file:
        return file.read()


def words_of(variant):
    """Returns a variant's name in words."""
    return re.sub(r'(?<=[a-z])(?=[A-Z])', ' ', variant).lower()


def enums_of(texts):
    """Returns the variants of each plain enum: by its name, each in words with its own name and the types that it carries."""
    found = {}
    for text in texts:
        for name, body in re.findall(r'(?ms)^\s*(?:pub(?:\(crate\))? )?enum (\w+) \{\n(.*?)^\s*\}', text):
            variants = re.findall(r'(?m)^ +(\w+)(?:\(([^()]*)\))?(?: = \d+)?,$', body)
            found[name] = {words_of(it): (it, [one.strip() for one in types.split(',') if one.strip()]) for it, types in variants}
    return found


class Form:
    """How the rows of a folder read."""

    def __init__(self, top, folder, path):
        own = f'{os.path.splitext(path)[0]}.form'
        lines = text_of(own if os.path.isfile(own) else f'{folder}/rows.form').split('\n')
        of = lambda word: [line[len(word) + 1 :] for line in lines if line.startswith(f'{word} ')]
        files = [it for it in of('in') if it.endswith('.rt')]
        folders = [folder, *(f'{os.path.dirname(folder)}/{it}' for it in of('in') if it not in files)]
        texts = [text_of(it) for at in folders for it in sorted(glob.glob(f'{at}/*.rattle'))]
        self.enums = enums_of([*texts, *(text_of(f'{top}/{it}') for it in [REASONS, *files])])
        self.woken = '[{}]' if any(f'type {WOKEN} = [' in it for it in texts) else '({})'
        self.uses = [f'use {it}' for it in of('use')]
        self.plays = [tuple(it.split(' = ', 1)) for it in of('play')]
        (row,) = of('row')
        self.row_text = row
        self.types = re.findall(r'\{(\w+)\}', row)
        self.row = re.compile(re.sub(r'\\\{\w+\\\}', '(.+?)', re.escape(row)))

    def value(self, kind, words):
        """Returns the code of the value of this type with which the words begin, and the words that are left."""
        if kind == WOKEN:
            names = [it for it, _ in self.enums['Name'].values()]
            woken = set() if words == ['nobody'] else {word.capitalize() for word in words if word != 'and'}
            assert woken <= set(names), words
            return self.woken.format(', '.join(str(it in woken).lower() for it in names)), []
        if kind in ('Text', 'Bytes'):
            text = ' '.join(words)
            assert text[0] == text[-1] == '"', text
            return ('b' if kind == 'Bytes' else '') + text, []
        if kind == 'Words':
            return '&[' + ', '.join(re.findall('"[^"]*"', ' '.join(words))) + ']', []
        if kind.startswith('Option<'):
            if words[0] == 'none':
                return 'None', words[1:]
            value, rest = self.value(kind[7:-1], words)
            return f'Some({value})', rest
        if kind == 'bool':
            return str(('no', 'yes').index(words[0]) == 1).lower(), words[1:]
        if kind not in self.enums:
            return str(int(words[0])), words[1:]
        for many in range(len(words), 0, -1):
            if ' '.join(words[:many]) in self.enums[kind]:
                variant, types = self.enums[kind][' '.join(words[:many])]
                values, rest = [], words[many:]
                for it in types:
                    one, rest = self.value(it, rest)
                    values.append(one)
                return f"{kind}::{variant}" + f"({', '.join(values)})" * bool(values), rest
        raise ValueError(f"no {kind} begins with '{' '.join(words)}'")

    def fields(self, line):
        """Returns the code of each field of a row."""
        found = self.row.fullmatch(line)
        if not found:
            raise ValueError(f'no row: {line}')
        values = []
        for kind, text in zip(self.types, found.groups()):
            value, left = self.value(kind, text.split())
            if left:
                raise ValueError(f"'{' '.join(left)}' is too much: {line}")
            values.append(value)
        return values

    def played(self, how, rows):
        """Returns the code that plays these rows."""
        for words, code in self.plays:
            found = re.fullmatch(words.replace('{N}', r'(\d+)'), how)
            if found:
                return code.replace('{N}', found[1] if found.groups() else '').replace('ROWS', rows)
        raise ValueError(f'no way to play: {how}')


def stories_of(text):
    """Yields each story of a text: its headings, each with how it is played, and its rows."""
    headings, rows = [], []
    for line in [*text.split('\n'), 'end: end']:
        if not line.strip() or line.lstrip().startswith('#'):
            continue
        if line.startswith(' '):
            rows.append(line.strip())
            continue
        if rows:
            yield headings, rows
            headings, rows = [], []
        headings.append(tuple(line.rsplit(': ', 1)))


def cases_of(rows):
    """Yields the rows of a story for each of its cases: once, as they stand, where it has none."""
    cases = [[it.strip() for it in row.removeprefix('with ').split('/')] for row in rows if row.startswith('with ')]
    rows = [row for row in rows if not row.startswith('with ')]
    for case in cases[1:] or [[]]:
        yield [re.sub(r'\{(\w+)\}', lambda found: case[cases[0].index(found[1])], row) for row in rows]


def tests_of(top, folder, path):
    """Returns the module of tests that a file of stories is."""
    form, text = Form(top, folder, path), text_of(path)
    lines, tests = ['//! Stories as text.', '', *form.uses], {}
    played = [(headings, rows) for headings, story in stories_of(text) for rows in cases_of(story)]
    for number, (headings, rows) in enumerate(played):
        name = f'ROWS_{number}'
        lines += ['', f'const {name}: [Row; {len(rows)}] = [', *(f"    ({', '.join(form.fields(row))})," for row in rows), '];']
        for said, how in headings:
            tests.setdefault(re.sub(r'[^a-z0-9]+', '_', said.lower()), []).append(f'    {form.played(how, f"&{name}")}')
    for name, plays in tests.items():
        lines += ['', '#[test]', f'fn {name}(rt: HostRuntime) {{', *plays, '}']
    return '\n'.join(lines) + '\n'


def texts(rows):
    """Returns the module of a text of rows, with how many they are."""
    assert '\\' not in rows and '"' not in rows
    many = len(re.findall(r'(?m)^== ', rows))
    return f'//! Rows as text.\n\npub const ROWS: &str = "\\\n{rows}";\n\npub const HOW_MANY: usize = {many};\n'


def scripts(folder):
    """Returns the text of a folder's scripts with their answers."""
    said = []
    for path in sorted(glob.glob(f'{folder}/*.script')):
        stem = path.removesuffix('.script')
        said.append(f'== {os.path.basename(stem)}\n{text_of(path)}=>\n{text_of(f"{stem}.answers")}')
    return ''.join(said)


def parts_of(text):
    """Returns what a list has between its commas, but for those inside brackets."""
    parts, depth = [''], 0
    for it in text:
        depth += (it in '({<') - (it in ')}>')
        parts += [''] if it == ',' and not depth else []
        parts[-1] += '' if it == ',' and not depth else it
    return [it.strip() for it in parts if it.strip()]


def shapes_of(text):
    """Returns each enum of a file: by its name, its type parameter if it has one, and each variant with its fields, in brackets or in braces."""
    found = {}
    for name, parameter, body in re.findall(r'(?ms)^pub enum (\w+)(<\w+>)? \{\n(.*?)^\}', text):
        lines = [line.strip() for line in body.split('\n') if not line.strip().startswith(('//', '#'))]
        found[name] = parameter, [re.fullmatch(r'(\w+) ?(?:\((.*)\)|\{(.*)\})?', it).groups() for it in parts_of(' '.join(lines))]
    return found


class Codes:
    """Functions that give each value of some enums a number, and beside it the numbers that it carries: at most two."""

    def __init__(self, shapes):
        self.shapes, self.made = shapes, {}

    def fields(self, variant):
        """Returns the fields of a variant, each with its type."""
        _, listed, named = variant
        return [tuple(it.split(': ')) for it in parts_of(named or '')] or [(f'it_{at}', kind) for at, kind in enumerate(parts_of(listed or ''))]

    def of_each(self, kind, sums, count):
        """Returns what this counts of the fields of each variant, as one number."""
        return sums(count(it for _, it in self.fields(variant)) for variant in self.shapes[kind][1])

    def size(self, kind):
        """Returns how many numbers tell the values of a type apart, beside those that they carry."""
        kind = kind.split('<')[0]
        if kind in self.shapes:
            return self.of_each(kind, sum, lambda kinds: math.prod(map(self.size, kinds)))
        return 2 if kind in ('bool', 'Option') else 1

    def carries(self, kind):
        """Returns how many numbers a value of a type carries."""
        if kind.split('<')[0] in self.shapes:
            return self.of_each(kind.split('<')[0], max, lambda kinds: sum(map(self.carries, kinds)))
        return int('u64' in kind)

    def arm(self, enum, first, variant):
        """Returns the arm for a variant, whose numbers begin at this one."""
        name, listed, named = variant
        told, carried, bound, stride = [str(first)], [], [], 1
        for field, kind in self.fields(variant):
            code = self.make(kind.split('<')[0])
            number = {'bool': f'u64::from({field})', 'Option<u64>': f'u64::from({field}.is_some())'}.get(kind, code and f'{code}({field})[0]')
            told += [f'{stride} * {number}'] if number else []
            carried += {'u64': [field], 'Option<u64>': [f'{field}.unwrap_or(0)']}.get(kind, [])
            carried += [f'{code}({field})[{1 + at}]' for at in range(self.carries(kind))] if code else []
            assert number or kind == 'u64' or f'<{kind}>' == self.shapes[enum][0], f'{enum}::{name} carries what no file here tells of: {kind}'
            bound.append(field if number or kind == 'u64' else f'{field}: _' if named else '_')
            stride *= self.size(kind)
        assert len(carried) < 3, variant
        of = f' {{ {", ".join(bound)} }}' if named else f'({", ".join(bound)})' if listed else ''
        return f'        {enum}::{name}{of} => [{" + ".join(told)}, {", ".join([*carried, "0", "0"][:2])}],\n'

    def make(self, enum):
        """Makes the function of an enum, and of each enum that it carries, and returns its name: none of another type."""
        if enum not in self.shapes:
            return None
        name = f'code_of_{words_of(enum).replace(" ", "_")}'
        if enum not in self.made:
            self.made[enum], first, arms = '', 0, ''
            parameter, variants = self.shapes[enum]
            for variant in variants:
                arms += self.arm(enum, first, variant)
                first += math.prod(self.size(kind) for _, kind in self.fields(variant))
            head = f'pub fn {name}{parameter.replace(">", ": Copy>")}(it: {enum}{parameter}) -> [u64; 3] {{'
            self.made[enum] = f'\n{head}\n    match it {{\n{arms}    }}\n}}\n'
        return name


def codes(top, text):
    """Returns the module of numbers for values of enums."""
    of = lambda word: [line[len(word) + 1 :] for line in text.split('\n') if line.startswith(f'{word} ')]
    made = Codes({name: shape for path in of('in') for name, shape in shapes_of(text_of(f'{top}/{path}')).items()})
    for enum in of('of'):
        made.make(enum)
    uses = ''.join(f'use {it}\n' for it in of('use'))
    return f'//! Numbers for values of enums: no two have the same.\n\n{uses}{"".join(made.made.values())}'


def lines(text):
    """Returns the module of a constant of lines."""
    rows = [line.replace('"', '\\"') for line in text.removesuffix('\n').split('\n')]
    listed = ''.join(f'    b"{row}",\n' for row in rows)
    return f'//! Lines as text.\n\npub const LINES: [&[u8]; {len(rows)}] = [\n{listed}];\n'


def module_of(top, folder, path):
    """Returns the name and the text of the module that a file of a test makes, or none where it makes none."""
    stem, ending = os.path.splitext(os.path.relpath(path, folder))
    if ending == '.rattle':
        return stem, text_of(path)
    if ending == '.rows':
        return f'{stem}_rows', tests_of(top, folder, path)
    if ending == '.text':
        return stem, texts(text_of(path))
    if ending == '.scripts':
        return stem, texts(scripts(f'{top}/{text_of(path).strip()}'))
    if ending == '.codes':
        return stem, codes(top, text_of(path))
    if ending == '.lines':
        return stem, lines(text_of(path))
    return None
