"""Compares tests/promises/list.txt with the tree: every promise stands, is cited by its call, and reads as the list knows it.

  check.py          one line for each fault: the row, what is wrong, what to do; exit 1 if there are any
  check.py --update prints the rows as the tree is now, for a person to read and paste; it writes nothing
definitions.py reads statements and what they name, calls.py the functions and the clauses of their contracts.
"""
import re
import sys
from pathlib import Path

from calls import clauses_for_the_list, public_clauses, public_function
from definitions import Scope, Tree, Unreadable, imported

HERE = Path(__file__).resolve().parent
MUST_FAIL = 'must-fail '


class Row:
    def __init__(self, number, line):
        parts = [part.strip() for part in line.split(' | ')]
        if len(parts) != 4 or not all(parts) or ':' not in parts[1]:
            raise Unreadable(f'row {number} is not "says | crate/specs/File.antt:Name | crate::call clause | digest"')
        self.number = number
        self.says, self.statement, self.holder, self.digest = parts
        self.key = tuple(self.statement.rsplit(':', 1))
        if self.is_cited() and not re.fullmatch(r'\w+(::\w+)+ \w+', self.holder):
            raise Unreadable(f'row {number} names no call and clause: "{self.holder}"')

    def is_cited(self):
        return not self.holder.startswith(MUST_FAIL)

    def line(self, digest):
        return ' | '.join([self.says, self.statement, self.holder, digest])


def read_list(path):
    """The rows, and how many the list says it has."""
    lines = [line for line in path.read_text().splitlines() if line.strip() and not line.startswith('#')]
    head = re.fullmatch(r'rows: (\d+)', lines[0]) if lines else None
    if not head:
        raise Unreadable('list.txt does not begin with "rows: N"')
    return [Row(number, line) for number, line in enumerate(lines[1:], 1)], int(head.group(1))


def clause_of(tree, row):
    """The function and the clause that a row names; raises Unreadable where they do not cite the statement."""
    call, _, name = row.holder.partition(' ')
    function = public_function(tree, call)
    clause = next((clause for clause in function.clauses if clause.name == name), None)
    if not clause:
        raise Unreadable(f'{call} has no clause "{name}"')
    if row.key not in clause.keys:
        raise Unreadable(f'clause "{name}" of {call} does not name it')
    return function, clause


def digest_of(tree, row):
    """The digest of a row as the tree is: of its statement, and of the clause that cites it."""
    tree.definition(row.key)
    if row.is_cited():
        _, clause = clause_of(tree, row)
        return tree.digest(clause.text, clause.keys)
    check_edit(tree, row)
    return tree.digest(row.holder, [row.key])


def check_edit(tree, row):
    """The must-fail edit that a row names is there, and edits a file with a definition that the statement names."""
    name = row.holder[len(MUST_FAIL):]
    path = tree.crates / name
    if not path.is_file():
        raise Unreadable(f'there is no edit {name}')
    file = re.search(r'^file: (\S+)$', path.read_text(), re.MULTILINE)
    edited = f'{name.split("/")[0]}/{file.group(1)}' if file else ''
    if edited not in {full.rsplit(':', 1)[0] for full in tree.reached([row.key])}:
        raise Unreadable(f'{name} edits nothing that it names')


def fault_of_row(tree, row):
    """What is wrong with a row and what to do, or None."""
    try:
        digest = digest_of(tree, row)
    except Unreadable as fault:
        gone = str(fault) == f'{row.statement} is gone'
        what = 'the statement is gone' if gone else str(fault)
        return f'{what}; put it back, or take this row out with its reason'
    if digest != row.digest:
        return (
            f'it reads otherwise than the list knows: the statement, its clause or a definition below it has changed (now {digest}); '
            'undo that, or paste the row of run.sh --update with its reason'
        )
    return None


def row_faults(tree, rows):
    faults, seen = [], set()
    for row in rows:
        fault = fault_of_row(tree, row)
        if (row.statement, row.holder) in seen:
            fault = 'the row stands twice; take one out'
        seen.add((row.statement, row.holder))
        if fault:
            faults.append(f'row {row.number} ({row.statement}, {row.holder}): {fault}')
    return faults


def uncited_clauses(tree, rows):
    """(function, clause) of each clause that cites a promise and has no row."""
    known = set()
    for row in filter(Row.is_cited, rows):
        try:
            function, clause = clause_of(tree, row)
            known.add((function.source.name, function.name, clause.name))
        except Unreadable:
            pass  # told with the row
    return [(f, c) for f, c in clauses_for_the_list(tree) if (f.source.name, f.name, c.name) not in known]


def proved_names(tree):
    """The keys of what a file of proofs/ proves by its name alone, as `pub demanded : Demanded`."""
    keys = set()
    for name in tree.names_of('*/proofs/**/*.antt'):
        text = (tree.crates / name).read_text()
        found = re.findall(r'^(?:pub )?[^\s:]+ : ([^\s:]+)$', text, re.MULTILINE)
        if found:
            scope = Scope()
            for line in re.findall(r'^use \S+\.\{[^}]*\}|^use \S+ as \S+', text, re.MULTILINE):
                scope.add(line, name)
            keys |= {key for token in found for key in imported(scope, token)[1]}
    return keys


def held_by_nothing(tree, rows):
    """The statements that no row and no clause for the list names, nor a definition that these name."""
    keys = [row.key for row in rows] + [key for _, clause in clauses_for_the_list(tree) for key in clause.keys]
    held = tree.reached(keys, gone=set())  # what is gone is told with its row
    proved = proved_names(tree)
    free = []
    for file in tree.names_of('*/specs/**/*.antt'):
        for name, definition in tree.file(file).definitions.items():
            is_statement = definition.plain and (definition.tokens[0] == 'unfoldable' or (file, name) in proved)
            if is_statement and definition.full not in held:
                free.append(definition.full)
    return free


def loose_contracts(tree, rows):
    """(function, clause, definition) of contracts of public functions that name a definition which no row reaches, until a row for each would hold all."""
    held, found = set(), []
    for row in rows:
        keys = [row.key]
        try:
            keys += clause_of(tree, row)[1].keys if row.is_cited() else []
        except Unreadable:
            pass  # told with the row
        held |= set(tree.reached(keys, gone=set()))
    listed = {clause for _, clause in clauses_for_the_list(tree)}
    open_ones = [(f, c, set(tree.reached(c.keys, gone=set()))) for f, c in public_clauses(tree) if c not in listed]
    while True:
        function, clause, names = max(open_ones, key=lambda one: len(one[2] - held), default=(None, None, held))
        if not names - held:
            return found
        found.append((function, clause, min(names - held)))
        held |= names


def faults_of(tree, rows, count):
    faults = row_faults(tree, rows)
    if len(rows) != count:
        faults.append(f'the list has {len(rows)} rows and its head says {count}; put the row back, or change the head with the reason')
    for function, clause in uncited_clauses(tree, rows):
        faults.append(f'clause "{clause.name}" of {function.name} in {function.source.name} has no row; add the row that run.sh --update prints')
    for function, clause, name in loose_contracts(tree, rows):
        faults.append(
            f'clause "{clause.name}" of {function.name} in {function.source.name} names {name}, which no row holds; add the row that run.sh --update prints'
        )
    for statement in held_by_nothing(tree, rows):
        faults.append(f'{statement} is a statement that nothing holds; cite it in a clause of a public call, and add its row')
    return faults


def call_path(tree, function):
    """crate::name, or for a program crate::module::name."""
    crate, _, file = function.source.name.split('/', 2)
    module = file[:-len('.rt')].replace('/', '::')
    return f'{crate}::{function.name}' if tree.front(crate) == 'lib' or module == 'main' else f'{crate}::{module}::{function.name}'


def print_update(tree, rows):
    """The head and every row as the tree is now; what has no row yet comes with NEW in place of its words."""
    lines = []
    for row in rows:
        try:
            lines.append(row.line(digest_of(tree, row)))
        except Unreadable as fault:
            print(f'# row {row.number} goes ({fault}): {row.says}')
    loose = [(function, clause) for function, clause, _ in loose_contracts(tree, rows)]
    for function, clause in uncited_clauses(tree, rows) + loose:
        statement = ':'.join(next((key for key in clause.keys if key[0].split('/')[1] == 'specs'), ('?', '?')))
        row = Row(len(lines) + 1, f'NEW | {statement} | {call_path(tree, function)} {clause.name or "?"} | ?')
        lines.append(row.line(digest_of(tree, row) if clause.name else '?'))
    for statement in held_by_nothing(tree, rows):
        print(f'# nothing holds {statement}')
    print(f'rows: {len(lines)}', *lines, sep='\n')


def main(arguments):
    tree = Tree(HERE.parent.parent)
    try:
        rows, count = read_list(HERE / 'list.txt')
        if arguments == ['--update']:
            print_update(tree, rows)
            return 0
        faults = faults_of(tree, rows, count)
    except Unreadable as fault:
        faults = [f'{fault}; mend it, or teach tests/promises to read it']
        rows = []
    for fault in faults:
        print(f'promises: {fault}')
    print(f'promises: {len(rows)} rows, {len(faults)} faults')
    return 1 if faults else 0


if __name__ == '__main__':
    sys.exit(main(sys.argv[1:]))
