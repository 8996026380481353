"""The functions of crates/*/src/*.rt with the clauses of their contracts: which are public, what they call, and which clauses must have a row."""
import re

from definitions import Unreadable, antt_tokens, imported, matching

OWN_CLAUSES = ('answer', 'gives')  # what a function says of its own answer
MODIFIERS = ('pub', 'extern', '"C"', '(', 'crate', ')', 'const', 'unsafe')


class Clause:
    """`ensures NAME { .. }`; a clause without a name is known as "ensures"."""

    def __init__(self, name, text, source):
        tokens = antt_tokens(text)
        says_nothing_of_the_result = not any(token.split('.')[0] == 'result' or 'new' in token.split('.')[1:] for token in tokens)
        self.name = name or 'ensures'
        self.is_promise = says_nothing_of_the_result or name not in ('', *OWN_CLAUSES)
        pairs = [named_in(source, token) for token in tokens]
        self.text = ' '.join(text for text, _ in pairs)
        self.keys = [key for _, keys in pairs for key in keys]


def named_in(source, token):
    """(text, keys) of a token of a clause: a `ghost use` brings it, or it is a type of the source."""
    text, keys = imported(source.scope, token)
    kind = token.partition('.')[0]
    if keys or not (kind in source.definitions or kind in source.uses):
        return text, keys
    return text, source.resolve(kind)[1]


class Function:
    """A function of a source file; a method is known as TYPE::NAME."""

    def __init__(self, source, at, owner):
        tokens = source.tokens
        self.source = source
        self.crate = source.crate
        self.name = f'{owner}::{tokens[at + 1]}' if owner else tokens[at + 1]
        self.clauses = []
        front = at
        while front and tokens[front - 1] in MODIFIERS:
            front -= 1
        before = tokens[front:at]
        self.is_public = 'pub' in before and 'crate' not in before
        self.is_exported = self.is_public and 'extern' in before and 'no_mangle' in tokens[front - 4:front]
        self.calls = self.read_contract(tokens.index('(', at))

    def read_contract(self, at):
        """Takes the clauses between the parameters and the body; gives what the body calls."""
        tokens, spans = self.source.tokens, self.source.spans
        at = matching(tokens, at) + 1
        while tokens[at] != '{':
            if tokens[at] in '([':
                at = matching(tokens, at)
            elif tokens[at] == ';':
                raise Unreadable(f'{self.source.name}: {self.name} has no body')
            elif tokens[at] in ('ensures', 'requires'):
                word, name = tokens[at], tokens[at + 1] if tokens[at + 1] != '{' else ''
                start = at + (2 if name else 1)
                at = matching(tokens, start)
                if word == 'ensures':
                    self.clauses.append(Clause(name, self.source.text[spans[start][1]:spans[at][0]], self.source))
            at += 1
        end = matching(tokens, at)
        return {tokens[i] for i in range(at, end) if tokens[i + 1] == '(' and (tokens[i][0].isalpha() or tokens[i][0] == '_')}


def owners_of(source):
    """(first, last, what stands between `impl` and its block) of each impl block, by tokens."""
    tokens, found, at = source.tokens, [], 0
    while at < len(tokens):
        if tokens[at] == '{':
            at = matching(tokens, at)
        elif tokens[at] == 'impl' and (at == 0 or tokens[at - 1] in ('}', ';', ']')):
            block = tokens.index('{', at)
            last = matching(tokens, block)
            found.append((block, last, ' '.join(tokens[at + 1:block])))
            at = last
        at += 1
    return found


def functions_of(source):
    """The functions of one source file by name."""
    if not hasattr(source, 'functions'):
        starts = [i for i, token in enumerate(source.tokens[:-1]) if token == 'fn' and source.tokens[i + 1] != '(']
        owners = owners_of(source)
        functions = [Function(source, i, next((owner for first, last, owner in owners if first < i < last), None)) for i in starts]
        source.functions = {function.name: function for function in functions}
        if len(source.functions) != len(starts):
            raise Unreadable(f'{source.name}: two functions have the same name')
    return source.functions


def crate_functions(tree, crate):
    return [function for file in tree.names_of(f'{crate}/src/**/*.rt') for function in functions_of(tree.file(file)).values()]


def callees(tree, function):
    """The functions of this project that a function calls."""
    source, found = function.source, []
    for call in function.calls:
        first, _, rest = call.partition('::')
        path = source.uses.get(first, first) + ('::' + rest if rest else '')
        home = source
        if '::' in path:
            home = tree.home_of(function.crate, path.split('::'), lambda source, name: name in functions_of(source))
        name = path.rsplit('::', 1)[-1]
        if home and name in functions_of(home):
            found.append(functions_of(home)[name])
    return found


def public_function(tree, call):
    """The function that a caller outside reaches as crate::path::name; raises Unreadable where there is none."""
    crate, *modules, name = call.split('::')
    if not tree.names_of(f'{crate}/src/*.rt'):
        raise Unreadable(f'there is no crate {crate}')
    if tree.front(crate) == 'main':
        return program_function(tree, crate, modules, name)
    front = tree.file(f'{crate}/src/lib.rt')
    file = front.name
    if modules:
        if not re.search(rf'^pub mod {modules[0]};', front.text, re.MULTILINE):
            raise Unreadable(f'{crate}::{modules[0]} is no public module')
        file = f'{crate}/src/{"/".join(modules)}.rt'
    elif re.search(rf'^pub use [\w:]*(?:\b{name}|\{{[^}}]*\b{name}\b[^}}]*\}});', front.text, re.MULTILINE):
        file = f'{crate}/src/{"/".join(front.uses[name].split("::")[:-1])}.rt'
    else:
        file = next((f.source.name for f in crate_functions(tree, crate) if f.is_exported and f.name == name), file)
    found = functions_of(tree.file(file)).get(name)
    if not found or not found.is_public:
        raise Unreadable(f'there is no public function {call}')
    return found


def program_function(tree, crate, modules, name):
    file = f'{crate}/src/{"/".join(modules) or "main"}.rt'
    found = functions_of(tree.file(file)).get(name)
    waiting, reached = [functions_of(tree.file(f'{crate}/src/main.rt'))['main']], set()
    while waiting:
        function = waiting.pop()
        if function not in reached:
            reached.add(function)
            waiting += callees(tree, function)
    if found not in reached:
        raise Unreadable(f'there is no function {"::".join([crate] + modules + [name])} that the program runs')
    return found


def public_clauses(tree):
    """(function, clause) of every clause of a public function of a library."""
    libraries = sorted({name.split('/')[0] for name in tree.names_of('*/src/lib.rt')})
    return [(function, clause) for crate in libraries for function in crate_functions(tree, crate) if function.is_public for clause in function.clauses]


def clauses_for_the_list(tree):
    """(function, clause) of every clause that must have a row: each that cites a promise, in a public function of a library or any of a program; and each of a
    public function that no function of a library calls, because no other proof needs what it says."""
    crates = sorted({name.split('/')[0] for name in tree.names_of('*/src/*.rt')})
    programs = {crate for crate in crates if tree.front(crate) == 'main'}
    functions = [function for crate in crates for function in crate_functions(tree, crate)]
    called = {callee for function in functions if function.crate not in programs for callee in callees(tree, function) if callee is not function}
    found = []
    for function in functions:
        is_top = function.crate not in programs and function.is_public and function not in called
        if function.is_public or function.crate in programs:
            found += [(function, clause) for clause in function.clauses if is_top or clause.is_promise]
    return found
