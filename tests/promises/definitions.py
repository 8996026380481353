"""What a statement is made of: the definitions of crates/*/specs/*.antt, and the structs, enums and constants of crates/*/src/*.rt that they name.

A definition has a full name, crate/specs/File.antt:Name or crate/src/file.rt:Name. Its text is its tokens, comments and white space aside, and each
name that is defined or imported stands in it by its full name: so another import is another text. Names of the toolchain's libraries are not followed.
A bound variable that has a definition's name counts as that definition; this can only add to what is reached.
What is not understood raises Unreadable, so that nothing is passed over in silence.
"""
import hashlib
import re
from pathlib import Path

ANTT_COMMENT = re.compile(r'(?:^|(?<=\s))--.*$', re.MULTILINE)
ANTT_TOKEN = re.compile(r'[(){};,⌜⌝]|[^\s(){};,⌜⌝]+')
RT_TOKEN = re.compile(
    r'//[^\n]*|"(?:[^"\\]|\\.)*"|b?\'(?:[^\'\\]|\\.)\'|[A-Za-z_]\w*(?:::[A-Za-z_]\w*)*|\d\w*|\S'
)
CRATE_PATH = re.compile(r'Rattle\.(?!std\.)(\w+)\.specs\.(.+)$')
USE = re.compile(r'(?:ghost )?use (\S+?)(?:\.\{(.*)\}| as ([^\s;]+))?;?\s*$', re.DOTALL)


class Unreadable(Exception):
    """A text that this reader does not understand, or a name that leads nowhere."""


def antt_tokens(text):
    if '{-' in text:
        raise Unreadable('a comment between {- and -}')
    tokens = []
    for token in ANTT_TOKEN.findall(ANTT_COMMENT.sub('', text)):
        if len(token) > 1 and token.endswith('.'):  # the dot behind a bound name
            tokens += [token[:-1], '.']
        else:
            tokens.append(token)
    return tokens


def without_comments(text):
    """A source file's text with spaces in place of its comments."""
    if '/*' in text:
        raise Unreadable('a comment between /* and */')
    return RT_TOKEN.sub(lambda m: ' ' * len(m.group()) if m.group().startswith('//') else m.group(), text)


def matching(tokens, at):
    """The place of the bracket that closes the one at `at`."""
    pairs = {'(': ')', '{': '}', '[': ']'}
    close, depth = pairs[tokens[at]], 0
    for i in range(at, len(tokens)):
        depth += (tokens[i] == tokens[at]) - (tokens[i] == close)
        if depth == 0:
            return i
    raise Unreadable(f'a {tokens[at]} is not closed')


class Scope:
    """What the `use` lines of a file bring: for a name, where it is from and what it is there."""

    def __init__(self):
        self.names = {}
        self.operators = {}  # the parts of names such as ◌++◌
        self.modules = {}

    def add(self, line, file):
        found = USE.match(line)
        if not found:
            raise Unreadable(f'{file}: "{line.strip()}" is not understood')
        path, items, alias = found.groups()
        if alias:
            self.modules[alias] = path
        elif items is None:
            raise Unreadable(f'{file}: "{line.strip()}" names no items')
        for item in filter(None, (part.strip() for part in (items or '').split(','))):
            name, _, own = item.partition(' as ')
            self.names[own or name] = (path, name)
            if '◌' in (own or name):
                self.operators.update({part: (path, name) for part in (own or name).split('◌') if part})

    def find(self, token):
        """(path, name) of a token that a `use` line brings, or None."""
        if token in self.names:
            return self.names[token]
        module, dot, name = token.partition('.')
        if dot and module in self.modules:
            return self.modules[module], name
        return self.operators.get(token)


class Definition:
    def __init__(self, full, tokens, file, kind, plain=False):
        self.full = full
        self.tokens = tokens
        self.file = file
        self.kind = kind
        self.plain = plain  # of type `Type 0`, without parameters
        self.known = None

    def resolved(self):
        """Its text and the keys of what it names."""
        if self.known is None:
            pairs = [self.file.resolve(token) for token in self.tokens]
            self.known = ' '.join([self.full] + [text for text, _ in pairs]), {key for _, keys in pairs for key in keys}
        return self.known


class SpecFile:
    """One file of specs/: its imports and its definitions."""

    def __init__(self, path, name):
        self.name = name
        self.scope = Scope()
        self.definitions = {}
        self.owner = {}  # of a constructor or a field: its data or record
        self.constructors = {}
        for chunk in self.chunks(path.read_text()):
            self.take(chunk)

    @staticmethod
    def chunks(text):
        """The text of each declaration or equation: it begins at the margin, and what follows it is indented."""
        chunks = []
        for line in ANTT_COMMENT.sub('', text).splitlines():
            if not line.strip():
                continue
            if line[0] in ' })' and chunks:
                chunks[-1] += '\n' + line
            else:
                chunks.append(line)
        return chunks

    def take(self, chunk):
        tokens = antt_tokens(chunk)
        if tokens[0] == 'use':
            self.scope.add(chunk, self.name)
        elif tokens[:2] == ['pub', 'mod']:
            pass
        elif tokens[0] in ('pub', 'unfoldable', 'abbrev', 'record', 'data') or tokens[1] == ':':
            self.declare(tokens)
        elif tokens[0] in self.definitions:
            self.definitions[tokens[0]].tokens += tokens
        else:
            raise Unreadable(f'{self.name}: "{chunk.splitlines()[0]}" is no equation of a name that was declared before it')

    def declare(self, tokens):
        words = ('pub', 'unfoldable', 'abbrev', 'record', 'data')
        at = next(i for i, token in enumerate(tokens) if token not in words)
        name, kind = tokens[at], tokens[at - 1] if at else ''
        is_operator = '◌' in name
        if name in self.definitions or is_operator or kind not in ('record', 'data') and tokens[at + 1] not in (':', '{'):
            raise Unreadable(f'{self.name}: the declaration of {name} is not understood')
        plain = tokens[at + 1:] == [':', 'Type', '0'] or tokens[at + 1:at + 5] == [':', 'Type', '0', 'where']
        self.definitions[name] = Definition(f'{self.name}:{name}', list(tokens), self, kind, plain)
        if kind in ('record', 'data'):
            self.owner.update({member: name for member in self.members(tokens, name)})
        if kind == 'data':
            self.constructors.update({member: name for member in self.members(tokens, name)})

    def members(self, tokens, name):
        """The names before a colon at the top of the part behind `where`."""
        if 'where' not in tokens:
            raise Unreadable(f'{self.name}: {name} has no `where`')
        depth, names = 0, []
        for i in range(tokens.index('where') + 1, len(tokens)):
            depth += (tokens[i] in '({') - (tokens[i] in ')}')
            if tokens[i] == ':' and depth == 0:
                names.append(tokens[i - 1])
        return names

    def resolve(self, token):
        """(text, keys) of a token; a key is (file, name) of what it names in this project. A name with two meanings has both."""
        text, keys = imported(self.scope, token)
        head, dot, fields = token.partition('.')
        if dot and head not in self.scope.modules:
            token = head
        name = self.constructors.get(token, token)
        if name not in self.definitions:
            return text, keys
        return (f'{text}|' if keys else '') + f'{self.name}:{token}' + (dot + fields if token == head else ''), keys + [(self.name, name)]


class SourceFile:
    """One file of src/: the structs, enums and constants that it declares."""

    def __init__(self, path, name):
        self.name = name
        self.crate = name.split('/')[0]
        self.text = without_comments(path.read_text())
        self.spans = [(m.start(), m.end()) for m in RT_TOKEN.finditer(self.text)]
        self.tokens = [self.text[start:end] for start, end in self.spans]
        self.scope = Scope()
        for line in re.findall(r'^ghost use [^;]*;', self.text, re.MULTILINE):
            self.scope.add(line, name)
        self.uses = self.used_names()
        self.definitions = {}
        for i, token in enumerate(self.tokens[:-2]):
            if token in ('struct', 'enum', 'const') and self.tokens[i + 2] in '{(:;<':
                self.definitions[self.tokens[i + 1]] = Definition(f'{name}:{self.tokens[i + 1]}', self.declaration(i), self, token)

    def used_names(self):
        """For each name that a plain `use` or `pub use` line brings: its path."""
        uses = {}
        for path, items in re.findall(r'^\s*(?:pub )?use ([\w:]+?)(?:::\{([^}]*)\})?;', self.text, re.MULTILINE):
            for item in items.split(',') if items else [path.rsplit('::', 1)[-1]]:
                uses[item.strip()] = f'{path}::{item.strip()}' if items else path
        return uses

    def declaration(self, at):
        end = at
        while self.tokens[end] not in ';{':
            end = matching(self.tokens, end) + 1 if self.tokens[end] in '([' else end + 1
        if self.tokens[end] == '{':
            end = matching(self.tokens, end)
        return self.tokens[at:end + 1]

    def resolve(self, token):
        """(text, keys) of a token of a declaration: only what this project declares is followed."""
        if token in self.definitions:
            return f'{self.name}:{token}', [(self.name, token)]
        path = self.uses.get(token, token)
        return (path, [('path', self.crate, path)]) if '::' in path else (token, [])


def imported(scope, token):
    """(text, keys) of a token by the `use` lines alone. What stands behind a value's dot is a field of it."""
    head, dot, fields = token.partition('.')
    if head and dot and head not in scope.modules:
        text, keys = imported(scope, head)
        return text + dot + fields, keys
    found = scope.find(token)
    if token.startswith('.') or not found:
        return token, []
    path, name = found
    inside = CRATE_PATH.match(path)
    if not inside:
        return f'{path}.{name}', [('elsewhere', path)] if path.startswith('Rattle.') and not path.startswith('Rattle.std.') else []
    crate, rest = inside.groups()
    parts = rest.split('.')
    if parts[0] != 'declared':
        file = f'{crate}/specs/{"/".join(parts)}.antt'
        return f'{file}:{name}', [(file, name)]
    declared = [part for part in parts[1:] if part != 'TheVariants']
    file = f'{crate}/src/{"/".join(declared[:-1]) or "lib"}.rt'
    return f'{file}:{declared[-1]}:{name}', [(file, declared[-1])]


class Tree:
    """The crates of a folder; files are read when they are asked for."""

    def __init__(self, root):
        self.crates = Path(root) / 'crates'
        self.files = {}

    def names_of(self, pattern):
        return sorted(str(path.relative_to(self.crates)) for path in self.crates.glob(pattern))

    def file(self, name):
        if name not in self.files:
            path = self.crates / name
            if not path.is_file():
                raise Unreadable(f'{name} is not there')
            self.files[name] = (SpecFile if name.endswith('.antt') else SourceFile)(path, name)
        return self.files[name]

    def definition(self, key):
        """The definition that a key leads to, or None for a path into a library of the toolchain."""
        if key[0] == 'elsewhere':
            raise Unreadable(f'a definition names {key[1]}, which is not in specs/')
        if key[0] == 'path':
            parts = key[2].split('::')
            source = self.home_of(key[1], parts, lambda source, name: name in source.definitions)
            return source and source.definitions[parts[-1]]
        file = self.file(key[0])
        name = getattr(file, 'owner', {}).get(key[1], key[1])
        if name not in file.definitions:
            raise Unreadable(f'{key[0]}:{key[1]} is gone')
        return file.definitions[name]

    def home_of(self, crate, parts, declares):
        """The source file that declares what the path crate::module::Name or other::Name leads to, through what each file hands on; or None."""
        if parts[0] != 'crate' and (self.crates / crate / 'src' / f'{parts[0]}.rt').is_file():
            parts = ['crate'] + parts
        home, name = crate if parts[0] == 'crate' else parts[0], parts[-1]
        file = f'{home}/src/{"/".join(parts[1:-1]) or self.front(home)}.rt'
        if not (self.crates / file).is_file():
            return None
        source = self.file(file)
        if declares(source, name):
            return source
        onward = source.uses.get(name)
        return self.home_of(home, onward.split('::'), declares) if onward else None

    def front(self, crate):
        return 'lib' if (self.crates / crate / 'src' / 'lib.rt').is_file() else 'main'

    def reached(self, keys, gone=None):
        """Every definition that is reached from these keys, by full name; what is missing is put into `gone`, if that is given."""
        found, waiting = {}, list(keys)
        while waiting:
            key = waiting.pop()
            try:
                definition = self.definition(key)
            except Unreadable:
                if gone is None:
                    raise
                gone.add(':'.join(key))
                continue
            if definition and definition.full not in found:
                found[definition.full] = definition
                waiting += definition.resolved()[1]
        return found

    def digest(self, front, keys):
        """16 hex digits over a front text and over every definition that is reached."""
        reached = self.reached(keys)
        lines = [front] + [reached[full].resolved()[0] for full in sorted(reached)]
        return hashlib.sha256('\n'.join(lines).encode()).hexdigest()[:16]
