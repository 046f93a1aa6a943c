"""From a C file to its syntax tree: gcc preprocesses the file, and pycparser parses the output of gcc.

With -fdebug-cpp gcc prints the place of each token. The parser gets each token on its own line, so a line number is the
number of a token. Afterwards each node of the tree gets the place of its token in the file.
"""
import os
import re
import subprocess
from dataclasses import dataclass

from pycparser import c_ast, c_parser

from refusal import Place, Refused

# The headers that replace jobk.h and the system's headers.
HEADERS = os.path.join(os.path.dirname(os.path.realpath(__file__)), 'include')
GCC = ['gcc', '-E', '-dU', '-fdebug-cpp', '-Werror=undef', '-fdiagnostics-color=never', '-nostdinc', '-I', '.']
TOKEN = re.compile(r'\{P:([^;{}]*);F:[^;{}]*;L:(\d+);C:(\d+);S:\d+;M:[^;{}]*;E:\d+,LOC:\d+,R:\d+\}')
LINE = re.compile(r'# (\d+) "([^"]*)"')
USER = '<stdin>'
INCLUDES = re.compile(r'^[ \t]*#[ \t]*include[ \t]*"jobk\.h"', re.M)
DIRECTIVE = re.compile(r'^[ \t]*#(?:.*\\\n)*.*', re.M)
OF_PLACE = re.compile(r'\b__(has_include|has_include_next|(FILE|FILE_NAME|BASE_FILE|DATE|TIME|TIMESTAMP)__)\b')
QUOTED = re.compile(r'(["\'])(\\.|(?!\1)[^\\])*\1', re.S)
ESCAPE = re.compile(r'\\(x[0-9a-fA-F]+|[0-7]{1,3}|.)|(.)', re.S)
LETTERS = {'n': 10, 't': 9, 'r': 13, '\\': 92, "'": 39, '"': 34, '?': 63, 'a': 7, 'b': 8, 'f': 12, 'v': 11, 'e': 27}
SYNTAX = {'at end of input': 'expected } or ; before the end of the file'}


class NoGcc(Exception):
    """The gcc of this machine can't preprocess in the way that this module needs."""


@dataclass
class Source:
    """A C file: its lines as written, and its tree."""
    path: str
    lines: list
    tree: c_ast.FileAST = None

    @property
    def shown(self):
        return os.path.basename(self.path)

    @property
    def name(self):
        return os.path.splitext(self.shown)[0]


def read_source(path):
    with open(path, 'rb') as file:
        return parse_source(path, file.read().decode('latin-1'))


def parse_source(path, raw):
    """Returns the source of a text, in which each character is a byte, with its tree."""
    source = Source(path, [shown_line(line) for line in raw.split('\n')])
    refuse_places(source, raw)
    preprocessed = preprocess(source, raw)
    tokens, places = Tokens(source, raw).read(preprocessed)
    source.tree = parse(source, tokens, places)
    return source


def refuse_places(source, raw):
    """Refuses names that mean a path, a file or the time, and directives that move the places of messages."""
    if re.search(r'^[ \t]*#[ \t]*(line\b|\d)', raw, re.M):
        refuse_directive(source, raw, r'(line\b|\d)', 'expected C of the subset, found `#line`; leave it out')
    found = OF_PLACE.search(raw)
    if found:
        line = raw.count('\n', 0, found.start()) + 1
        at = column(raw.split('\n')[line - 1], found.start() - raw.rfind('\n', 0, found.start()) - 1)
        raise Refused(source.shown, line, at, f'expected C of the subset, found `{found[0]}`; leave it out')


def shown_line(line):
    return line.encode('latin-1').decode('utf-8', 'replace').expandtabs(8)


def column(line, count):
    """Returns the column after so many bytes of a line. A tab goes to the next multiple of 8."""
    return len(shown_line(line[:count])) + 1


# the preprocessor

def preprocess(source, raw):
    """Returns a file as gcc preprocesses it."""
    command = GCC if INCLUDES.search(raw) else [*GCC, '-include', 'jobk.h']
    environment = {name: value for name, value in os.environ.items() if name not in ('CPATH', 'C_INCLUDE_PATH')}
    done = subprocess.run([*command, '-'], input=raw.encode('latin-1'), cwd=HEADERS, capture_output=True,
                          env={**environment, 'LC_ALL': 'C'})
    if done.returncode != 0:
        raise preprocessor_error(source, done.stderr.decode('utf-8', 'replace'))
    return done.stdout.decode('latin-1')


def preprocessor_error(source, said):
    """Returns the first error of gcc at its place in the file. If the error is in a macro of a header, gcc prints the
    place in the header first, and the place in the file after it."""
    found = re.search(r'^\S*: (?:fatal )?error: (.*)', said, re.M)
    place = found and re.compile(rf'^{USER}:(\d+):(\d+):', re.M).search(said, found.start())
    if not place:
        raise NoGcc(said.strip().split('\n')[0])
    what = found[1]
    if what.endswith('No such file or directory'):
        what = (f'expected jobk.h or a header that it includes, found `{what.partition(":")[0]}`; write the code into '
                'this file, or into a program of its own for execl')
    what = re.sub(r'"(\w+)" is not defined, .*', lambda match: not_defined(match[1]), what)
    what = what.replace('unterminated comment', 'expected */ at the end of this comment')
    return Refused(source.shown, int(place[1]), int(place[2]), what)


def not_defined(name):
    return f'expected a name that is defined as a number, found `{name}`; write #define {name} 0, and #if {name}'


def refuse_directive(source, raw, words, what):
    """Refuses the first directive that begins with some words, or the first line if no directive does."""
    found = re.search(rf'^[ \t]*(#[ \t]*{words}|_Pragma)', raw, re.M)
    line = raw.count('\n', 0, found.start()) + 1 if found else 1
    at = column(raw.split('\n')[line - 1], found.start(1) - found.start()) if found else 1
    raise Refused(source.shown, line, at, what)


class Tokens:
    """Reads the tokens of a preprocessed file, and their places."""

    def __init__(self, source, raw):
        self.source = source
        self.raw = raw
        self.lines = raw.split('\n')
        # gcc gives a token of a macro the place in the definition. Here it gets the place where the macro is used.
        self.defined_at = {number for found in DIRECTIVE.finditer(raw)
                           for number in range(raw.count('\n', 0, found.start()) + 1,
                                               raw.count('\n', 0, found.end()) + 2)}
        self.file, self.line = USER, 1          # the place of what gcc prints
        self.behind = (0, 0)                    # a line, and where its last token ends
        self.macro = None                       # the place of the last macro
        self.tokens, self.places = [], []

    def read(self, text):
        parts = TOKEN.split(text)
        if len(parts) == 1:
            raise NoGcc('it does not know -fdebug-cpp')
        for place in range(1, len(parts), 4):
            self.part(parts[place], int(parts[place + 1]), int(parts[place + 2]), parts[place + 3])
        return self.tokens, self.places

    def part(self, file, line, first, text):
        """Takes a token and the lines after it, some of which are directives that gcc keeps."""
        for number, piece in enumerate(text.split('\n')):
            self.line += number > 0
            marker = LINE.match(piece)
            if marker:
                self.file, self.line = marker[2], int(marker[1]) - 1
                if self.file != USER and ('..' in self.file or self.file.startswith('/')):
                    refuse_directive(self.source, self.raw, 'include', 'expected jobk.h or a header that it includes, '
                                     f'found `{self.file}`; write the code into this file')
            elif piece.startswith('#undef'):
                self.refuse_undefined(piece.split()[1])
            elif re.match(r'#\w', piece):
                word = piece[1:].split()[0]
                if word != 'define':
                    refuse_directive(self.source, self.raw, word,
                                     f'expected C of the subset, found `#{word}`; leave it out')
            elif piece.strip():
                self.token(file, line, first, piece.strip())

    def refuse_undefined(self, name):
        """Refuses a condition on a name that isn't defined here: the headers of the system may define it."""
        if name != 'JOBK_H':
            words = rf'(ifdef|ifndef|if|elif)\b.*\b{name}\b'
            refuse_directive(self.source, self.raw, words, not_defined(name))

    def token(self, file, line, first, text):
        if self.file != USER:
            place = Place(self.file, line, first)
        elif file == USER and line not in self.defined_at:
            place = Place(self.source.shown, line, column(self.lines[line - 1], first - 1))
            self.behind = line, first - 1 + len(text)
        else:
            place = self.place_of_macro()
        self.tokens.append(without_escapes(text, place))
        self.places.append(place)

    def place_of_macro(self):
        """Returns the place of the macro's name. It follows the last token, unless that is an argument of the macro."""
        line, end = self.behind
        text, end = self.lines[self.line - 1], end if line == self.line else 0
        end += len(re.match(r'(\s|/\*.*?\*/)*', text[end:])[0])
        is_argument = line > self.line or not re.match(r'\w', text[end:])
        if not is_argument or self.macro is None or self.macro.line != self.line:
            self.macro = Place(self.source.shown, self.line, column(text, end))
        return self.macro


def without_escapes(token, place):
    """Returns a string or a character constant in which each byte that isn't a plain character has three octal digits:
    the parser joins strings as they are written, so digits that follow would lengthen a shorter escape."""
    quote = token[0] if token[0] in '"\'' else None
    if quote is None:
        if re.match(r'\w+["\']', token):
            raise Refused(place.file, place.line, place.column, f'expected a string of char, found `{token}`')
        return token
    if not QUOTED.fullmatch(token):
        raise Refused(place.file, place.line, place.column, f'expected another {quote} on this line')
    values = []
    for escape, letter in ESCAPE.findall(token[1:-1]):
        if letter:
            values.append(ord(letter))
        elif escape[0] == 'x' and len(escape) > 1:
            values.append(int(escape[1:], 16) & 255)
        elif escape[0] in '01234567':
            values.append(int(escape, 8) & 255)
        elif escape in LETTERS:
            values.append(LETTERS[escape])
        else:
            raise Refused(place.file, place.line, place.column, f'expected an escape of C, found `\\{escape}`')
    letters = (chr(it) if 32 <= it < 127 and chr(it) not in '"\'\\' else f'\\{it:03o}' for it in values)
    return quote + ''.join(letters) + quote


# the parser

def parse(source, tokens, places):
    parser = c_parser.CParser()
    try:
        tree = parser.parse('\n'.join(tokens), source.shown)
    except (c_parser.ParseError, AssertionError) as error:          # an AssertionError for a } without {
        raise syntax_error(source, tokens, places, parser, str(error)) from None
    locate(tree, places)
    return tree


def locate(node, places):
    """Replaces the number of a token in each node by the place of the token. Declarations in one line share nodes."""
    if node.coord is not None and not isinstance(node.coord, Place):
        node.coord = places[node.coord.line - 1]
    for _, child in node.children():
        locate(child, places)


def syntax_error(source, tokens, places, parser, message):
    found = re.match(r'.*?:(\d+):\d+: (.*)', message)
    if found:
        line, what = int(found[1]), found[2]
    else:
        line, what = number_of_next(parser, places), message.rpartition(': ')[2]
    if what == 'Invalid expression' and 0 < line <= len(tokens):        # later versions; earlier ones name the token
        what = f'before: {tokens[line - 1].strip()}'
    if what.startswith('before: '):
        what = f'unexpected `{what[len("before: "):]}`; check the C before it'
    what = SYNTAX.get(what.lower(), what) or 'unexpected `}`; leave it out'
    if what.startswith('Illegal character'):
        what += '; leave it out'
    place = places[line - 1] if 0 < line <= len(places) else Place(source.shown, *end_of(source))
    return Refused(source.shown, place.line, place.column, what[:1].lower() + what[1:])


def number_of_next(parser, places):
    """Returns the number of the next token, for a message of the parser without a place."""
    tokens = getattr(parser, '_tokens', None)
    token = tokens.peek() if tokens is not None else None
    return token.lineno if token is not None else len(places) + 1


def end_of(source):
    last = max((number for number, line in enumerate(source.lines, 1) if line.strip()), default=1)
    return last, len(source.lines[last - 1].rstrip()) + 1


# several files

def named_programs(node):
    """Yields the names of the programs that a tree runs by execl."""
    if isinstance(node, c_ast.FuncCall) and isinstance(node.name, c_ast.ID) and node.name.name == 'execl' and node.args:
        first = node.args.exprs[0]
        if isinstance(first, c_ast.Constant) and first.type == 'string':
            yield first.value[1:-1].rpartition('/')[2]
    for _, child in node.children():
        yield from named_programs(child)


def read_sources(paths):
    """Returns the named files, and the programs for execl that are not named but are found beside the first file."""
    sources = [read_source(path) for path in paths]
    for source in sources:
        for name in named_programs(source.tree):
            path = os.path.join(os.path.dirname(paths[0]), f'{name}.c')
            if name not in {it.name for it in sources} and os.path.exists(path):
                sources.append(read_source(path))
    return sources
