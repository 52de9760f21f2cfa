"""Rows of text: reads the files of tests/rows.

A row is an answer and the text of a file, on one line or on indented lines below it, and then lines of what goes with it:

    P1 | fun f(«,») {}

    trap overflow |
        fun main() {
          print(1)
          print(«9223372036854775807 + 1»)
        }
    > 1                         a line that must be written to standard output
    ! turns 1                   a line that must be written to standard error after the message
    < 5                         a line of standard input
    $ run "two words.hylo"      the words of the command, where they are not `run p.hylo`; the second is the file's name

« and » stand around the span that the answer names, and are no part of the text. The answers are

    done                        the run is done
    trap KIND                   it ends in this trap, at the span
    L1, P1, N1 ..               the source is refused with this rule, at the span
    resolves                    no rule of the phases Z, L, P and N is broken
    parses                      no rule of the phases Z, L and P is broken
    usage                       the words are no command
    file fault                  the file, which is not there, is not found
    spent after N turns, stuck KIND at FUN:AT, bad object at PLACE

Under `resolves` and `parses` it is not looked at what is written to standard output.
In a text `\\n`, `\\t` and `\\r` are the characters, `\\x{0C FF}` bytes, `\\u{301}` a character by its number, `\\\\` a backslash, and
`\\<TEXT\\>9;` is nine times TEXT. A line that begins with `#` is a comment.
"""
import re
import shlex

RULES = {
    'Z1': 'source too long', 'L1': 'bad character', 'L2': 'open comment', 'L3': 'literal too large', 'L4': 'not UTF-8',
    'P1': 'unexpected token', 'P2': 'nested too deep', 'N1': 'unknown name', 'N2': 'declared twice',
    'N3': 'unknown type or trait', 'N4': 'unknown member', 'N5': 'there is no fun main()', 'X1': 'not built yet'}
TRAPS = ('overflow', 'divide by zero', 'index out of range', 'empty array', 'bad input', 'precondition')
LATER = {'resolves': 'ZLPN', 'parses': 'ZLP'}
USAGE = 'usage: hyloc run FILE | exec FILE [--turns N] [--report]'
ESCAPE = re.compile(r'\\(?:<(?P<text>.*?)\\>(?P<times>\d+);|x\{(?P<bytes>[0-9A-F ]+)\}|u\{(?P<number>[0-9a-f]+)\}|(?P<letter>[ntr\\]))',
                    re.DOTALL)
LETTERS = {'n': '\n', 't': '\t', 'r': '\r', '\\': '\\'}
WORDS = ['run', 'p.hylo']
# The answers of whole commands: each with its status, and what stands before it in its message.
WHOLE = [(r'spent after \d+ turns', 4, 'hyloc: '), (r'file fault', 5, 'hyloc: '), (r'stuck \w+ at \d+:\d+', 9, '%s: '),
         (r'bad object at \d+', 10, '%s: ')]


class Unreadable(Exception):
    """A row that is not written as the rows are."""


def escaped(found):
    if found['text'] is not None:
        return expanded(found['text']) * int(found['times'])
    if found['bytes']:
        return bytes.fromhex(found['bytes'])
    return (chr(int(found['number'], 16)) if found['number'] else LETTERS[found['letter']]).encode()


def expanded(text):
    """The bytes of a text with its escapes."""
    out, at = b'', 0
    for found in ESCAPE.finditer(text):
        out += plain(text[at:found.start()]) + escaped(found)
        at = found.end()
    return out + plain(text[at:])


def plain(text):
    if '\\' in text:
        raise Unreadable('no such escape: %s' % text)
    return text.encode()


class Row:
    """One file, with the words, the input and what must come."""

    def __init__(self, place, lines):
        self.name, self.words, self.output, self.errors, self.input = place, WORDS, [], [], []
        self.answer, bar, self.text = lines[0].partition(' |')
        if not bar:
            raise Unreadable('no row: %s' % lines[0])
        block = [self.take(line) for line in lines[1:]]
        if any(block) and self.text:
            raise Unreadable('a text on the line of its answer and below it')
        self.text = self.text[1:] or '\n'.join(line or '' for line in block).strip('\n')
        self.read_text()

    def take(self, line):
        """Reads a line below the first; gives the line of the text that it is, or nothing."""
        kind, rest = line[:2], line[2:]
        if kind == '> ':
            self.output.append(rest)
        elif kind == '! ':
            self.errors.append(rest)
        elif kind == '< ':
            self.input.append(rest)
        elif kind in ('$ ', '$'):
            self.words = shlex.split(rest)
        elif line.startswith('    ') or not line:
            return line[4:]
        else:
            raise Unreadable('no such line: %s' % line)
        return None

    def read_text(self):
        """Makes the bytes of the text, and sees that answer, marks, words and output go together."""
        marks = ''.join(re.findall('[«»]', self.text))
        if marks != ('«»' if self.names_span() else ''):
            raise Unreadable('%s with the marks %s' % (self.answer, marks or 'left out'))
        parts = [expanded(piece) for piece in re.split('[«»]', self.text)]
        self.source = b''.join(parts)
        self.span = (len(parts[0]), len(parts[0]) + len(parts[1])) if marks else None
        if self.has_file() and len(self.words) < 2 or self.answer in LATER and self.output + self.errors:
            raise Unreadable('no file among the words, or output that is not looked at')
        if self.answer not in LATER:
            self.message()

    def names_span(self):
        return self.answer in RULES or self.answer.startswith('trap ') and self.answer[5:] in TRAPS

    def has_file(self):
        return self.answer not in ('usage', 'file fault')

    def stdin(self):
        return b''.join(expanded(line) + b'\n' for line in self.input)

    def located(self, text):
        """What is said of the span, with its line and its column."""
        start, end = self.span
        before = self.source[:start]
        line, column = before.count(b'\n') + 1, start - before.rfind(b'\n')
        return '%s:%d:%d (%d-%d): %s' % (self.words[1], line, column, start, end, text)

    def message(self):
        """The status, and the lines of the message."""
        if self.answer == 'done':
            return 0, []
        if self.answer == 'usage':
            return 2, [USAGE]
        if self.names_span():
            known = self.answer in RULES
            return (1, [self.located('%s %s' % (self.answer, RULES[self.answer]))]) if known else (3, [self.located(self.answer)])
        for form, status, before in WHOLE:
            if re.fullmatch(form, self.answer):
                return status, [before.replace('%s', self.words[1]) + self.answer]
        raise Unreadable('no such answer: %s' % self.answer)

    def wanted(self):
        """What must be written, and the status."""
        status, lines = self.message()
        stderr = ''.join(line + '\n' for line in lines + self.errors).encode()
        return {'stdout': b''.join(expanded(line) + b'\n' for line in self.output), 'stderr': stderr, 'status': status}

    def differences(self, got):
        """How what came differs from what was wanted, as lines of text."""
        if self.answer not in LATER:
            wanted = self.wanted()
            return ['%s: wanted %r, got %r' % (name, wanted[name], got[name]) for name in wanted if wanted[name] != got[name]]
        refused = re.fullmatch(rb'.*:\d+:\d+ \(\d+-\d+\): ([A-Z])\d .*\n', got['stderr'])
        later = refused and refused[1].decode() not in LATER[self.answer]
        if got['status'] in (0, 3) or got['status'] == 1 and later:
            return []
        return ['wanted no rule of the phases %s, got status %d and %r' % (LATER[self.answer], got['status'], got['stderr'])]


def read(file, text):
    """The rows of a file, and what is wrong with those that cannot be read."""
    groups, rows, wrong = [], [], []
    for number, line in enumerate(text.split('\n'), 1):
        if line[:1] in ('', ' ', '>', '!', '<', '$') and groups:
            groups[-1][1].append(line)
        elif line and not line.startswith('#'):
            groups.append(('%s:%d' % (file, number), [line]))
    for place, lines in groups:
        try:
            rows.append(Row(place, lines))
        except Unreadable as reason:
            wrong.append('%s: %s' % (place, reason))
    return rows, wrong
