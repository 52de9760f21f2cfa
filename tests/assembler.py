"""Objects as text: reads the table of tests/objects.txt, and spells each object as the bytes of docs/OBJECT.md."""
import re

# The fields of each instruction, in the order of their numbers: c a count, v a value, p a place, w a way, k a kind.
INSTRUCTIONS = [
    ('Const', 'cv'), ('Copy', 'ppc'), ('Move', 'ppc'), ('Add', 'cccc'), ('Sub', 'cccc'), ('Mul', 'cccc'), ('Div', 'cccc'),
    ('Rem', 'cccc'), ('Neg', 'ccc'), ('Eq', 'ccc'), ('Lt', 'ccc'), ('Le', 'ccc'), ('Not', 'cc'), ('Jump', 'c'),
    ('JumpIf', 'cc'), ('JumpUnless', 'cc'), ('Call', 'ccc'), ('Return', 'c'), ('Project', 'cccc'), ('Yield', 'c'),
    ('Slide', 'c'), ('Lend', 'cpcw'), ('Elem', 'cpccwc'), ('Close', 'c'), ('NewArray', 'p'), ('Grow', 'pc'),
    ('Push', 'pcc'), ('Pop', 'pccc'), ('Swap', 'pccccc'), ('Count', 'cp'), ('FreeArray', 'p'), ('Print', 'ck'),
    ('Read', 'cc'), ('Check', 'cc')]
NUMBERS = {name: (number, fields) for number, (name, fields) in enumerate(INSTRUCTIONS, 1)}
WAYS = {'read': 0, 'write': 1}
KINDS = {'Int': 0, 'Bool': 1}
SPANS = [(10, 11), (20, 22)]
TRAPS = {'overflow': 'overflow', 'divide': 'divide by zero', 'index': 'index out of range', 'empty': 'empty array',
         'input': 'bad input', 'precondition': 'precondition'}
COUNTS = ('turns', 'blocks', 'freed', 'opened', 'closed')


def count(number):
    """An unsigned number in its shortest spelling."""
    out = bytearray()
    while number >= 128:
        out.append(128 + number % 128)
        number //= 128
    out.append(number)
    return bytes(out)


def value(number):
    """A signed number in its shortest spelling."""
    out = bytearray()
    while not -64 <= number < 64:
        out.append(128 + number % 128)
        number >>= 7
    out.append(number % 128)
    return bytes(out)


def place(text):
    base, offset = text.split('.')
    return count(int(base[1:]) + 1 if base else 0) + count(int(offset))


FIELDS = {'c': lambda text: count(int(text)), 'v': lambda text: value(int(text)), 'p': place,
          'w': lambda text: count(WAYS[text]), 'k': lambda text: count(KINDS[text])}


def instruction(text):
    name, *fields = text.split()
    number, forms = NUMBERS[name]
    if len(fields) != len(forms):
        raise ValueError('fields of %r' % text)
    return bytes([number]) + b''.join(FIELDS[form](field) for form, field in zip(forms, fields))


def function(header, code):
    instructions = [instruction(text.strip()) for text in code.split(';')]
    return b''.join(map(count, [*header, len(instructions)])) + b''.join(instructions)


def spelling(functions):
    spans = b''.join(count(start) + count(end - start) for start, end in SPANS)
    return b'HYLO\x01' + count(len(SPANS)) + spans + count(len(functions)) + b''.join(functions)


def given(text):
    """The bytes of an input: `/` stands for a line feed, and `c{N}` for N times the character c."""
    whole = re.sub(r'(.)\{(\d+)\}', lambda found: found[1] * int(found[2]), text)
    return whole.replace('/', '\n').encode()


class Row:
    """One object, with the words, the input and what must come."""

    def __init__(self, name):
        self.name, self.turns, self.stdin, self.functions, self.stdout, self.end = name, 10, b'', [], b'', None

    def take(self, line):
        word, _, rest = line.partition(' ')
        if word == 'turns':
            self.turns = int(rest)
        elif word == 'stdin':
            self.stdin = given(rest)
        elif word == 'out':
            self.stdout = b''.join(piece.encode() + b'\n' for piece in rest.split())
        elif word in ('main', 'fun'):
            header, _, code = rest.partition(':')
            numbers = [int(number) for number in header.split()]
            self.functions.append(function([0, 0, 0, *numbers] if word == 'main' else numbers, code))
        else:
            self.end = line.split()

    def words(self, file):
        return ['exec', file, '--turns', str(self.turns), '--report']

    def answer(self, file):
        """The status, and what goes to standard error."""
        kind, counts = self.end[0], self.end[-5:]
        report = ''.join('%s %s\n' % pair for pair in zip(COUNTS, counts))
        if kind == 'done':
            return 0, report
        if kind == 'spent':
            return 4, 'hyloc: spent after %d turns\n' % self.turns + report
        if kind == 'trap':
            return 3, '%s (%s): trap %s\n' % (file, self.end[2], TRAPS[self.end[1]]) + report
        if kind == 'stuck':
            return 9, '%s: stuck %s at %s\n' % (file, self.end[1], self.end[2]) + report
        raise ValueError('end of %s' % self.name)


def rows(text):
    found = []
    for line in text.splitlines():
        if line.startswith('row '):
            found.append(Row(line.split()[1]))
        elif line and not line.startswith('#'):
            found[-1].take(line)
    return found
