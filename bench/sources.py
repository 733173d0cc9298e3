#!/usr/bin/env python3
"""Sources of a wished size, to measure how fast they are read. Each has a tree, but those that nest deeper than 64.

    bench/sources.py SHAPE BYTES TOKENS > FILE

The source has at most so many bytes and so many tokens, and few less of the one or the other. Its shape is

average    kernels as one writes them, with comments, that together use the whole grammar: four bytes a token
dense      the same without comments, with a space only where two tokens need one

or one of the deepest and the widest texts, in the tables DEEPEST and WIDEST below.
"""
import random, re, sys

TOKEN = re.compile(rb'[A-Za-z_][A-Za-z_0-9]*|[0-9][A-Za-z_0-9]*|<<=|>>=|\+\+|--|&&|\|\||[-+*/%&|^=!<>]=|<<|>>'
                   rb'|[-()\[\]{};,.:?=+*/%<>!~&|^]')
COMMENT = re.compile(rb'/\*.*?\*/|//[^\n]*', re.S)

# the operators that repeat, as often as code has them
OPERATORS = ['+'] * 8 + ['-'] * 5 + ['*'] * 6 + ['/', '%', '<<', '>>', '&', '|', '^']
TESTS = ['<'] * 4 + ['<=', '>', '>='] + ['=='] * 3 + ['!='] * 2
ASSIGNMENTS = ['='] * 12 + ['+='] * 4 + ['-=', '*=', '/=', '%=', '&=', '|=', '^=', '<<=', '>>=']
TYPES = ['uint'] * 6 + ['int'] * 5 + ['uint2', 'uint3', 'uint4', 'int2', 'int3', 'int4',
                                      'bool', 'bool2', 'bool3', 'bool4']
NAMES = ['i'] * 4 + ['index', 'value', 'sum', 'count', 'k', 'x', 'offset', 'lane', 'left', 'right', 'best',
                     'group_index', 'total', 'stride', 'mask', 'first', 'last_block', 'radius', 'weight']
FIELDS = ['x', 'y', 'xy', 'xyz', 'w', 'position', 'next', 'weights']
CALLS = ['min', 'max', 'countbits', 'firstbithigh', 'WaveActiveSum', 'blend', 'hash', 'reversebits']
COMMENTS = ['the rows that this group has left', 'wraps at the end of the buffer', 'see the header',
            'no lane writes the same word twice', 'odd lengths take one step more']


class Kernels:
    """Kernels at random, the same ones in every run."""

    def __init__(self, seed):
        self.random = random.Random(seed)
        self.count = 0

    def one_of(self, *choices):
        """One of several ways to go on, each with how often it is taken."""
        ways, weights = zip(*choices)
        return self.random.choices(ways, weights)[0]()

    def pick(self, words):
        return self.random.choice(words)

    def chance(self, part):
        return self.random.random() < part

    # ---- expressions

    def number(self):
        return self.one_of((lambda: str(self.random.randrange(16)), 6),
                           (lambda: str(self.random.randrange(1 << 32)), 1),
                           (lambda: f'{self.random.randrange(64)}u', 2),
                           (lambda: f'{self.random.randrange(1 << 16):#x}', 2),
                           (lambda: f'0{self.random.randrange(64):o}', 1))

    def word(self):
        return self.one_of((lambda: self.pick(NAMES), 12), (self.number, 6), (lambda: self.pick(['true', 'false']), 1))

    def arguments(self, level):
        return ', '.join(self.expression(level - 1) for _ in range(self.random.randrange(4)))

    def primary(self, level):
        if level <= 0:
            return self.word()
        return self.one_of((self.word, 16),
                           (lambda: f'({self.expression(level - 1)})', 3),
                           (lambda: f'{self.pick(CALLS)}({self.arguments(level)})', 3),
                           (lambda: f'{self.pick(TYPES)}({self.arguments(level)})', 1))

    def postfix(self, level):
        text = self.primary(level)
        if level <= 0 or not text[0].isalpha():
            return text
        return self.one_of((lambda: text, 10),
                           (lambda: f'{text}.{self.pick(FIELDS)}', 3),
                           (lambda: f'{text}[{self.expression(level - 1)}]', 2),
                           (lambda: f'{text}.Load({self.expression(level - 1)})', 1),
                           (lambda: f'{text}[{self.pick(NAMES)}].{self.pick(FIELDS)}', 1))

    def unary(self, level):
        text = self.postfix(level)
        return self.one_of((lambda: text, 16),
                           (lambda: self.pick(['-', '~', '!', '+']) + text, 1),
                           (lambda: f'({self.pick(TYPES)}) {text}', 1))

    def operation(self, level):
        parts = [self.unary(level)]
        for _ in range(self.random.choice([0, 0, 0, 0, 1, 1, 1, 2])):
            parts += [self.pick(OPERATORS), self.unary(level - 1)]
        return ' '.join(parts)

    def test(self, level):
        text = f'{self.operation(level)} {self.pick(TESTS)} {self.operation(level - 1)}'
        return text if self.chance(0.7) else f'{text} {self.pick(["&&", "||"])} {self.unary(level)}'

    def expression(self, level=2):
        return self.one_of((lambda: self.operation(level), 12), (lambda: self.test(level), 2),
                           (lambda: self.choice(level - 1), 1))

    def choice(self, level):
        return f'{self.test(level)} ? {self.operation(level)} : {self.operation(level)}'

    def place(self):
        return self.one_of((lambda: self.pick(NAMES), 6),
                           (lambda: f'{self.pick(NAMES)}[{self.operation(1)}]', 3),
                           (lambda: f'{self.pick(NAMES)}.{self.pick(FIELDS)}', 2))

    # ---- statements, each as lines

    def init(self, level=2):
        if self.chance(0.9):
            return self.expression(level)
        return '{' + ', '.join(self.expression(1) for _ in range(self.random.randrange(1, 5))) + self.pick(['}', ', }'])

    def declarator(self):
        return self.pick(NAMES) + ('' if self.chance(0.9) else f'[{self.number()}]')

    def local(self):
        starts = [self.declarator() + (f' = {self.init()}' if self.chance(0.8) else '')
                  for _ in range(self.pick([1, 1, 1, 2]))]
        type_name = self.pick(TYPES) if self.chance(0.9) else 'Cell'
        return ('const ' if self.chance(0.1) else '') + type_name + ' ' + ', '.join(starts)

    def assignment(self):
        return f'{self.place()} {self.pick(ASSIGNMENTS)} {self.expression()}'

    def effect(self):
        return self.one_of((lambda: self.place() + self.pick(['++', '--']), 2),
                           (lambda: self.pick(['++', '--']) + self.place(), 1),
                           (lambda: f'output.Store({self.expression(2)}, {self.expression(2)})', 3),
                           (lambda: f'{self.pick(CALLS)}({self.arguments(2)})', 1))

    def attribute(self):
        return self.pick(['[loop] ', '[unroll] ', '[unroll(4)] ', '[branch] ']) if self.chance(0.2) else ''

    def body(self, level):
        return [' {', *indented(self.statements(level, self.random.randrange(1, 4))), '}']

    def branch(self, level):
        lines = headed(f'{self.attribute()}if ({self.test(2)})', self.body(level))
        if self.chance(0.4):
            lines = lines[:-1] + headed('} else', self.body(level))
        return lines

    def head(self):
        first = self.one_of((self.local, 6), (self.assignment, 1), (str, 1))
        return f'{first}; {self.test(1)}; {self.place()}{self.pick(["++", "--"])}'

    def loop(self, level):
        return self.one_of((lambda: headed(f'{self.attribute()}for ({self.head()})', self.body(level)), 5),
                           (lambda: headed(f'while ({self.test(2)})', self.body(level)), 2),
                           (lambda: headed('do', self.body(level), f' while ({self.test(1)});'), 1))

    def statement(self, level):
        simple = [(lambda: [self.local() + ';'], 6), (lambda: [self.assignment() + ';'], 9),
                  (lambda: [self.effect() + ';'], 4),
                  (lambda: [self.pick(['break;', 'continue;', 'return;', ';'])], 1),
                  (lambda: [f'return {self.expression(2)};'], 1), (lambda: ['// ' + self.pick(COMMENTS)], 4)]
        nested = [(lambda: self.branch(level - 1), 3), (lambda: self.loop(level - 1), 3),
                  (lambda: headed('', self.body(level - 1)), 1)]
        return self.one_of(*simple, *(nested if level > 0 else []))

    def statements(self, level, count):
        return [line for _ in range(count) for line in self.statement(level)]

    # ---- items, each as lines

    def member(self):
        return f'{self.pick(TYPES)} {self.declarator()};'

    def param(self):
        direction = self.pick(['', '', '', 'in ', 'out ', 'inout ', 'const '])
        return direction + self.pick(TYPES) + ' ' + self.declarator()

    def function(self, head):
        comment = [f'// {self.pick(COMMENTS)}, and {self.pick(COMMENTS)}' for _ in range(2)]
        return comment + headed(head, [' {', *indented(self.statements(3, self.random.randrange(6, 20))), '}'])

    def item(self):
        self.count += 1
        number = self.count
        return self.one_of(
            (lambda: [f'struct Cell{number} {{', *indented([self.member() for _ in range(1, 5)]), '};'], 1),
            (lambda: [f'RWByteAddressBuffer output{number} : register(u{number});'], 1),
            (lambda: [f'StructuredBuffer<Cell> cells{number} : register(t{number}, space1);'], 1),
            (lambda: [f'groupshared {self.pick(TYPES)} tile{number}[{self.number()}];'], 1),
            (lambda: [f'static const {self.pick(TYPES)} limit{number} = {self.init(1)};'], 1),
            (lambda: self.function(f'{self.pick(TYPES)} helper{number}'
                                   f'({", ".join(self.param() for _ in range(self.random.randrange(4)))})'), 5),
            (lambda: self.function(f'[numthreads({self.pick([1, 8, 64])}, {self.pick([1, 8])}, 1)] void main{number}'
                                   '(uint3 id : SV_DispatchThreadID, uint lane : SV_GroupIndex)'), 2))

    def text(self):
        return '\n'.join(self.item()) + '\n\n'


def indented(lines):
    return ['    ' + line for line in lines]


def headed(head, lines, behind=''):
    """Lines of which the first is put behind the head, and something behind the last one."""
    first = [(head + lines[0]).lstrip(), *lines[1:]]
    return first[:-1] + [first[-1] + behind]


def tokens_of(source):
    """How many tokens a source has."""
    return len(TOKEN.findall(COMMENT.sub(b' ', source)))


def packed(source):
    """A source without comments, with a space only where two tokens need one."""
    parts, last = [], b''
    for token in TOKEN.findall(COMMENT.sub(b' ', source)):
        both = TOKEN.match(last + token)
        if last and both.end() > len(last):
            parts.append(b' ')
        parts.append(token)
        last = token
    return b''.join(parts) + b'\n'


def filled(most_bytes, most_tokens, change):
    """As many items as both limits hold."""
    kernels, parts, size, count = Kernels(1), [], 0, 0
    while True:
        part = change(kernels.text().encode())
        size, count = size + len(part), count + tokens_of(part)
        if size > most_bytes or count > most_tokens:
            return b''.join(parts)
        parts.append(part)


def average(most_bytes, most_tokens):
    return filled(most_bytes, most_tokens, lambda text: text)


def dense(most_bytes, most_tokens):
    return filled(most_bytes, most_tokens, packed)


def repeated(before, part, after, behind=b'', middle=b'', times=1 << 20):
    """A shape that has a part as often as both limits hold, but at most so often; and behind the middle so often
    another part."""
    def make(most_bytes, most_tokens):
        around, inner = before + middle + after, part + behind
        most = min((most_bytes - len(around)) // len(inner),
                   (most_tokens - tokens_of(around)) // tokens_of(inner), times)
        return before + most * part + middle + most * behind + after
    return make


# a hundred thousand deep, or as deep as 262,144 tokens go; and exactly 64 deep again and again
DEEP = 100000
DEEPEST = {
    'parentheses': repeated(b'void f() { x = ', b'(', b'; }', b')', b'1', DEEP),
    'blocks': repeated(b'void f() {', b'{', b'}', b'}', times=DEEP),
    'ifs': repeated(b'void f() {', b'if(a)', b'; }', times=DEEP),
    'elses': repeated(b'void f() {', b'if(a);else ', b'; }', times=DEEP),
    'prefixes': repeated(b'void f() { x = ', b'!', b'1; }', times=DEEP),
    'braces': repeated(b'static const int a = ', b'{', b';', b'}', b'1', DEEP),
    'choices': repeated(b'void f() { x = ', b'a?b:', b'c; }', times=DEEP),
    'indices': repeated(b'void f() { x = ', b'a[', b'; }', b']', b'b', DEEP),
    '64 parentheses': repeated(b'void f() {', b'x=' + 61 * b'(' + b'1' + 61 * b')' + b';', b'}'),
    '64 blocks': repeated(b'void f() {', 63 * b'{' + b';' + 63 * b'}', b'}'),
    '64 operands': repeated(b'void f() {', b'x=1' + 61 * b'+1' + b';', b'}'),
}

# one list that is as long as both limits allow
WIDEST = {
    'arguments': repeated(b'void f() { g(0', b',x', b'); }'),
    'initialisers': repeated(b'static const int a[9] = {0', b',1', b'};'),
    'statements': repeated(b'void f() {', b'x=1;', b'}'),
    'empty': repeated(b'void f() {', b';', b'}'),
    'locals': repeated(b'void f() {', b'int x=1;', b'}'),
    'declarators': repeated(b'void f() { int a', b',b', b'; }'),
    'members': repeated(b'struct s {', b'int a;', b'};'),
    'params': repeated(b'void f(int a', b',int b', b') { }'),
    'items': repeated(b'', b'void f(){}', b''),
    'sums': repeated(b'void f() { x = 1', b'+1', b'; }'),
    'fields': repeated(b'void f() { x', b'.y', b'; }'),
}
SHAPES = {'average': average, 'dense': dense} | DEEPEST | WIDEST


def main():
    words = sys.argv[1:]
    if len(words) != 3 or words[0] not in SHAPES or not (words[1] + words[2]).isdecimal():
        sys.exit(f'usage: {sys.argv[0]} SHAPE BYTES TOKENS > FILE, with a shape of: {", ".join(SHAPES)}')
    sys.stdout.buffer.write(SHAPES[words[0]](int(words[1]), int(words[2])))


if __name__ == '__main__':
    main()
