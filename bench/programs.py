#!/usr/bin/env python3
"""Sources that break no typing rule, of a wished size, to measure how fast their programs are made.

    bench/programs.py SHAPE BYTES TOKENS > FILE

The source has at most so many bytes and so many tokens. Its shape is

kernels        functions as one writes them, with loops, vectors, members, buffers and calls: four bytes a token

or one of the widest texts, in the table WIDE below.
"""
import random, sys

from sources import headed, indented, repeated, tokens_of

HEAD = '''struct Cell { uint3 position; int weight; uint next[4]; };
StructuredBuffer<Cell> cells : register(t0);
ByteAddressBuffer words : register(t1);
RWStructuredBuffer<int> sums : register(u0);
RWByteAddressBuffer output : register(u1);
static const uint SIZE = 64;
static const int weights[SIZE - 60] = { 1, 2, 2, 1 };
groupshared uint tile[SIZE * 4];
groupshared int3 corners[8];

'''

TAIL = '''[numthreads(64, 1, 1)]
void main(uint3 id : SV_DispatchThreadID, uint lane : SV_GroupIndex) {
    tile[lane] = id.x;
    GroupMemoryBarrierWithGroupSync();
    output.Store(4 * id.x, tile[63 - lane]);
}
'''
TYPES = ['uint'] * 5 + ['int'] * 4 + ['bool', 'uint3', 'int3', 'uint2']
COMMENTS = ['the rows that this group has left', 'wraps at the end of the buffer', 'see the header',
            'no lane writes the same word twice', 'odd lengths take one step more']
SHORT = {'uint': 'u', 'int': 'i', 'bool': 'b', 'uint3': 'u3', 'int3': 'i3', 'uint2': 'u2'}


class Functions:
    """Functions at random, the same ones in every run. What is in scope is known by its type."""

    def __init__(self, seed):
        self.random = random.Random(seed)
        self.made = []      # the functions so far, with the types of their parameters and what they give
        self.names = 0      # how many names the function has so far
        self.known = []     # blocks of names, each with its type and whether it may be written
        self.looped = 0     # how many loops stand around

    def pick(self, words):
        return self.random.choice(words)

    def one_of(self, *choices):
        """One of several ways to go on, each with how often it is taken."""
        ways, weights = zip(*choices)
        return self.random.choices(ways, weights)[0]()

    def named(self, ty, written=False):
        return [name for block in self.known for name, own, free in block if own == ty and (free or not written)]

    def declared(self, ty, free=True):
        self.names += 1
        name = f'{SHORT[ty]}_{self.names}'
        self.known[-1].append((name, ty, free))
        return name

    # ---- expressions of a type

    def number(self, ty):
        if ty == 'bool':
            return self.pick(['true', 'false'])
        return self.pick([str(self.random.randrange(100)), f'{self.random.randrange(1 << 16):#x}',
                          f'{self.random.randrange(64)}u'])

    def word(self, ty):
        names = self.named(ty)
        if names and self.random.random() < 0.75:
            return self.pick(names)
        if ty in ('uint3', 'int3', 'uint2'):
            return f'{ty}({", ".join(self.number(ty[:-1]) for _ in range(int(ty[-1])))})'
        return self.number(ty)

    def called(self, ty, level):
        fitting = [made for made in self.made[-20:] if made[2] == ty]
        if not fitting:
            return self.word(ty)
        name, params, _ = self.pick(fitting)
        return f'{name}({", ".join(self.expression(own, level - 1) for own in params)})'

    def compared(self, level):
        ty = self.pick(['uint', 'int'])
        sign = self.pick(['<', '<=', '>', '>=', '==', '!='])
        return f'{self.expression(ty, level - 1)} {sign} {self.expression(ty, level - 1)}'

    def scalar(self, ty, level):
        inner = lambda own: self.expression(own, level - 1)
        vector = self.pick(['uint3', 'uint2'] if ty == 'uint' else ['int3'])
        letter = self.pick('xy' if vector == 'uint2' else 'xyz')
        return self.one_of(
            (lambda: f'({inner(ty)} {self.pick("+-*&|^")} {inner(ty)})', 10),
            (lambda: f'({inner(ty)} {self.pick(["<<", ">>", "/", "%"])} {self.random.randrange(1, 9)})', 3),
            (lambda: f'{self.word(vector)}.{letter}', 4),
            (lambda: f'cells[{inner("uint")}].{"weight" if ty == "int" else "position.x"}', 2),
            (lambda: f'words.Load({inner("uint")} & 1020)' if ty == 'uint' else f'sums[{inner("uint")}]', 2),
            (lambda: f'tile[{inner("uint")} & 63]' if ty == 'uint' else f'weights[{inner("uint")} & 3]', 2),
            (lambda: f'{self.pick(["min", "max"])}({inner(ty)}, {inner(ty)})', 2),
            (lambda: f'countbits({inner("uint")})' if ty == 'uint' else f'abs({inner("int")})', 1),
            (lambda: f'({inner("bool")} ? {inner(ty)} : {inner(ty)})', 1),
            (lambda: f'({ty}) {self.word(self.pick(["uint", "int", "bool"]))}', 1),
            (lambda: self.called(ty, level), 3))

    def expression(self, ty, level):
        if level <= 0:
            return self.word(ty)
        inner = lambda own: self.expression(own, level - 1)
        if ty == 'bool':
            return self.one_of((lambda: self.word(ty), 2), (lambda: f'({self.compared(level)})', 6),
                               (lambda: f'({inner(ty)} {self.pick(["&&", "||"])} {inner(ty)})', 2),
                               (lambda: f'!{self.word(ty)}', 1))
        if ty in ('uint', 'int'):
            return self.one_of((lambda: self.word(ty), 6), (lambda: self.scalar(ty, level), 10))
        return self.one_of((lambda: self.word(ty), 4),
                           (lambda: f'({inner(ty)} {self.pick("+-*&|^")} {inner(ty)})', 5),
                           (lambda: f'{self.word(ty)}.{"yx" if ty == "uint2" else self.pick(["zyx", "xxy"])}', 2),
                           (lambda: f'{ty}({", ".join(self.expression(ty[:-1], 1) for _ in range(int(ty[-1])))})', 2),
                           (lambda: self.called(ty, level), 1))

    # ---- statements, each as lines

    def local(self):
        ty = self.pick(TYPES)
        value = self.expression(ty, 2)
        return [f'{ty} {self.declared(ty)} = {value};']

    def assigned(self):
        ty = self.pick(['uint', 'int', 'uint3', 'int3'])
        places = self.named(ty, written=True)
        if not places:
            return self.local()
        place, sign = self.pick(places), self.pick(['='] * 4 + ['+=', '-=', '^=', '|=', '*='])
        return [f'{place} {sign} {self.expression(ty, 2)};']

    def effect(self):
        value = lambda ty: self.expression(ty, 2)
        return self.one_of((lambda: [f'output.Store({value("uint")}, {value("uint")});'], 3),
                           (lambda: [f'tile[{value("uint")} & 255] = {value("uint")};'], 2),
                           (lambda: [f'corners[{value("uint")} & 7].{self.pick("xyz")} = {value("int")};'], 1),
                           (lambda: [f'InterlockedAdd(tile[{value("uint")} & 255], {value("uint")});'], 1),
                           (lambda: [f'sums[{value("uint")}] += {value("int")};'], 1))

    def body(self, level):
        self.known.append([])
        lines = [' {', *indented(self.statements(level, self.random.randrange(1, 5))), '}']
        self.known.pop()
        return lines

    def branch(self, level):
        lines = headed(f'if ({self.expression("bool", 2)})', self.body(level))
        return lines[:-1] + headed('} else', self.body(level)) if self.random.random() < 0.4 else lines

    def loop(self, level):
        self.known.append([])
        name = self.declared('uint', free=False)
        self.looped += 1
        lines = headed(f'for (uint {name} = 0; {name} < {self.random.randrange(2, 64)}; {name}++)', self.body(level))
        self.looped -= 1
        self.known.pop()
        return lines

    def statement(self, level):
        simple = [(self.local, 7), (self.assigned, 8), (self.effect, 4), (lambda: ['// ' + self.pick(COMMENTS)], 4)]
        if self.looped:
            simple.append((lambda: [f'if ({self.expression("bool", 1)}) {self.pick(["break", "continue"])};'], 1))
        nested = [(lambda: self.branch(level - 1), 3), (lambda: self.loop(level - 1), 2)]
        return self.one_of(*simple, *(nested if level > 0 else []))

    def statements(self, level, count):
        return [line for _ in range(count) for line in self.statement(level)]

    def text(self):
        """One more function, with an empty line behind it."""
        self.names, self.known = 0, [[]]
        gives, params = self.pick(['uint', 'int', 'uint3']), [self.pick(TYPES) for _ in range(self.random.randrange(4))]
        written = ', '.join(f'{own} {self.declared(own)}' for own in params)
        name = f'helper_{len(self.made)}'
        lines = self.statements(3, self.random.randrange(6, 16))
        lines = headed(f'{gives} {name}({written})', [' {', *indented([*lines, f'return {self.word(gives)};']), '}'])
        self.made.append((name, params, gives))
        return '\n'.join([f'// {self.pick(COMMENTS)}', *lines]) + '\n\n'


def kernels(most_bytes, most_tokens):
    """As many functions as both limits hold, between what they use and the entry."""
    functions, parts = Functions(1), []
    ends = HEAD + TAIL
    size, count = len(ends), tokens_of(ends.encode())
    while True:
        part = functions.text()
        size, count = size + len(part), count + tokens_of(part.encode())
        if size > most_bytes or count > most_tokens:
            return (HEAD + ''.join(parts) + TAIL).encode()
        parts.append(part)


ENTRY = b'[numthreads(1,1,1)] void main() {'
LIMIT = 262144      # the greatest number of tokens


def times(most, most_tokens):
    """How often a text has what a program has at most so often: a smaller text less, so that it can be half as long."""
    return most * most_tokens // LIMIT


def numbered(before, part, after, most=LIMIT):
    """A shape that has a part, with a number n of its own and the number p before it, as often as both limits hold,
    but at most so often."""
    def make(most_bytes, most_tokens):
        parts, size, count = [], len(before + after), tokens_of(before + after)
        for number in range(times(most, most_tokens)):
            one = part % {b'n': number + 1, b'p': number}
            size, count = size + len(one), count + tokens_of(one)
            if size > most_bytes or count > most_tokens:
                break
            parts.append(one)
        return before + b''.join(parts) + after
    return make


def listed(before, part, after, most):
    """A shape that has a list of a part, as long as is said before the list in the place of %d, and at most so long."""
    def make(most_bytes, most_tokens):
        count = times(most, most_tokens)
        text = before % count + b','.join([part] * count) + after
        assert len(text) <= most_bytes and tokens_of(text) <= most_tokens
        return text
    return make


def sized(most):
    """A program of exactly so many words of variables, nodes and statements: 6 for each assignment, 3 before them."""
    def make(_most_bytes, most_tokens):
        assigned, left = divmod(times(most, most_tokens) - 3, 6)
        return ENTRY + b'uint x=0;' + assigned * b'x=x+1;' + left * b';' + b'}'
    return make


# each has one thing as often as the limits on bytes and tokens allow, or as a rule or the limit on sizes does
WIDE = {
    'functions': numbered(b'', b'uint f%(n)d(uint a) { return a + %(n)d; }', ENTRY + b'}'),
    'calls': numbered(b'uint f0(uint a) { return a; }', b'uint f%(n)d(int a) { return f%(p)d(a) + f%(p)d(%(n)d); }',
                      ENTRY + b'}'),
    'overloads': numbered(b'', b'void f(uint a[%(n)d]) { }', ENTRY + b'}', 1000),
    'names': numbered(ENTRY, b'uint a%(n)d=%(n)d;', b'}'),
    'members': numbered(b'struct S { int a0;', b'int a%(n)d;', b'};' + ENTRY + b'S s; s.a0 = 1; }', 65535),
    'uses': repeated(ENTRY + b'uint x=0;', b'x=x+1;', b'}'),
    'conversions': repeated(ENTRY + b'bool b; int i; uint u; uint3 v;', b'v=b+i*u;', b'}'),
    'places': repeated(b'struct C { uint3 p; uint n[4]; }; groupshared C c[8];' + ENTRY + b'int x;',
                       b'c[x].n[x&3]+=c[x].p.y;', b'}'),
    'intrinsics': repeated(b'groupshared uint g;' + ENTRY, b'g=max(g,g);', b'}'),
    'numbers': listed(b'static const int a[%d] = {', b'1', b'};' + ENTRY + b'}', 65536),
    'initialisers': listed(b'struct S { int a; uint2 b; };' + ENTRY + b'uint x; S s[%d] = {', b'{1,{x,true}}', b'}; }',
                           21845),
    'blocks': repeated(ENTRY, b'{;}', b'}'),
    '64 operands': repeated(ENTRY + b'uint x=0;', b'x=1' + 61 * b'+1' + b';', b'}'),
    'greatest size': sized(16384),
}
DST = b'RWByteAddressBuffer dst;\n'
SMALL = b'uint f(uint a, inout uint b) { uint x[4]; x[a & 3] = b; if (a > 2) return x[a & 3] + 1; b = b + a; return a; }\n'


def called(text, before=DST + SMALL + ENTRY + b'uint u = 1; uint w = 2;', after=b'dst.Store(0, u); }'):
    """A program whose entry has a text so many times."""
    def make(count):
        return before + count * text + after
    return make


def doubling(count):
    """A chain of functions, each of which calls the one before it twice, until the entry calls so many."""
    parts, calls = [b'uint f0(uint a) { return a + 1; }\n'], 1
    while 2 * calls <= count:
        number = len(parts)
        parts.append(b'uint f%d(uint a) { uint x = f%d(a); return x + f%d(x); }\n' % (number, number - 1, number - 1))
        calls *= 2
    return DST + b''.join(parts) + ENTRY + b'dst.Store(0, f%d(1)); }' % (len(parts) - 1)


def tree(levels):
    """An expression without calls, wide below so many levels."""
    return b'u' if levels == 0 else b'max(%s, %s)' % (tree(levels - 1), tree(levels - 1))


# a call among the operands of a chain as deep as it may be, which turns to the right, or to the left and right
CALL, CHOICE, TREE = b'f(u, w)', b'u > w ? u : ', tree(8)
ZIGZAG = 29 * (CHOICE + b'u > w ? ') + CALL + 29 * b' : u'
# Programs with calls, by a count, and how great it is. What they hold with all calls replaced grows with it.
CALLS = {
    'statements': (called(b'u = f(u, w);'), 256),
    'operands': (called(b'u = f(u, w) + f(w, u);'), 128),
    'arguments': (called(b'u = f(f(u, w), w);'), 128),
    'deep operands': (called(b'u = ' + 30 * b'(u + ' + b'f(u, w)' + 30 * b')' + b';'), 64),
    'deep choices': (called(b'u = ' + 29 * b'u > w ? u : (' + b'f(u, w)' + 29 * b')' + b';'), 32),
    'deep indexes': (called(b'u = ' + 29 * b'x[' + b'f(u, w)' + 29 * b' & 3]' + b';',
                            DST + SMALL + ENTRY + b'uint u = 1; uint w = 2; uint x[4];'), 32),
    'long choices': (called(b'u = ' + 58 * CHOICE + CALL + b';'), 32),
    'zigzag choices': (called(b'u = ' + ZIGZAG + b';'), 32),
    'call and tree': (called(b'u = ' + 51 * CHOICE + CALL + b' + ' + TREE + b';'), 16),
    'tree and call': (called(b'u = ' + 51 * CHOICE + TREE + b' + ' + CALL + b';'), 16),
    'assigned trees': (called(52 * b'u = ' + CALL + b' + ' + TREE + b';'), 16),
    'doubling': (doubling, 512),
}
# each function of a name is compared with those of the name before it, and no aim is set for that
ASIDE = {'overloads'}
SHAPES = {'kernels': kernels} | WIDE


def main():
    words = sys.argv[1:]
    if len(words) != 3 or words[0] not in SHAPES or not (words[1] + words[2]).isdecimal():
        sys.exit(f'usage: {sys.argv[0]} SHAPE BYTES TOKENS > FILE, with a shape of: {", ".join(SHAPES)}')
    sys.stdout.buffer.write(SHAPES[words[0]](int(words[1]), int(words[2])))


if __name__ == '__main__':
    main()
