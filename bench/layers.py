"""Times the lexer, and the lexer with the parser after it, on the sources of sources.py, and both with
the typing rules after them on those of programs.py. Of `inline`, on the programs with calls there, it
counts the instructions alone: those of `bench_layers inline` less those of `bench_layers sizes`, which
does all that comes before.
"""
from dataclasses import dataclass
import subprocess, sys

from measure import instructions, memory_ratio, peak, seconds, shown
from programs import ASIDE, CALLS, WIDE, kernels
from sources import DEEPEST, WIDEST, average, dense, tokens_of

MOST_BYTES = 1048576
MOST_TOKENS = 262144
# the average text of each size, the largest last
HALVINGS = range(6, -1, -1)
LAYERS = ['lex', 'parse']
RULES = ['elaborate']

# what the layers have to reach on the largest average text, or the largest kernels; the rest are ratios
SPEED = {'lex': 20, 'parse': 8, 'elaborate': 4}
INSTRUCTIONS = {'lex': 150, 'parse': 400, 'elaborate': 1000}
DOUBLED = 2.3
OVER_AVERAGE = 3
# of `inline`, for each thing that the limit on sizes counts once all calls are replaced
COUNTED = 2000


@dataclass
class Timed:
    """How long a layer takes on a source, and how many instructions, where callgrind is installed."""
    path: object
    size: int
    tokens: int
    took: float
    counted: int | None

    def speed(self):
        return self.size / self.took / 1e6

    def per_byte(self):
        return None if self.counted is None else self.counted / self.size

    def over(self, other):
        """How much longer it takes for each token than another, by instructions where they are known."""
        if self.counted is None or other.counted is None:
            return self.took / self.tokens / (other.took / other.tokens)
        return self.counted / self.tokens / (other.counted / other.tokens)


class Judge:
    """Prints what missed a target, and knows whether anything did."""

    def __init__(self):
        self.missed = []

    def wants(self, name, value, most):
        if value is not None and value > most:
            self.missed.append(f'{name}: {value:.2f}, and at most {most} is asked')


def has_program(words, path):
    """Ends the run where a source that is to break no typing rule breaks one."""
    done = subprocess.run(words, input=path.read_bytes(), capture_output=True)
    if done.stdout != b'program\n':
        sys.exit(f'bench/run: {path}: {done.stdout!r}, {done.stderr!r}')


def timed(program, layer, path, source, runs):
    words = [program, layer]
    if layer == 'elaborate':
        has_program(words, path)
    return Timed(path, len(source), tokens_of(source), seconds(words, path, runs), instructions(words, path))


def doubled(program, layer, half, whole):
    """How much more it takes than on half the size, by instructions where they are known: what else runs on the
    machine doesn't change them. Where a time misses the target both are timed again, one beside the other."""
    if half.counted is not None and whole.counted is not None:
        return whole.counted / half.counted
    words = [program, layer]
    for _ in range(20):
        if whole.took <= DOUBLED * half.took:
            break
        for one in (half, whole):
            one.took = min(one.took, seconds(words, one.path, 1))
    return whole.took / half.took


def row(shape, layer, one, memory, ratio):
    print(f'{shape:>15} {layer:>9} {one.size:>8} {one.tokens:>7} {1000 * one.took:>8.2f} {one.speed():>7.2f}'
          f' {shown(one.per_byte(), "{:.0f}"):>10}'
          f' {shown(None if one.counted is None else one.counted / one.tokens, "{:.0f}"):>11}'
          f' {shown(memory, "{:.1f}"):>11} {shown(ratio, "{:.2f}"):>7}', flush=True)


def head(last):
    print(f'{"shape":>15} {"layer":>9} {"bytes":>8} {"tokens":>7} {"ms":>8} {"MB/s":>7} {"instr/byte":>10}'
          f' {"instr/token":>11} {"memory/size":>11} {last:>7}')


def show_sizes(program, folder, idle, judge, shape, make, layers):
    """Prints the rows of a text in all sizes. What the layers take on the largest."""
    largest = {}
    head('doubled')
    for halving in HALVINGS:
        source = make(MOST_BYTES >> halving, MOST_TOKENS >> halving)
        path = folder / f'{shape}-{halving}.hlsl'
        path.write_bytes(source)
        for layer in layers:
            half = largest.get(layer)
            whole = largest[layer] = timed(program, layer, path, source, 10)
            ratio = None if half is None else doubled(program, layer, half, whole)
            judge.wants(f'{layer}, {whole.size} bytes, over half the size', ratio, DOUBLED)
            row(shape, layer, whole, memory_ratio([program, layer], path, idle), ratio)
    for layer, one in largest.items():
        judge.wants(f'{layer}, instructions a byte', one.per_byte(), INSTRUCTIONS[layer])
        judge.wants(f'{layer}, seconds for {SPEED[layer]} MB', SPEED[layer] / one.speed(), 1)
    return largest


def show_others(program, folder, idle, largest, judge):
    """Prints the rows of the other texts: for each token none takes much longer than the average text."""
    print()
    head('over it')
    for shape, make in ({'dense': dense} | DEEPEST | WIDEST).items():
        source = make(MOST_BYTES, MOST_TOKENS)
        path = folder / 'other.hlsl'
        path.write_bytes(source)
        for layer in LAYERS:
            one = timed(program, layer, path, source, 3)
            ratio = one.over(largest[layer])
            judge.wants(f'{layer}, {shape}, a token over that of the average text', ratio, OVER_AVERAGE)
            row(shape, layer, one, memory_ratio([program, layer], path, idle), ratio)


def show_programs(program, folder, idle, judge):
    """Prints the rows of the widest programs, each beside one of half the size."""
    print()
    head('doubled')
    for shape, make in WIDE.items():
        both = []
        for halving in (1, 0):
            source = make(MOST_BYTES >> halving, MOST_TOKENS >> halving)
            path = folder / f'wide-{halving}.hlsl'
            path.write_bytes(source)
            both.append(timed(program, 'elaborate', path, source, 3))
        ratio = doubled(program, 'elaborate', *both)
        if shape not in ASIDE:
            judge.wants(f'elaborate, {shape}, over half the size', ratio, DOUBLED)
        row(shape, 'elaborate', both[1], memory_ratio([program, 'elaborate'], both[1].path, idle), ratio)


def held(program, path):
    """How much a program holds with all calls replaced."""
    done = subprocess.run([program, 'sizes'], input=path.read_bytes(), capture_output=True, text=False)
    if not done.stdout.startswith(b'size '):
        sys.exit(f'bench/run: {path}: {done.stdout!r}, {done.stderr!r}')
    return int(done.stdout.split()[1])


def inlined(program, path):
    """The instructions that removing the calls takes by itself, where callgrind is installed."""
    behind, before = instructions([program, 'inline'], path), instructions([program, 'sizes'], path)
    return None if behind is None or before is None else behind - before


def show_calls(program, folder, judge):
    """Prints the rows of programs with calls, each beside one with half as many."""
    print()
    print(f'{"calls":>15} {"layer":>9} {"bytes":>8} {"size":>7} {"instr/counted":>13} {"doubled":>7}')
    for shape, (make, count) in CALLS.items():
        both = []
        for calls in (count // 2, count):
            path = folder / f'calls-{calls}.hlsl'
            path.write_bytes(make(calls))
            both.append((held(program, path), inlined(program, path), path.stat().st_size))
        (half_size, half, _), (size, whole, length) = both
        per = None if whole is None else whole / size
        ratio = None if whole is None or half is None else whole / size / (half / half_size)
        judge.wants(f'inline, {shape}, instructions for each thing that is counted', per, COUNTED)
        judge.wants(f'inline, {shape}, the same over that of half as many calls', ratio, DOUBLED / 2)
        print(f'{shape:>15} {"inline":>9} {length:>8} {size:>7} {shown(per, "{:.0f}"):>13} {shown(ratio, "{:.2f}"):>7}', flush=True)


def show(program, folder):
    """Prints the tables of the layers. Whether each target is met."""
    judge = Judge()
    nothing = folder / 'nothing.hlsl'
    nothing.write_bytes(b'')
    idle = peak([program, 'lex'], nothing)
    largest = show_sizes(program, folder, idle, judge, 'average', average, LAYERS)
    show_others(program, folder, idle, largest, judge)
    print()
    show_sizes(program, folder, idle, judge, 'kernels', kernels, RULES)
    show_programs(program, folder, idle, judge)
    show_calls(program, folder, judge)
    print(f'\naims: lex {SPEED["lex"]} MB/s and {INSTRUCTIONS["lex"]} instructions a byte, parse {SPEED["parse"]} and'
          f' {INSTRUCTIONS["parse"]}, elaborate {SPEED["elaborate"]} and {INSTRUCTIONS["elaborate"]}, doubled {DOUBLED},'
          f' a token over that of the average text {OVER_AVERAGE},'
          f' inline {COUNTED} instructions for each thing that is counted')
    for line in judge.missed:
        print(f'missed: {line}')
    return not judge.missed
