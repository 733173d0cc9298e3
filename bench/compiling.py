"""Times `compile` on sources that are lists of literal stores, with different numbers in each."""
import shutil
from pathlib import Path

from measure import instructions, memory_ratio, peak, seconds, shown

SMALL = Path(__file__).resolve().parent.parent / 'examples' / 'two_stores.hlsl'
TOKENS = 262144
BYTES = 1048576
EMPTY = '[numthreads(1, 1, 1)]\nvoid main() {\n}\n'


def source(stores):
    """A kernel of so many stores, no number twice."""
    lines = [f'    o.Store({4 * k}, {4294967295 - k});\n' for k in range(stores)]
    return 'RWByteAddressBuffer o : register(u0);\n[numthreads(1,1,1)]\nvoid main() {\n' + ''.join(lines) + '}\n'


def most_stores():
    """As many stores as the limits on tokens and bytes hold: 24 tokens around them, and 9 for each."""
    stores = (TOKENS - 24) // 9
    while len(source(stores)) > BYTES:
        stores -= 1
    return stores


def show(program, folder):
    """Prints the table of `compile`, with the aims below it."""
    words = [program, 'compile']
    most = most_stores()
    empty = folder / 'empty.hlsl'
    empty.write_text(EMPTY)
    idle = peak(words, empty)
    print(f'{"stores":>7} {"bytes":>8} {"ms":>9} {"MB/s":>7} {"instr/byte":>10} {"memory/size":>11} {"doubled":>8}')
    times = {}
    for stores in (1, 100, 5000, 10000, most // 2, most):
        path = folder / f'{stores}.hlsl'
        path.write_text(source(stores))
        size = path.stat().st_size
        times[stores] = took = seconds(words, path, 20 if stores < 1000 else 5)
        counted = instructions(words, path)
        half = times.get(stores // 2)
        print(f'{stores:>7} {size:>8} {1000 * took:>9.2f} {size / took / 1e6:>7.2f}'
              f' {shown(None if counted is None else counted / size, "{:.0f}"):>10}'
              f' {shown(memory_ratio(words, path, idle), "{:.1f}"):>11}'
              f' {shown(None if half is None else took / half, "{:.2f}"):>8}')
    print(f'{"aim":>7} {"":>8} {"":>9} {"20":>7} {"150":>10} {"60":>11} {"2.3":>8}')
    beside_glslang(words, folder)
    return True


def beside_glslang(words, folder):
    """Whole processes side by side on one small kernel, against glslang, which compiles it to SPIR-V."""
    if shutil.which('glslangValidator') is None:
        print('glslangValidator is not installed')
        return
    other = ['glslangValidator', '-D', '-V', '-S', 'comp', '-e', 'main', str(SMALL), '-o', str(folder / 'small.spv')]
    ours = theirs = None
    for _ in range(20):
        a, b = seconds(words, SMALL, 1), seconds(other, SMALL, 1)
        ours, theirs = min(a, ours or a), min(b, theirs or b)
    print(f'{SMALL.name}: {1000 * ours:.2f} ms, glslangValidator {1000 * theirs:.2f} ms: 1/{theirs / ours:.0f}')
    ours, theirs = instructions(words, SMALL), instructions(other, SMALL)
    if ours and theirs:
        print(f'{SMALL.name}: {ours} instructions, glslangValidator {theirs}: 1/{theirs / ours:.0f} (aim: 1/50)')
