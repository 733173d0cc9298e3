"""The table of small kernels, traces.txt: what one lane of each asks."""
from pathlib import Path
from typing import NamedTuple

TABLE = Path(__file__).resolve().parent / 'traces.txt'
# how many words of source_trace stand before the replies
PLACE_WORDS = 10


class Kernel(NamedTuple):
    """A case: its name, the words of source_trace, the source, and the lines that are printed."""
    name: str
    words: list
    source: str
    lines: list

    @property
    def replies(self):
        """The words of each reply."""
        return [reply.split(',') for reply in self.words[PLACE_WORDS:]]


def behind(line, front):
    if not line.startswith(front):
        raise ValueError(f'traces.txt: {front!r} is missing before {line!r}')
    return line[len(front):]


def kernel(block):
    """The case of a block of lines."""
    name, words, _why, *rest = block
    behind(_why, 'why: ')
    end = rest.index('--')
    return Kernel(behind(name, '== '), behind(words, 'words: ').split(), '\n'.join(rest[:end]) + '\n', rest[end + 1:])


def kernels():
    """The cases of the table."""
    blocks = []
    for line in TABLE.read_text().splitlines():
        if not line or line.startswith('#'):
            continue
        if line.startswith('== '):
            blocks.append([])
        blocks[-1].append(line)
    return [kernel(block) for block in blocks]
