"""The table of damage in damage.txt: what stands in its rows, and the containers that they make."""
import re
from collections import namedtuple
from pathlib import Path

TABLE = Path(__file__).resolve().parent / 'damage.txt'

# a row: its name, the damaged container, the line that is printed, and the peers that refuse its bitcode too
Damaged = namedtuple('Damaged', 'name container line peers')


class OtherContainer(Exception):
    """The container isn't the one that the table was made for."""


def edited(container, edit):
    """A container after one edit."""
    kept = re.fullmatch(r'keep (\d+)', edit)
    if kept:
        return container[:int(kept[1])]
    place, old, new, times = re.fullmatch(r'(\d+): ([0-9a-f]*) ?> ([0-9a-f]+)(?: x (\d+))?', edit).groups()
    start, old, new = int(place), bytes.fromhex(old), bytes.fromhex(new) * int(times or 1)
    if container[start:start + len(old)] != old:
        raise OtherContainer(f'{container[start:start + len(old)].hex()} stands at {start}, and not {old.hex()}')
    return container[:start] + new + container[start + len(new):]


def rows(container):
    """The rows of the table, over the container that it was made for."""
    for line in TABLE.read_text().splitlines():
        if not line or line.startswith('#'):
            continue
        name, edits, printed, peers = (column.strip() for column in line.split('|'))
        damaged = container
        for edit in edits.split(';'):
            try:
                damaged = edited(damaged, edit.strip())
            except OtherContainer as other:
                raise OtherContainer(f'{name}: {other}') from None
        yield Damaged(name, damaged, printed, [] if peers == '-' else peers.split())
