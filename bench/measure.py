"""Measures whole processes: wall time, instructions by callgrind, and the greatest memory."""
import re, shutil, subprocess, sys, time


def seconds(words, path, runs):
    """The best wall time of several processes that read a file as their input."""
    best = None
    for _ in range(runs):
        with open(path, 'rb') as given:
            begin = time.perf_counter()
            done = subprocess.run(words, stdin=given, stdout=subprocess.DEVNULL, stderr=subprocess.DEVNULL)
            took = time.perf_counter() - begin
        if done.returncode != 0:
            sys.exit(f'bench/run: {words[0]} on {path}: status {done.returncode}')
        best = took if best is None else min(best, took)
    return best


def noted(tool, words, path, pattern):
    """A number that a tool, run around a program, writes to the error stream; none without the tool."""
    if shutil.which(tool[0]) is None:
        return None
    with open(path, 'rb') as given:
        done = subprocess.run([*tool, *words], stdin=given, stdout=subprocess.DEVNULL, stderr=subprocess.PIPE,
                              text=True)
    found = re.search(pattern, done.stderr)
    return int(found.group(1)) if found else None


def peak(words, path):
    """The greatest memory of a process, in bytes."""
    kilobytes = noted(['/usr/bin/time', '-f', 'peak %M'], words, path, r'peak (\d+)')
    return None if kilobytes is None else 1024 * kilobytes


def memory_ratio(words, path, idle):
    """The greatest memory less that of an idle process, over the size of the input."""
    top = peak(words, path)
    return None if top is None or idle is None else max(top - idle, 0) / path.stat().st_size


def instructions(words, path):
    return noted(['valgrind', '--tool=callgrind', '--callgrind-out-file=/dev/null'], words, path, r'Collected : (\d+)')


def shown(value, form='{}'):
    return '-' if value is None else form.format(value)
