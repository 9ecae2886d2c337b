"""What the scripts of bench/ share: the program that they try, one run of it, and the steps that a run charges."""
import collections
import os
import subprocess
import tempfile
import time

HOME = os.path.dirname(os.path.dirname(os.path.abspath(__file__)))
SHIPPED = os.path.join(HOME, 'dist', 'princess-x86_64-linux')
EXAMPLES = os.path.join(HOME, 'examples')
USUAL = 50_000_000

# What a run came to: its status, its standard output, the seconds that it took, the peak of its memory in KiB, and its seconds of
# processor time.
Run = collections.namedtuple('Run', 'status text seconds memory processor')


def program_of(words):
    """The program that the words of a script name, or the one that ships."""
    return os.path.abspath(words[0]) if words else SHIPPED


def run(program, words, out=None, folder=None, said=os.devnull, read=None):
    """One run of the program. Its output goes to the file `out`, where one is named, and is else the text; its errors go to `said`.
    Its standard input is the open file `read`, where there is one."""
    start = time.monotonic()
    with open(out, 'wb') if out else tempfile.TemporaryFile() as file, open(said, 'wb') as errors:
        child = subprocess.Popen([program, *words], stdin=read, stdout=file, stderr=errors, cwd=folder)
        _, status, usage = os.wait4(child.pid, 0)
        seconds = time.monotonic() - start
        child.returncode = os.waitstatus_to_exitcode(status)
        processor = usage.ru_utime + usage.ru_stime
        if out:
            return Run(child.returncode, '', seconds, usage.ru_maxrss, processor)
        file.seek(0)
        return Run(child.returncode, file.read().decode(), seconds, usage.ru_maxrss, processor)


def prints_proof(program, words, out):
    """Whether a run is answered VALID or INVALID and prints a proof into the file `out`: an answer with a counterexample has none."""
    if run(program, words, out).status > 1:
        return False
    with open(out, 'rb') as file:
        return b'\nproof:\n' in file.read(65_536)


def best(program, words, times=3):
    """The shortest of some runs, with the least peak of memory of all."""
    runs = [run(program, words) for _ in range(times)]
    return min(runs, key=lambda it: it.seconds)._replace(memory=min(it.memory for it in runs))


def ends_for_steps(program, words, budget):
    return 'UNKNOWN: steps' in run(program, [*words, '--budget', str(budget)]).text.split('\n')[0]


def charged(program, words, most=USUAL, part=1000):
    """The least budget up to `most` with which the run does not end for want of steps, within one part in so many; None where there is none."""
    if ends_for_steps(program, words, most):
        return None
    low, high = 0, 1
    while high < most and ends_for_steps(program, words, high):
        low, high = high, min(4 * high, most)
    while high - low > max(1, high // part):
        middle = (low + high) // 2
        if ends_for_steps(program, words, middle):
            low = middle
        else:
            high = middle
    return high


def written(folder, text, name='f.pri'):
    """The path of a file of the folder, which has this text from now on."""
    path = os.path.join(folder, name)
    with open(path, 'w', encoding='utf-8') as file:
        file.write(text)
    return path


def examples():
    """The problem files of examples/, by name, each with its path."""
    return [(name, os.path.join(EXAMPLES, name)) for name in sorted(os.listdir(EXAMPLES)) if name.endswith('.pri')]
