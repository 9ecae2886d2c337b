#!/usr/bin/env python3
"""A model checker for transition systems over the integers, with princess as its only engine.

    model_checker.py SYSTEM [--depth N] [--budget N] [--prover PROGRAM] [--keep FOLDER]

SYSTEM is a file with four sections, each a word at the start of a line and what follows it up to the next one:

    variables x, y
    init      x = 0 & y = 0
    next      x' = x + 1 & y' = y
    property  x >= y

The formulas are those of princess (docs/LANGUAGE.md); x' is the value of x behind the step. `//` begins a comment.

For each depth from 0 to N (10 where none is given) three questions are asked, and the first answer ends the run:
  1. Bounded unrolling: does some path of that many steps end where the property is false? Then the path is printed. Where the
     states of each step are known from 3, it is looked for one step at a time, from its end.
  2. Induction over that many steps: if the property holds at that many states in a row, does it hold at the next one?
  3. Interpolation: what do the states reached so far look like after one more step? Once that is nothing new, they are an invariant.
An answer `safe` has an invariant. Its three obligations (it holds at the start, a step keeps it, it implies the property) are
proved by `solve --proof`, and `check` accepts each proof. A trace is put into the system again and proved to be a path.

Each question has a budget of steps, 5,000,000 where none is given; one that it does not answer is passed over. --keep leaves all
questions and proofs in a folder. Prints `safe: HOW` and `invariant: F`, or `unsafe: N steps` and the states, or `unknown: WHY`; the
status is 0, 1 or 2. It is 3 where the file or the words are wrong: standard error then has the section, the line and the fault.
"""
import os
import re
import subprocess
import sys
import tempfile

HERE = os.path.dirname(os.path.abspath(__file__))
SECTIONS = ('variables', 'init', 'next', 'property')
TOKEN = re.compile(r"[A-Za-z_][A-Za-z0-9_]*'?|\\[A-Za-z]+|[0-9]+|<->|->|!=|<=|>=|[^\sA-Za-z0-9_]")


class Wrong(Exception):
    """The words are wrong, or the file has no system."""


class Fault(Exception):
    """A section of the system's file is wrong, at a place: a line and a column."""

    def __init__(self, why, section, place=None):
        super().__init__(f'error: {section.name}: {why}')
        self.place = place or section.place


class NoAnswer(Exception):
    """The prover answered UNKNOWN or refused a question."""


def place_in(text, offset):
    """The line and the column of a character."""
    return text.count('\n', 0, offset) + 1, offset - text.rfind('\n', 0, offset)


class Section:
    """A section of a system's file, where its word stands, and its tokens with their places."""

    def __init__(self, word, text):
        """`word` is the match of the section's word in the text, which ends with the section."""
        self.name, self.place, self.text = word.group(), place_in(text, word.start()), text[word.end():].strip()
        found = list(TOKEN.finditer(text, word.end()))
        self.tokens = [match.group() for match in found]
        self.places = [place_in(text, match.start()) for match in found]


class System:
    """Variables, and three formulas over them as lists of tokens."""

    def __init__(self, text):
        self.sections = sections_of(text)
        section = self.sections['variables']
        self.variables = [name.strip() for name in section.text.split(',')]
        for name in self.variables:
            if not re.fullmatch(r'[A-Za-z][A-Za-z0-9_]*', name) or re.fullmatch(r'k[0-9]+', name):
                raise Fault(f'{name!r} is no name of a variable; k0, k1 and so on are names that the prover binds', section)
            if self.variables.count(name) > 1:
                raise Fault(f'{name} comes twice', section)
        self.init = self.tokens('init', primes=False)
        self.next = self.tokens('next', primes=True)
        self.property = self.tokens('property', primes=False)

    def tokens(self, name, primes):
        section, binds = self.sections[name], False
        for place, token in zip(section.places, section.tokens):
            binds = token in ('int', 'nat') or binds and token not in (';', ')')
            if binds and token in self.variables:
                raise Fault(f'a quantifier binds the variable {token}', section, place)
            if re.sub(r'_[0-9]+$', '', token) in self.variables and token not in self.variables:
                raise Fault(f'{token} is how {re.sub("_[0-9]+$", "", token)} is called at a state', section, place)
            if token.endswith("'") and (not primes or token[:-1] not in self.variables):
                raise Fault(f'{token} stands where no variable behind a step can stand', section, place)
        return section.tokens

    def at(self, tokens, place):
        """A formula at the state with a number: x is x_3 and x' is x_4 at 3."""
        return ' '.join(self.named(token, place) for token in tokens)

    def named(self, token, place):
        if token in self.variables:
            return f'{token}_{place}'
        return f'{token[:-1]}_{place + 1}' if token.endswith("'") else token

    def with_values(self, tokens, state, behind=None):
        """A formula with the values of a state in the place of its variables, and of the state behind it."""
        values = {name: f'({value})' for name, value in state.items()}
        values.update((f"{name}'", f'({value})') for name, value in (behind or {}).items())
        return ' '.join(values.get(token, token) for token in tokens)

    def names(self, first, last):
        return [f'{name}_{place}' for place in range(first, last + 1) for name in self.variables]

    def path(self, first, last):
        return [f'({self.at(self.next, place)})' for place in range(first, last)]


def sections_of(text):
    text = re.sub(r'//[^\n]*', '', text)
    words = list(re.finditer(r'^(' + '|'.join(SECTIONS) + r')\b', text, flags=re.MULTILINE))
    if text[:words[0].start() if words else len(text)].strip() or sorted(word.group() for word in words) != sorted(SECTIONS):
        raise Wrong('a system has the sections ' + ', '.join(SECTIONS) + ', each once and each at the start of a line')
    ends = [word.start() for word in words[1:]] + [len(text)]
    return {word.group(): Section(word, text[:end]) for word, end in zip(words, ends)}


class Prover:
    """Asks the prover, each question in a file of its own."""

    def __init__(self, program, budget, folder):
        self.program, self.budget, self.folder, self.asked = program, budget, folder, 0

    def run(self, *words):
        return self.said(*words, quiet='1')[0]

    def said(self, *words, quiet=''):
        """The lines on standard output and those on standard error."""
        done = subprocess.run([self.program, *words], capture_output=True, text=True, check=False,
                              env=dict(os.environ, PRINCESS_QUIET=quiet))
        return done.stdout.splitlines(), done.stderr.splitlines()

    def write(self, text, suffix='.pri'):
        self.asked += 1
        name = os.path.join(self.folder, f'{self.asked:03}{suffix}')
        with open(name, 'w', encoding='ascii') as file:
            file.write(text)
        return name

    def solve(self, text):
        lines = self.run('solve', self.write(text), '--budget', self.budget)
        if not lines or lines[0] not in ('VALID', 'INVALID'):
            raise NoAnswer(lines[0] if lines else 'nothing')
        return lines

    def holds(self, names, formula):
        """Whether a formula holds at all values of the names."""
        return self.solve(universal(names, formula))[0] == 'VALID'

    def values(self, names, formula):
        """Values of the names at which the formula holds, or None."""
        lines = self.solve(f'\\existentialConstants {{ int {", ".join(names)}; }}\n\\problem {{ {formula} }}\n')
        if lines[0] == 'INVALID':
            return None
        pairs = [pair.split(' = ') for pair in lines[2].removeprefix('solution: ').split(', ')]
        return {name: int(value) for name, value in pairs}

    def proves(self, names, formula):
        """Whether a formula holds by a proof that `check` accepts."""
        problem = self.write(universal(names, formula))
        lines = self.run('solve', problem, '--proof', '--budget', self.budget)
        if not lines or lines[0] != 'VALID':
            return False
        return self.run('check', problem, self.write('\n'.join(lines) + '\n', '.proof'))[:1] == ['CHECKED VALID']


def universal(names, formula):
    return f'\\universalConstants {{ int {", ".join(names)}; }}\n\\problem {{ {formula} }}\n'


def question_of(system, section):
    """A question about the formula of a section alone, line by line as in the system's file, and where its pieces begin, each with its
    place in that file. What stands together there stands together here; x' is called x_1."""
    names = system.variables + ([f'{name}_1' for name in system.variables] if section.name == 'next' else [])
    declared = f'\\universalConstants {{ int {", ".join(names)}; }}'
    pieces, behind = [(system.sections['variables'].place, declared, ' '), (section.place, '\\problem {', ' ')], None
    for place, token in zip(section.places, section.tokens):
        pieces.append((place, re.sub(r"(?<=\w)'$", '_1', token), '' if place == behind else ' '))
        behind = place[0], place[1] + len(token)
    pieces.append((pieces[-1][0], '}', ' '))
    text, starts, line = '', [], 1
    for place, piece, blank in sorted(pieces, key=lambda piece: piece[0][0]):
        text += '\n' * (place[0] - line) or blank
        starts.append((len(text), place))
        text, line = text + piece, place[0]
    return text + '\n', starts


def try_section(system, prover, section):
    """Refuses a system whose formula in a section the prover refuses, with the place of the fault in the system's file."""
    if not section.tokens:
        raise Fault('there is no formula', section)
    text, starts = question_of(system, section)
    lines, said = prover.said('solve', prover.write(text), '--budget', '1')
    if not lines:
        raise Wrong(said[0] if said else f'{prover.program} gives no answer')
    refusal = re.fullmatch(r'refused: (\w+)(?: at ([0-9]+))?', lines[0])
    if refusal:
        name, at = refusal.groups()
        place = section.place if at is None else [place for start, place in starts if start <= int(at)][-1]
        raise Fault(name + ''.join(f': {sentence}' for sentence in sentences(system, said[:1])), section, place)


def sentences(system, lines):
    """What the prover says of a refusal, in words of the system's file."""
    for line in lines:
        text = re.sub(r'.*?: error: \w+: ', '', line).replace('\\universalConstants', 'variables')
        yield re.sub(r'\b(' + '|'.join(system.variables) + r')_1\b', r"\1'", text)


def both(formulas):
    return ' & '.join(f'({formula})' for formula in formulas) if formulas else 'true'


def unrolled(system, prover, depth):
    """A path of so many steps from the start to where the property is false, in one question; or None."""
    formula = both([system.at(system.init, 0), *system.path(0, depth), f'!({system.at(system.property, depth)})'])
    values = prover.values(system.names(0, depth), formula)
    return values and [{name: values[f'{name}_{place}'] for name in system.variables} for place in range(depth + 1)]


def fixed(state, place):
    return both([f'{name}_{place} = {value}' for name, value in state.items()])


def walked_back(system, prover, layers):
    """The same where the states of each step but the last are known: from the last step to the first."""
    goal, states = f'!({system.at(system.property, 1)})', []
    for layer in reversed(layers):
        values = prover.values(system.names(0, 1), both([system.at(layer, 0), *system.path(0, 1), goal]))
        if values is None and states:
            raise NoAnswer('a layer that is not exact')
        if values is None:
            return None
        states = states or [{name: values[f'{name}_1'] for name in system.variables}]
        states.insert(0, {name: values[f'{name}_0'] for name in system.variables})
        goal = fixed(states[0], 1)
    return states


def trace(system, prover, layers, depth):
    """A path of so many steps to where the property is false, proved to be one; or None."""
    if 0 < depth == len(layers):
        states = walked_back(system, prover, layers)
    else:
        states = unrolled(system, prover, depth)
    if states is None:
        return None
    if not is_path(system, prover, states):
        raise NoAnswer('a trace that is no path')
    return states


def is_path(system, prover, states):
    """Whether states are a path from the start to where the property is false: each step is proved, with the values put in."""
    facts = [system.with_values(system.init, states[0]), f'!({system.with_values(system.property, states[-1])})']
    facts += [system.with_values(system.next, one, two) for one, two in zip(states, states[1:])]
    return all(prover.solve(f'\\problem {{ {fact} }}\n')[0] == 'VALID' for fact in facts)


def is_inductive(system, prover, depth):
    """Whether the property at so many states in a row goes on."""
    before = [system.at(system.property, place) for place in range(depth)]
    return prover.holds(system.names(0, depth), f'{both(before + system.path(0, depth))} -> ({system.at(system.property, depth)})')


def invariant_of_induction(system, prover, depth):
    """That the property holds at a state and at all states of the next `depth - 1` steps; without quantifiers, by `elim`."""
    if depth == 1:
        return system.property
    rest = system.names(1, depth - 1)
    goals = [f'({both(system.path(0, place))} -> ({system.at(system.property, place)}))' for place in range(depth)]
    formula = f'\\forall int {", ".join(rest)}; ({both(goals)})'
    problem = f'\\existentialConstants {{ int {", ".join(system.names(0, 0))}; }}\n\\problem {{ {formula} }}\n'
    lines = prover.run('elim', prover.write(problem))
    if not lines or not lines[0].startswith('constraint: '):
        raise NoAnswer(lines[0] if lines else 'nothing')
    return renamed(system, lines[0].removeprefix('constraint: '), 0)


def renamed(system, text, place):
    """A printed formula over the state with a number, as tokens over the variables."""
    old = {f'{name}_{place}': name for name in system.variables}
    return [old.get(token, token) for token in TOKEN.findall(text)]


def image(system, prover, reached):
    """What can be said of the states one step behind `reached`, as an interpolant between them and the property."""
    every = ' & '.join(f'{name} = {name}' for name in system.names(1, 1))
    text = universal(system.names(0, 1),
                     f'\\part[reached] ({system.at(reached, 0)}) & \\part[step] ({system.at(system.next, 0)})'
                     f' -> \\part[safe] (({system.at(system.property, 1)}) | !({every}))')
    lines = prover.solve(text + '\\interpolant { reached, step; safe }\n')
    if lines[0] == 'INVALID' or not lines[1].startswith('interpolant: '):
        return None
    return renamed(system, lines[1].removeprefix('interpolant: '), 1)


def is_invariant(system, prover, invariant):
    """Proves the three obligations of an invariant, and has each proof checked."""
    here, behind = system.at(invariant, 0), system.at(invariant, 1)
    return (prover.proves(system.names(0, 0), f'({system.at(system.init, 0)}) -> ({here})')
            and prover.proves(system.names(0, 1), f'({here}) & ({system.at(system.next, 0)}) -> ({behind})')
            and prover.proves(system.names(0, 0), f'({here}) -> ({system.at(system.property, 0)})'))


def attempt(question, *words):
    """The answer to a question, or None where the prover has none."""
    try:
        return question(*words)
    except NoAnswer:
        return None


def check(system, prover, most):
    """The lines that answer, and the status."""
    layers, frontier = [system.init], system.init
    for depth in range(most + 1):
        states = trace(system, prover, layers, depth)
        if states is not None:
            rows = [', '.join(f'{name} = {value}' for name, value in state.items()) for state in states]
            return [f'unsafe: {depth} steps', *rows], 1
        if depth > 0 and attempt(is_inductive, system, prover, depth):
            invariant = attempt(invariant_of_induction, system, prover, depth)
            if invariant and is_invariant(system, prover, invariant):
                return [f'safe: by induction over {depth} state{"s" if depth > 1 else ""}', 'invariant: ' + printed(invariant)], 0
        frontier = frontier and attempt(image, system, prover, frontier)
        union = [token for layer in layers for token in ['|', '(', *layer, ')']][1:]
        if frontier and attempt(prover.holds, system.names(0, 0), f'({system.at(frontier, 0)}) -> ({system.at(union, 0)})'):
            if is_invariant(system, prover, union):
                return [f'safe: by interpolation, {depth} steps reach all', 'invariant: ' + printed(union)], 0
        if frontier:
            layers.append(frontier)
    return [f'unknown: nothing found in {most} steps'], 2


def printed(tokens):
    text = ' '.join(tokens)
    text = re.sub(r'(?<=[(!]) | (?=[),;])', '', text)
    text = re.sub(r'(^|[|&(=<>] )- (?=\w)', r'\1-', text)
    return re.sub(r'(\w) \* (\w)', r'\1*\2', text)


def number_of(word, option, most):
    if not re.fullmatch('[0-9]{1,10}', word) or int(word) > most:
        raise Wrong(f'{option} takes a number up to {most:,}')
    return int(word)


def words_of(arguments):
    system, depth, budget, prover, keep = None, 10, 5000000, os.path.join(HERE, '..', '..', 'princess'), None
    words = iter(arguments)
    for word in words:
        if word == '--depth':
            depth = number_of(next(words, ''), word, 1000)
        elif word == '--budget':
            budget = max(1, number_of(next(words, ''), word, 1000000000))
        elif word == '--prover':
            prover = next(words, prover)
        elif word == '--keep':
            keep = next(words, None)
        elif system is None and not word.startswith('-'):
            system = word
        else:
            raise Wrong(f'{word} cannot stand here; --help says what can')
    if system is None:
        raise Wrong('no system is given; --help says what one is')
    return system, depth, prover, str(budget), keep


def system_in(name):
    try:
        with open(name, encoding='ascii') as file:
            return System(file.read())
    except UnicodeDecodeError as error:
        raise Wrong(f'{name}: a system is written in ASCII, and byte {error.start} is none') from None


def answer_of(name, depth, program, budget, keep):
    """The lines that answer for the system in a file, and the status."""
    system = system_in(name)
    with tempfile.TemporaryDirectory() as folder:
        if keep:
            os.makedirs(keep, exist_ok=True)
        prover = Prover(program, budget, keep or folder)
        for section in SECTIONS[1:]:
            try_section(system, prover, system.sections[section])
        try:
            return check(system, prover, depth)
        except NoAnswer as why:
            return [f'unknown: {why}'], 2


def main(arguments):
    words = []
    try:
        if '--help' in arguments or '-h' in arguments:
            lines, status = __doc__.strip().split('\n'), 0
        else:
            words = words_of(arguments)
            lines, status = answer_of(*words)
        print('\n'.join(lines), flush=True)
        return status
    except Fault as fault:
        print(f'{words[0]}:{fault.place[0]}:{fault.place[1]}: {fault}', file=sys.stderr)
        return 3
    except BrokenPipeError:
        os.dup2(os.open(os.devnull, os.O_WRONLY), sys.stdout.fileno())
        return status
    except (Wrong, OSError) as wrong:
        print(f'model_checker: {wrong}', file=sys.stderr)
        return 3


if __name__ == '__main__':
    sys.exit(main(sys.argv[1:]))
