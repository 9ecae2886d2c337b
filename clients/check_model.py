#!/usr/bin/env python3
"""Evaluates the models that `princess smt` prints: `check_model.py SCRIPT [OUTPUT]`.

SCRIPT is the script, and OUTPUT what the program printed for it; without OUTPUT that is read from standard input. The script is followed
command by command, and each printed model is put into the assertions that are in force at its check. Written from docs/SMTLIB.md and
the standard, with the standard library of Python alone; model_terms.py evaluates the terms. Each model or list of values has a line:

    model 1: true                          each assertion is true there
    model 1: not refuted (2 quantified)    the same, but two of them hold only as far as integers were tried
    model 1: not confirmed (2 quantified)  the same, but for one of the two no witness was found among those integers
    model 1: FALSE: (< x 0)                this assertion is false there; or it is said what else is wrong
    values 1: not evaluated                no model stands beside these values, and they are not all there is

    status 0   nothing is FALSE
    status 1   something is FALSE
    status 2   the script or the output cannot be read

An integer variable of a quantifier runs over a finite set: the numbers of the model and of the assertions, each also plus and minus 1,
some numbers about 0, and two far away. So a false `forall` is told where a counterexample is among them, and a true `exists` where a
witness is. All else is certain.
"""
import re
import sys
from dataclasses import dataclass, field

from model_terms import FALSE, SEEMS_FALSE, TRUE, Evaluator, Function, Unreadable, Wrong, need, read, sort_of, tuple_of, written

# The commands, with the least and the greatest number of their arguments.
SILENT = {'set-logic': (1, 1), 'set-info': (1, 2), 'set-option': (2, 2)}
SAYING = {'echo': (1, 1), 'get-info': (1, 1), 'get-option': (1, 1), 'get-assignment': (0, 0), 'get-assertions': (0, 0),
          'get-unsat-core': (0, 0), 'get-unsat-assumptions': (0, 0), 'get-proof': (0, 0)}
CHANGING = {'assert': (1, 1), 'declare-const': (2, 2), 'declare-fun': (3, 3), 'define-fun-rec': (4, 4), 'define-funs-rec': (2, 2)}
DEFINING = {'define-fun': (4, 4), 'define-const': (3, 3), 'define-sort': (3, 3)}
OTHERS = {'check-sat': (0, 0), 'check-sat-assuming': (1, 1), 'get-model': (0, 0), 'get-value': (1, 1), 'push': (0, 1), 'pop': (0, 1),
          'reset': (0, 0), 'reset-assertions': (0, 0)}
COMMANDS = {**SILENT, **SAYING, **CHANGING, **DEFINING, **OTHERS}


# What is in force at a check.

class Force:
    """What some commands declare, define and assert."""

    def __init__(self, commands, assumed=()):
        self.sorts, self.declared, self.functions, self.assertions = {}, {}, {}, []
        self.definitions = []  # the commands that define sorts and functions
        for command in commands:
            getattr(self, 'do_' + command[0].replace('-', '_'))(*command[1:])
            if command[0] in DEFINING:
                self.definitions.append(command)
        self.assertions += assumed

    def do_assert(self, term):
        """An assertion."""
        self.assertions.append(term)

    def do_declare_const(self, name, sort):
        """A constant."""
        self.do_declare_fun(name, [], sort)

    def do_declare_fun(self, name, sorts, sort):
        """A function, a predicate or a constant."""
        need(isinstance(name, str) and isinstance(sorts, list), [name, sorts])
        self.declared[name] = ([sort_of(one, self.sorts) for one in sorts], sort_of(sort, self.sorts))

    def do_define_sort(self, name, parameters, body):
        """A name for a sort."""
        need(isinstance(parameters, list) and all(isinstance(one, str) for one in [name, *parameters]), [name, parameters])
        self.sorts[name] = (parameters, body)

    def do_define_fun(self, name, parameters, sort, body):
        """A function that stands for a term."""
        need(isinstance(name, str), name)
        self.functions[name] = Function(tuple_of(parameters, self.sorts), sort_of(sort, self.sorts), body)

    def do_define_const(self, name, sort, body):
        """A constant that stands for a term."""
        self.do_define_fun(name, [], sort, body)

    def do_define_fun_rec(self, name, parameters, sort, body):
        """A recursive function: a declaration, and the assertion of its equation."""
        self.do_define_funs_rec([[name, parameters, sort]], [body])

    def do_define_funs_rec(self, heads, bodies):
        """Some of them."""
        need(isinstance(heads, list) and all(isinstance(head, list) and len(head) == 3 for head in heads), heads)
        need(isinstance(bodies, list) and len(bodies) == len(heads), bodies)
        for name, parameters, sort in heads:
            self.do_declare_fun(name, [own for _, own in tuple_of(parameters, self.sorts)], sort)
        for (name, parameters, _), body in zip(heads, bodies):
            equation = ['=', [name, *[parameter for parameter, _ in parameters]] if parameters else name, body]
            self.assertions.append(['forall', parameters, equation] if parameters else equation)


# A model, and what is in force at its check.

def numbers_of(t, found):
    """The set with the numbers of a list."""
    if isinstance(t, int):
        found.add(t)
    elif isinstance(t, list):
        for part in t:
            numbers_of(part, found)
    return found


def tried_numbers(lists):
    """The finite set over which quantifiers run, the more telling numbers first."""
    found = numbers_of(lists, {2, 3, 4, 5})
    near = {sign * number + step for number in found for sign in (-1, 1) for step in (-1, 0, 1)} - {0, 1, -1}
    far = 2 * max(found) + 1009
    return [0, 1, -1, far, -far, *sorted(near, key=lambda number: (abs(number), number))]


def bare(t):
    """A list without what some other programs refuse: annotations, since their names may be given twice, and `divisible`."""
    if not isinstance(t, list) or not t:
        return t
    if t[0] == '!':
        return bare(t[1])
    if isinstance(t[0], list) and t[0][:2] == ['_', 'divisible']:
        return ['=', ['mod', bare(t[1]), t[0][2]], 0]
    return [bare(part) for part in t]


@dataclass
class Claim:
    """A model that is printed for a check: its definitions, and what is in force there."""
    force: Force
    model: list

    def __post_init__(self):
        for one in self.model:
            need(isinstance(one, list) and len(one) == 5 and one[0] == 'define-fun' and isinstance(one[1], str), one)

    def evaluator(self):
        """An evaluator with the functions of the model; Wrong, where those are not the ones that are declared."""
        functions = dict(self.force.functions)
        for _, name, parameters, sort, body in self.model:
            function = Function(tuple_of(parameters, {}), sort_of(sort, {}), body)
            if name in functions or name not in self.force.declared:
                raise Wrong(f'{name} is defined twice, or declared nowhere')
            if self.force.declared[name] != ([own for _, own in function.parameters], function.sort):
                raise Wrong(f'{name} has another sort')
            functions[name] = function
        return Evaluator(functions, self.force.declared, self.force.sorts)

    def missing(self):
        """The declared symbols that the model leaves out."""
        return set(self.force.declared) - {one[1] for one in self.model}

    def judged(self):
        """The verdict on the model, with a note."""
        try:
            evaluator = self.evaluator()
            numbers = tried_numbers([self.model, self.force.definitions, self.force.assertions])
            truths = [evaluator.truth_of(assertion, numbers) for assertion in self.force.assertions]
        except Wrong as wrong:
            return 'FALSE', str(wrong)
        if FALSE in truths:
            return 'FALSE', written(self.force.assertions[truths.index(FALSE)])
        tried = sum(truth != TRUE for truth in truths)
        verdict = 'not confirmed' if SEEMS_FALSE in truths else 'not refuted'
        return (verdict, f'{tried} quantified') if tried else ('true', '')

    def value(self, term):
        """The value of a closed term: an int, 'true' or 'false'; None where it is not certain."""
        evaluator = self.evaluator()
        sort, value = evaluator.value_of(term, [0, 1, -1])
        if sort == 'Bool':
            return {TRUE: 'true', FALSE: 'false'}.get(value)
        return None if evaluator.unsure else value

    def script(self):
        """A script that asks whether the model is one: its definitions before the assertions."""
        asserted = [['assert', assertion] for assertion in self.force.assertions]
        lines = [written(bare(one)) for one in [*self.model, *self.force.definitions, *asserted]]
        return '\n'.join(['(set-logic ALL)', *lines, '(check-sat)']) + '\n'


# Following a script and what was printed for it.

@dataclass
class Finding:
    """What is found of an answer to `get-model` or `get-value`."""
    kind: str
    number: int
    verdict: str
    note: str = ''
    claim: Claim = None

    def line(self):
        """The line that is printed."""
        note = f': {self.note}' if self.verdict == 'FALSE' else f' ({self.note})' if self.note else ''
        return f'{self.kind} {self.number}: {self.verdict}{note}'


@dataclass
class Check:
    """A check, while nothing changes after it: its answer, what is in force, the model, and the values."""
    answer: str
    force: Force
    model: Claim = None
    values: list = field(default_factory=list)
    lacks: bool = False


def constant(t):
    """The value that a term of a response stands for."""
    if isinstance(t, list) and len(t) == 2 and t[0] == '-' and isinstance(t[1], int):
        return -t[1]
    need(isinstance(t, int) or t in ('true', 'false'), t)
    return t


def is_told(reply):
    """Whether a reply is more than an error, or that something is not supported."""
    return isinstance(reply, list) and reply[:1] != ['error']


class Follower:
    """Follows a script, and finds what there is to say of its models and values."""

    def __init__(self, script, output):
        answers, self.refused = re.subn(r'(?m)^refused: .*\n?\Z', '', output)
        self.commands, self.replies = read(script), read(answers)
        self.force, self.marks, self.check = [], [], None
        self.findings, self.counts = [], {'model': 0, 'values': 0}
        self.absent = 0  # checks with the answer `sat` whose model was asked for and not printed

    def follow(self):
        """Follows all commands."""
        self.replies.reverse()
        for command in self.commands:
            need(isinstance(command, list) and command and isinstance(command[0], str), command)
            if command[0] == 'exit' or self.refused and not self.replies:
                break
            need(command[0] in COMMANDS, command)
            fewest, most = COMMANDS[command[0]]
            need(fewest < len(command) <= most + 1, command)
            self.perform(command)
        need(not self.replies, 'more is printed than the script asks for')
        self.settle()
        return self

    def perform(self, command):
        """Follows one command."""
        word = command[0]
        if word in SAYING:
            self.reply()
        elif word in CHANGING or word in DEFINING:
            if word in CHANGING:
                self.settle()
            self.force.append(command)
        elif word not in SILENT:
            getattr(self, 'do_' + word.replace('-', '_'))(*command[1:])

    def reply(self):
        """The next thing that was printed."""
        need(self.replies, 'less is printed than the script asks for')
        return self.replies.pop()

    def find(self, kind, verdict, note='', claim=None):
        """Notes what is found."""
        self.counts[kind] += 1
        self.findings.append(Finding(kind, self.counts[kind], verdict, note, claim))

    def do_check_sat(self):
        """A check without assumptions."""
        self.do_check_sat_assuming([])

    def do_check_sat_assuming(self, assumed):
        """A check."""
        self.settle()
        answer = self.reply()
        need(answer in ('sat', 'unsat', 'unknown') and isinstance(assumed, list), answer)
        self.check = Check(answer, Force(self.force, assumed))

    def do_push(self, count=1):
        """Assertion levels more."""
        self.settle()
        need(isinstance(count, int), count)
        self.marks += [len(self.force)] * count

    def do_pop(self, count=1):
        """Assertion levels fewer."""
        self.settle()
        need(isinstance(count, int) and count <= len(self.marks), 'a pop of more levels than are open')
        if count:
            del self.force[self.marks[-count]:]
            del self.marks[-count:]

    def do_reset(self):
        """Nothing is in force any longer."""
        self.settle()
        self.force, self.marks = [], []

    do_reset_assertions = do_reset

    def has_model(self):
        """Whether there may be a model here."""
        return self.check is not None and self.check.answer == 'sat'

    def do_get_model(self):
        """A model that is asked for."""
        reply = self.reply()
        if not is_told(reply):
            self.lack()
        elif not self.has_model():
            self.find('model', 'FALSE', 'it is printed where there is none')
        else:
            self.check.model = Claim(self.check.force, reply)
            self.find('model', *self.check.model.judged(), self.check.model)

    def lack(self):
        """Notes that a model is not printed; once for a check."""
        if self.has_model() and not self.check.lacks:
            self.check.lacks = True
            self.absent += 1

    def do_get_value(self, asked):
        """Values that are asked for."""
        reply = self.reply()
        if is_told(reply):
            need(isinstance(asked, list) and all(isinstance(pair, list) and len(pair) == 2 for pair in reply), reply)
            if self.has_model():
                self.check.values.append((asked, reply))
            else:
                self.find('values', 'FALSE', 'they are printed where there is no model')

    def settle(self):
        """Ends what the last check told."""
        check, self.check = self.check, None
        for asked, pairs in check.values if check else []:
            self.find('values', *self.judged_values(check, asked, pairs))

    def judged_values(self, check, asked, pairs):
        """The verdict on some values, with a note and the model by them, if there is no other."""
        if [term for term, _ in pairs] != asked:
            return 'FALSE', 'these are not the terms that are asked for'
        if check.model is None:
            return self.judged_alone(check, pairs)
        try:
            values = [check.model.value(term) for term in asked]
        except Wrong as wrong:
            return 'FALSE', str(wrong)
        for (term, told), value in zip(pairs, values):
            if value is not None and value != constant(told):
                return 'FALSE', f'{written([term, told])}, and by the model it is {value}'
        return 'not refuted' if None in values else 'true', ''

    def judged_alone(self, check, pairs):
        """The verdict on values where no model is printed: together they may be one."""
        declared = check.force.declared
        model = [['define-fun', name, [], declared[name][1], told] for name, told in pairs if isinstance(name, str) and name in declared]
        claim = Claim(check.force, model)
        return ('not evaluated', '') if claim.missing() else (*claim.judged(), claim)


def follow(script, output):
    """What is found of the models in the output of a script; Unreadable, where one of both cannot be read."""
    sys.setrecursionlimit(max(10_000, sys.getrecursionlimit()))
    try:
        return Follower(script, output).follow()
    except RecursionError:
        raise Unreadable('lists too deep') from None


def text_of(file):
    """The text of a file, by its name or number."""
    with open(file, encoding='utf-8', errors='surrogateescape') as opened:
        return opened.read()


def main(words):
    """Follows the script of these words, prints a line for each finding, and gives the status."""
    try:
        need(1 <= len(words) <= 2, 'check_model.py SCRIPT [OUTPUT]')
        findings = follow(*map(text_of, [*words, 0][:2])).findings
    except (Unreadable, OSError) as error:
        sys.stderr.write(f'check_model.py: {error}\n')
        return 2
    sys.stdout.reconfigure(errors='surrogateescape')
    for finding in findings:
        print(finding.line())
    return 1 if any(finding.verdict == 'FALSE' for finding in findings) else 0


if __name__ == '__main__':
    sys.exit(main(sys.argv[1:]))
