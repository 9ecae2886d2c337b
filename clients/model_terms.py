"""Reads scripts of SMT-LIB as lists, and evaluates their terms over Int and Bool, for check_model.py.

An integer variable of a quantifier runs over a finite set of integers. So a truth has four values: TRUE and FALSE are certain, and
SEEMS_TRUE and SEEMS_FALSE are what comes of that set alone. In their order `and` is the least of its parts, and `or` the greatest.
"""
import re
from collections import namedtuple
from itertools import combinations, product

FALSE, SEEMS_FALSE, SEEMS_TRUE, TRUE = range(4)
MOST_TRIED, MOST_STEPS = 10_000, 300_000  # tuples of values for one nest of quantifiers; steps for one assertion


class Unreadable(Exception):
    """The script or the output is not what is read here."""


class Wrong(Exception):
    """A model or a value is not as it should be."""


class Tired(Exception):
    """The evaluation of an assertion took too many steps."""


# Reading and writing lists. A number is an int, a list a list, and all else a string: a symbol between bars keeps them where they matter.

SIGNS = r'0-9A-Za-z~!@$%^&*_\-+=<>.?/'
TOKEN = re.compile(rf'[ \t\r\n]+|;[^\n]*|(?P<token>[()]|"(?:[^"]|"")*"|\|[^|\\]*\||#[xb][0-9A-Fa-f]+'
                   rf'|(?:0|[1-9][0-9]*)(?:\.[0-9]+)?(?![{SIGNS}])|:?(?![0-9])[{SIGNS}]+)')
SIMPLE = re.compile(rf'(?![0-9])[{SIGNS}]+')
RESERVED = set('''! _ as BINARY DECIMAL exists HEXADECIMAL forall let match NUMERAL par STRING assert check-sat check-sat-assuming
    declare-const declare-datatype declare-datatypes declare-fun declare-sort define-const define-fun define-fun-rec define-funs-rec
    define-sort echo exit get-assertions get-assignment get-info get-model get-option get-proof get-unsat-assumptions get-unsat-core
    get-value pop push reset reset-assertions set-info set-logic set-option'''.split())


def atom(token):
    """What a token stands for."""
    if token.isdigit():
        need(len(token) <= 4000, 'a numeral of more than 4000 digits')
        return int(token)
    inner = token[1:-1]
    return inner if token[0] == '|' and SIMPLE.fullmatch(inner) and inner not in RESERVED else token


def read(text):
    """The lists of a text."""
    stack, place = [[]], 0
    while place < len(text):
        found = TOKEN.match(text, place)
        if not found:
            raise Unreadable(f'no token begins at {place}')
        place, token = found.end(), found['token']
        if token == '(':
            stack.append([])
        elif token == ')' and len(stack) > 1:
            inner = stack.pop()
            stack[-1].append(inner)
        elif token == ')':
            raise Unreadable(f'a ) too many at {place - 1}')
        elif token:
            stack[-1].append(atom(token))
    if len(stack) > 1:
        raise Unreadable('the text ends inside a list')
    return stack[0]


def written(t):
    """The text of a list."""
    return f"({' '.join(written(part) for part in t)})" if isinstance(t, list) else str(t)


def need(holds, said):
    """Refuses a text for which this does not hold."""
    if not holds:
        raise Unreadable(said if isinstance(said, str) else f'not understood: {written(said)[:200]}')


# Sorts: Int and Bool, and names for them.

def sort_of(t, sorts, given=None):
    """Int or Bool, as a sort comes to it by its definitions."""
    name, *arguments = t if isinstance(t, list) and t else [t]
    if given and name in given:
        return given[name]
    if not arguments and name in ('Int', 'Bool'):
        return name
    need(isinstance(name, str) and name in sorts and len(sorts[name][0]) == len(arguments), t)
    names, body = sorts[name]
    return sort_of(body, sorts, dict(zip(names, [sort_of(one, sorts, given) for one in arguments])))


def tuple_of(binders, sorts):
    """Names with their sorts."""
    need(isinstance(binders, list) and all(isinstance(one, list) and len(one) == 2 and isinstance(one[0], str) for one in binders), binders)
    return tuple((name, sort_of(sort, sorts)) for name, sort in binders)


# The evaluation of terms. A term becomes a function of a frame: the values of the bound variables around it, outermost first.

Code = namedtuple('Code', 'sort run')
Function = namedtuple('Function', 'parameters sort body')  # its parameters are pairs of a name and a sort

ORDERS = {'<': int.__lt__, '<=': int.__le__, '>': int.__gt__, '>=': int.__ge__}


def weak(truth):
    """The same truth, but not certain."""
    return SEEMS_TRUE if truth >= SEEMS_TRUE else SEEMS_FALSE


def same(one, other):
    """Whether two truths are the same."""
    truth = TRUE if (one >= SEEMS_TRUE) == (other >= SEEMS_TRUE) else FALSE
    return truth if {one, other} <= {FALSE, TRUE} else weak(truth)


def least(truths):
    """The least of some truths."""
    found = TRUE
    for truth in truths:
        found = min(found, truth)
        if found == FALSE:
            break
    return found


def remainder(number, divisor):
    """The remainder of a division, which is never negative."""
    need(divisor != 0, 'a division by 0')
    return number % abs(divisor)


def quotient(number, divisor):
    """The quotient that belongs to that remainder."""
    return (number - remainder(number, divisor)) // divisor


class Evaluator:
    """Evaluates terms over functions that have definitions."""

    def __init__(self, functions, declared, sorts):
        self.functions, self.declared, self.sorts = functions, declared, sorts
        self.bodies, self.nests = {}, {}
        self.numbers, self.unsure, self.steps = [], False, 0

    def value_of(self, t, numbers):
        """The sort and the value of a closed term; an integer is not certain where `unsure` says so."""
        self.numbers = numbers[:max(3, int(MOST_TRIED ** (1 / max(1, self.nest(t)))))]
        self.unsure, self.steps = False, 0
        code = self.code(t, ())
        try:
            return code.sort, code.run(())
        except Tired:
            self.unsure = True
            return code.sort, SEEMS_TRUE

    def truth_of(self, t, numbers):
        """The truth of a closed formula."""
        sort, truth = self.value_of(t, numbers)
        need(sort == 'Bool', t)
        return truth

    def nest(self, t):
        """How many quantified variables stand within one another."""
        if isinstance(t, str) and t in self.functions:
            if t not in self.nests:
                self.nests[t] = 0
                self.nests[t] = self.nest(self.functions[t].body)
            return self.nests[t]
        if not isinstance(t, list) or not t:
            return 0
        quantified = t[0] in ('forall', 'exists') and len(t) == 3 and isinstance(t[1], list)
        own = len(t[1]) if quantified else 0
        return own + max(map(self.nest, t))

    def step(self):
        """Counts a step."""
        self.steps += 1
        if self.steps > MOST_STEPS:
            raise Tired

    def formula(self, t, bound):
        """The function of a term of sort Bool."""
        code = self.code(t, bound)
        need(code.sort == 'Bool', t)
        return code.run

    def integer(self, t, bound):
        """The function of a term of sort Int."""
        code = self.code(t, bound)
        need(code.sort == 'Int', t)
        return code.run

    def sealed(self, run):
        """A truth that is not certain where an integer within it is not."""
        def sealed(frame):
            before, self.unsure = self.unsure, False
            truth = run(frame)
            truth, self.unsure = weak(truth) if self.unsure else truth, before
            return truth
        return Code('Bool', sealed)

    def code(self, t, bound):
        """The sort and the function of a term."""
        if isinstance(t, int):
            return Code('Int', lambda frame: t)
        if isinstance(t, str):
            return self.symbol(t, bound)
        need(len(t) > 1, t)
        head = t[0]
        if isinstance(head, list):
            return self.divisible(t, bound)
        need(head not in [name for name, _ in bound], t)
        if head in self.functions or head in self.declared:
            return self.call(head, t[1:], bound)
        need(head in OPERATORS, t)
        return OPERATORS[head](self, t, bound)

    def symbol(self, name, bound):
        """A symbol that stands alone."""
        for place in reversed(range(len(bound))):
            if bound[place][0] == name:
                return Code(bound[place][1], lambda frame: frame[place])
        if name in ('true', 'false'):
            return Code('Bool', lambda frame: TRUE if name == 'true' else FALSE)
        return self.call(name, [], bound)

    def call(self, name, arguments, bound):
        """A function that is applied."""
        if name in self.declared and name not in self.functions:
            raise Wrong(f'no value of {name}')
        need(name in self.functions, f'{name} is declared nowhere')
        function = self.functions[name]
        codes = [self.code(argument, bound) for argument in arguments]
        need([code.sort for code in codes] == [sort for _, sort in function.parameters], [name, *arguments])
        runs, body = [code.run for code in codes], self.body(name)

        def run(frame):
            self.step()
            return body(tuple([run(frame) for run in runs]))
        return self.sealed(run) if function.sort == 'Bool' else Code('Int', run)

    def body(self, name):
        """The function of the body of a definition."""
        if name not in self.bodies:
            self.bodies[name] = None
            function = self.functions[name]
            read = self.formula if function.sort == 'Bool' else self.integer
            self.bodies[name] = read(function.body, function.parameters)
        need(self.bodies[name], f'{name} is defined by itself')
        return self.bodies[name]

    def divisible(self, t, bound):
        """`((_ divisible n) t)`."""
        head = t[0]
        need(len(t) == 2 and len(head) == 3 and head[:2] == ['_', 'divisible'] and isinstance(head[2], int) and head[2] > 0, t)
        part = self.integer(t[1], bound)
        return self.sealed(lambda frame: FALSE if part(frame) % head[2] else TRUE)

    def parts(self, t, bound, fewest=1, most=None):
        """The functions of the parts of an operator of integers."""
        need(fewest < len(t) <= 1 + (most or len(t)), t)
        return [self.integer(part, bound) for part in t[1:]]

    def arithmetic(self, t, bound):
        """`+`, `*`, `div`: two parts or more, from the left; `-` and `mod` too, and `-` with one part."""
        step = {'+': int.__add__, '-': int.__sub__, '*': int.__mul__, 'div': quotient, 'mod': remainder}[t[0]]
        parts = self.parts(t, bound, 2 if t[0] in ('div', 'mod') else 1, 2 if t[0] == 'mod' else None)
        if t[0] == '-' and len(parts) == 1:
            return Code('Int', lambda frame: -parts[0](frame))

        def run(frame):
            value = parts[0](frame)
            for part in parts[1:]:
                value = step(value, part(frame))
            return value
        return Code('Int', run)

    def absolute(self, t, bound):
        """`abs`."""
        part, = self.parts(t, bound, 1, 1)
        return Code('Int', lambda frame: abs(part(frame)))

    def order(self, t, bound):
        """A chain of `<` or the like."""
        parts, holds = self.parts(t, bound, 2), ORDERS[t[0]]

        def run(frame):
            values = [part(frame) for part in parts]
            return TRUE if all(map(holds, values, values[1:])) else FALSE
        return self.sealed(run)

    def equality(self, t, bound):
        """A chain of `=`, or `distinct`, of Int or of Bool."""
        codes = [self.code(part, bound) for part in t[1:]]
        need(len(codes) > 1 and len({code.sort for code in codes}) == 1, t)
        alike = same if codes[0].sort == 'Bool' else lambda one, other: TRUE if one == other else FALSE

        def run(frame):
            values = [code.run(frame) for code in codes]
            if t[0] == '=':
                return least(map(alike, values, values[1:]))
            return least(TRUE - alike(*pair) for pair in combinations(values, 2))
        return self.sealed(run)

    def connective(self, t, bound):
        """`and`, `or`, `not`, `=>` and `xor`."""
        runs = [self.formula(part, bound) for part in t[1:]]
        need(len(runs) == 1 if t[0] == 'not' else len(runs) > (t[0] in ('=>', 'xor')), t)
        if t[0] == 'and':
            return Code('Bool', lambda frame: least(run(frame) for run in runs))
        if t[0] == 'or':
            return Code('Bool', lambda frame: TRUE - least(TRUE - run(frame) for run in runs))
        if t[0] == 'not':
            return Code('Bool', lambda frame: TRUE - runs[0](frame))
        if t[0] == '=>':
            before, last = runs[:-1], runs[-1]
            return Code('Bool', lambda frame: TRUE - min(least(run(frame) for run in before), TRUE - last(frame)))

        def differ(frame):
            truth = runs[0](frame)
            for run in runs[1:]:
                truth = TRUE - same(truth, run(frame))
            return truth
        return Code('Bool', differ)

    def choice(self, t, bound):
        """`ite`; a chain of them is followed without going deeper."""
        cases, at = [], t
        while isinstance(at, list) and at[:1] == ['ite']:
            need(len(at) == 4, at)
            cases.append((self.formula(at[1], bound), self.code(at[2], bound)))
            at = at[3]
        last = self.code(at, bound)
        need(all(code.sort == last.sort for _, code in cases), t)

        def run(frame, start=0):
            for place in range(start, len(cases)):
                self.step()
                condition, code = cases[place]
                truth = condition(frame)
                if truth == TRUE:
                    return code.run(frame)
                if truth != FALSE:
                    return self.chosen(last.sort, truth, code.run(frame), run(frame, place + 1))
            return last.run(frame)
        return Code(last.sort, run)

    def chosen(self, sort, truth, one, other):
        """What a choice gives where its condition is not certain."""
        if one == other:
            return one
        value = one if truth == SEEMS_TRUE else other
        if sort == 'Bool':
            return weak(value)
        self.unsure = True
        return value

    def let(self, t, bound):
        """`let`: the terms that it binds do not see one another."""
        need(len(t) == 3 and isinstance(t[1], list) and all(isinstance(b, list) and len(b) == 2 for b in t[1]), t)
        codes = [self.code(term, bound) for _, term in t[1]]
        body = self.code(t[2], bound + tuple((name, code.sort) for (name, _), code in zip(t[1], codes)))

        def run(frame):
            return body.run(frame + tuple([code.run(frame) for code in codes]))
        return self.sealed(run) if body.sort == 'Bool' else Code('Int', run)

    def quantifier(self, t, bound):
        """`forall` and `exists`, over the finite set: a counterexample or a witness is certain, and nothing else."""
        need(len(t) == 3 and isinstance(t[1], list) and t[1], t)
        names = tuple_of(t[1], self.sorts)
        need(all(sort == 'Int' for _, sort in names), t)
        body = self.formula(t[2], bound + names)
        flip = (lambda truth: truth) if t[0] == 'forall' else (lambda truth: TRUE - truth)

        def tried(frame):
            for values in product(self.numbers, repeat=len(names)):
                self.step()
                yield flip(body(frame + values))

        def run(frame):
            found = least(tried(frame))
            return flip(found if found == FALSE else weak(found))
        return Code('Bool', run)

    def annotated(self, t, bound):
        """`!`: the attributes have no effect."""
        return self.code(t[1], bound)


OPERATORS = {'!': Evaluator.annotated, 'let': Evaluator.let, 'forall': Evaluator.quantifier, 'exists': Evaluator.quantifier,
             'ite': Evaluator.choice, 'abs': Evaluator.absolute, '=': Evaluator.equality, 'distinct': Evaluator.equality,
             **dict.fromkeys(ORDERS, Evaluator.order), **dict.fromkeys(('+', '-', '*', 'div', 'mod'), Evaluator.arithmetic),
             **dict.fromkeys(('and', 'or', 'not', '=>', 'xor'), Evaluator.connective)}
