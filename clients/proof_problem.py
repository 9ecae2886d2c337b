"""Reads the problem of a file and encodes it as one formula, for check_proof.py.

Written from docs/LANGUAGE.md (tokens, grammar, names, types, refusals) and docs/CALCULUS.md (From a problem to one formula).
"""
import re
from dataclasses import dataclass, field, replace
from typing import NamedTuple

MOST = 2 ** 127 - 1
MOST_LEVELS, MOST_NODES, MOST_OPEN, MOST_SYMBOLS = 2000, 1_000_000, 200, 1000


class Refusal(Exception):
    """An answer other than CHECKED: its status and its text."""

    def __init__(self, status, text):
        super().__init__(text)
        self.status, self.text = status, text


class Fault(Exception):
    """A step of the check that fails: `node`, `cost` or `range`."""


# The tokens of a problem's file (docs/LANGUAGE.md, Tokens).

WORDS = {'int', 'nat', 'true', 'false'}
COMMANDS = {'\\' + word for word in ('universalConstants existentialConstants functions predicates problem interpolant forall exists '
                                     'part if then else abs min max').split()}
SPACE = re.compile(r'(?:[ \t\n\r]|//[^\n]*|/\*[\s\S]*?\*/)*')
TOKEN = re.compile(r'(?P<name>[A-Za-z_][A-Za-z0-9_]*)|(?P<number>[0-9]+)|(?P<command>\\[A-Za-z]*)'
                   r'|(?P<sign><->|->|!=|<=|>=|(?!/\*)[{}()\[\];,!&|=<>+*-])|(?P<bad>[\s\S])')


class Token(NamedTuple):
    """A token: its kind (a spelling where that says all), its spelling and its place."""
    kind: str
    text: str
    place: int


def problem_tokens(text):
    """The tokens of a file, and one of kind `end` behind them."""
    tokens, place = [], SPACE.match(text).end()
    while place < len(text):
        match = TOKEN.match(text, place)
        kind, spelling = match.lastgroup, match.group()
        if kind == 'sign' or spelling in WORDS or spelling in COMMANDS:
            kind = spelling
        tokens.append(Token(kind, spelling, place))
        place = SPACE.match(text, match.end()).end()
    return tokens + [Token('end', '', len(text))]


# The grammar of problems (docs/LANGUAGE.md, Grammar). A reader takes one token after another and refuses the first that is wrong.

@dataclass(frozen=True)
class Bounds:
    """A type of integers: from `least` to `greatest`, where there are such."""
    least: int = None
    greatest: int = None


@dataclass
class Phrase:
    """A formula or a term as it is written. `place` is that of its first token, with parentheses around it, `mark` that of its own sign."""
    word: str
    place: int
    parts: tuple = ()
    value: object = None
    mark: int = None

    def __post_init__(self):
        if self.mark is None:
            self.mark = self.place


@dataclass
class Symbol:
    """A declared name: `existential`, `universal`, `function` or `predicate`; constants have a type and a number."""
    name: str
    place: int
    role: str
    arity: int = 0
    bounds: Bounds = Bounds()
    number: int = 0


@dataclass
class ProblemFile:
    """What a file says: its declarations in their order, its formula, and its blocks of interpolants with their places."""
    symbols: list = field(default_factory=list)
    formula: Phrase = None
    blocks: list = field(default_factory=list)


class ProblemReader:
    """Reads a problem's file by its grammar."""

    def __init__(self, text):
        self.tokens, self.at, self.levels = problem_tokens(text), 0, 0
        self.file = ProblemFile()

    def kind(self):
        return self.tokens[self.at].kind

    def refuse(self, name, token=None):
        raise Refusal(3, f'refused: {name} at {(token or self.tokens[self.at]).place}')

    def take(self, *kinds):
        """The token at hand, which has to be of one of these kinds."""
        token = self.tokens[self.at]
        if token.kind not in kinds:
            self.refuse('Syntax')
        self.at += 1
        return token

    def takes(self, *kinds):
        """The token at hand where it is of one of these kinds, else None."""
        return self.take(*kinds) if self.kind() in kinds else None

    def open(self, token):
        """One more level, which this token opens."""
        self.levels += 1
        if self.levels > MOST_OPEN:
            self.refuse('Deep', token)

    def close(self, count=1):
        self.levels -= count

    def read(self):
        while self.kind() != 'end' or self.file.formula is None:
            self.block()
        return self.file

    def block(self):
        kinds = ['\\universalConstants', '\\existentialConstants', '\\functions', '\\predicates', '\\interpolant']
        word = self.take(*(kinds if self.file.formula else kinds + ['\\problem']))
        self.take('{')
        if word.kind == '\\problem':
            self.file.formula = self.iff()
            self.take('}')
        elif word.kind == '\\interpolant':
            self.interpolant(word)
        else:
            while not self.takes('}'):
                self.declaration(word.kind)

    def interpolant(self, word):
        sets = [self.identifiers()]
        self.take(';')
        while True:
            sets.append(self.identifiers())
            if self.take(';', '}').kind == '}':
                break
        self.file.blocks.append((word.place, sets))

    def identifiers(self):
        names = [self.take('name')]
        while self.takes(','):
            names.append(self.take('name'))
        return names

    def declaration(self, word):
        """One line of a block, up to its semicolon."""
        if word in ('\\functions', '\\predicates'):
            if word == '\\functions':
                self.take('int')
            self.item(word)
            while self.takes(','):
                self.item(word)
        else:
            bounds = self.bounds()
            role = 'universal' if word == '\\universalConstants' else 'existential'
            for name in self.identifiers():
                self.file.symbols.append(Symbol(name.text, name.place, role, 0, bounds))
        self.take(';')

    def item(self, word):
        name, arity = self.take('name'), 0
        if self.takes('(') and not self.takes(')'):
            while True:
                self.take('int')
                self.takes('name')
                arity += 1
                if self.take(',', ')').kind == ')':
                    break
        role = 'predicate' if word == '\\predicates' else 'function' if arity else 'universal'
        self.file.symbols.append(Symbol(name.text, name.place, role, arity))

    def bounds(self):
        if self.take('int', 'nat').kind == 'nat':
            return Bounds(0)
        if not self.takes('['):
            return Bounds()
        least = self.bound()
        self.take(',')
        greatest = self.bound()
        self.take(']')
        return Bounds(least, greatest)

    def bound(self):
        return -self.number() if self.takes('-') else self.number()

    def number(self):
        token = self.take('number')
        digits = token.text.lstrip('0') or '0'
        if len(digits) > 39 or int(digits) > MOST:
            self.refuse('Literal', token)
        return int(digits)

    def right_side(self, sign, rule):
        """What stands behind a sign that opens a level."""
        self.open(sign)
        right = rule()
        self.close()
        return right

    def iff(self):
        left = self.imp()
        sign = self.takes('<->')
        return Phrase('<->', left.place, (left, self.right_side(sign, self.iff))) if sign else left

    def imp(self):
        left = self.chain('|', lambda: self.chain('&', self.unary))
        sign = self.takes('->')
        return Phrase('->', left.place, (left, self.right_side(sign, self.imp))) if sign else left

    def chain(self, sign, rule):
        parts = [rule()]
        while self.takes(sign):
            parts.append(rule())
        return Phrase(sign, parts[0].place, tuple(parts)) if len(parts) > 1 else parts[0]

    def unary(self):
        token = self.takes('!', '\\forall', '\\exists', '\\part')
        if token is None:
            return self.relation()
        if token.kind == '!':
            return Phrase('!', token.place, (self.right_side(token, self.unary),))
        if token.kind == '\\part':
            self.open(token)
            self.take('[')
            name = self.take('name').text
            self.take(']')
            body = self.unary()
            self.close()
            return Phrase('\\part', token.place, (body,), name)
        names = self.binder()
        body = self.unary()
        self.close(len(names))
        return Phrase(token.kind, token.place, (body,), names)

    def binder(self):
        """The bound names with their types, outermost first; each opens a level."""
        if not self.takes('('):
            names = self.bound_names()
            self.take(';')
            return names
        names = self.bound_names()
        while self.take(';', ')').kind == ';':
            names += self.bound_names()
        return names

    def bound_names(self):
        bounds, names = self.bounds(), []
        while True:
            name = self.take('name')
            self.open(name)
            names.append((name.text, bounds))
            if not self.takes(','):
                return names

    def relation(self):
        left = self.sum()
        sign = self.takes('=', '!=', '<', '<=', '>', '>=')
        return Phrase(sign.kind, left.place, (left, self.sum())) if sign else left

    def sum(self):
        parts, signs = [self.product()], [1]
        while sign := self.takes('+', '-'):
            signs.append(1 if sign.kind == '+' else -1)
            parts.append(self.product())
        return Phrase('+', parts[0].place, tuple(parts), signs) if len(parts) > 1 else parts[0]

    def product(self):
        left = self.minus()
        sign = self.takes('*')
        return Phrase('*', left.place, (left, self.right_side(sign, self.product)), None, sign.place) if sign else left

    def minus(self):
        sign = self.takes('-')
        return Phrase('-', sign.place, (self.right_side(sign, self.minus),)) if sign else self.primary()

    def primary(self):
        token = self.tokens[self.at]
        if token.kind == 'number':
            return Phrase('number', token.place, (), self.number())
        self.take('true', 'false', 'name', '(', '\\if', '\\abs', '\\min', '\\max')
        if token.kind in ('true', 'false'):
            return Phrase(token.kind, token.place)
        if token.kind == 'name':
            opening = self.takes('(')
            arguments = self.arguments(opening) if opening else ()
            return Phrase('name', token.place, arguments, token.text, token.place)
        if token.kind == '(':
            return replace(self.inside(token), place=token.place)
        if token.kind == '\\if':
            parts = (self.inside(), self.take('\\then') and self.inside(), self.take('\\else') and self.inside())
        elif token.kind == '\\abs':
            parts = (self.inside(),)
        else:
            self.open(self.take('('))
            parts = (self.iff(), self.take(',') and self.iff())
            self.take(')')
            self.close()
        return Phrase(token.kind, token.place, parts)

    def inside(self, opening=None):
        """A phrase between parentheses, the first of which may have been taken."""
        self.open(opening or self.take('('))
        phrase = self.iff()
        self.take(')')
        self.close()
        return phrase

    def arguments(self, opening):
        self.open(opening)
        parts = []
        if not self.takes(')'):
            parts.append(self.iff())
            while self.take(',', ')').kind == ',':
                parts.append(self.iff())
        self.close()
        return tuple(parts)


# Names, kinds and parts (docs/LANGUAGE.md, Names, Formulas and terms, Refusals): of the faults of a file the first one counts.

RELATIONS = ('=', '!=', '<', '<=', '>', '>=')
TERMS = ('number', '+', '-', '*', '\\if', '\\abs', '\\min', '\\max')
NAMES = {4: 'Undeclared', 5: 'Redeclared', 6: 'Arity', 7: 'Kind', 8: 'NonLinear', 9: 'Parts', 10: 'Many'}


@dataclass
class Problem:
    """A file without faults."""
    symbols: dict
    existentials: list
    universals: list
    formula: Phrase


def is_number(phrase):
    """Whether a term is built of numbers alone."""
    return phrase.word == 'number' or phrase.word in ('+', '-', '*') and all(map(is_number, phrase.parts))


class Typing:
    """Collects the faults of a file, each with its place and its number."""

    def __init__(self, file):
        self.file, self.faults, self.symbols = file, [], {}

    def problem(self):
        for count, symbol in enumerate(self.file.symbols):
            if symbol.name in self.symbols:
                self.faults.append((symbol.place, 5))
            if count == MOST_SYMBOLS:
                self.faults.append((symbol.place, 10))
            self.symbols.setdefault(symbol.name, symbol)
        self.wants('formula', self.file.formula, ())
        if self.file.blocks:
            self.check_parts()
        if self.faults:
            place, number = min(self.faults)
            raise Refusal(3, f'refused: {NAMES[number]} at {place}')
        return self.numbered()

    def numbered(self):
        existentials = [symbol for symbol in self.file.symbols if symbol.role == 'existential']
        universals = [symbol for symbol in self.file.symbols if symbol.role == 'universal']
        for number, symbol in enumerate(existentials + universals):
            symbol.number = number
        return Problem(self.symbols, existentials, universals, self.file.formula)

    def wants(self, kind, phrase, bound):
        found = self.kind(phrase, bound)
        if found is not None and found != kind:
            self.faults.append((phrase.place, 7))

    def kind(self, phrase, bound):
        """Whether a phrase is a formula or a term; None where that is not known."""
        word = phrase.word
        if word == 'name':
            return self.kind_of_use(phrase, bound)
        if word in ('\\forall', '\\exists'):
            bound = bound + tuple(name for name, _ in phrase.value)
        if word == '*' and not any(map(is_number, phrase.parts)):
            self.faults.append((phrase.mark, 8))
        for place, part in enumerate(phrase.parts):
            takes_terms = word in RELATIONS or word in TERMS and not (word == '\\if' and place == 0)
            self.wants('term' if takes_terms else 'formula', part, bound)
        return 'term' if word in TERMS else 'formula'

    def kind_of_use(self, phrase, bound):
        for part in phrase.parts:
            self.wants('term', part, bound)
        if phrase.value in bound:
            if phrase.parts:
                self.faults.append((phrase.mark, 6))
            return 'term'
        symbol = self.symbols.get(phrase.value)
        if symbol is None:
            self.faults.append((phrase.mark, 4))
            return None
        if len(phrase.parts) != symbol.arity:
            self.faults.append((phrase.mark, 6))
        return 'formula' if symbol.role == 'predicate' else 'term'

    def components(self, phrase, is_plus):
        """The components of a formula."""
        word, parts = phrase.word, phrase.parts
        if word == '!':
            return self.components(parts[0], not is_plus)
        if word == '->' and is_plus:
            return self.components(parts[0], False) + self.components(parts[1], True)
        if (word, is_plus) in (('|', True), ('&', False)):
            return [component for part in parts for component in self.components(part, is_plus)]
        return [phrase]

    def all_parts(self, phrase):
        found = [phrase] if phrase.word == '\\part' else []
        return found + [part for below in phrase.parts for part in self.all_parts(below)]

    def check_parts(self):
        components, parts = self.components(self.file.formula, True), self.all_parts(self.file.formula)
        known, names = {part.mark for part in components}, {part.value for part in parts}
        places = [part.mark for part in parts if part.mark not in known]
        places += [part.mark for part in components if part.word not in ('\\part', 'true', 'false')]
        for place, sets in self.file.blocks:
            given = set()
            for token in (token for names_of_set in sets for token in names_of_set):
                if token.text not in names or token.text in given:
                    places.append(token.place)
                given.add(token.text)
            if names - given or any(symbol.role == 'existential' for symbol in self.file.symbols):
                places.append(place)
        self.faults += [(place, 9) for place in places]


# Linear terms, and formulas of the calculus in negation normal form. A name is a number; a quantifier binds the name that is next.

class Term(NamedTuple):
    """A sum: monomials (name, coefficient), names rising and no coefficient 0, and a constant."""
    monomials: tuple
    constant: int


def in_range(*numbers):
    """A fault where one of these numbers is no coefficient."""
    if any(number > MOST or number < -MOST for number in numbers):
        raise Fault('range')


def combine(m, s, n, t, check=in_range):
    """The term m*s + n*t; both products and their sum have to be in the range."""
    left, right = dict(s.monomials), dict(t.monomials)
    monomials = []
    for name in sorted(left.keys() | right.keys()):
        a, b = m * left.get(name, 0), n * right.get(name, 0)
        check(a, b, a + b)
        if a + b:
            monomials.append((name, a + b))
    a, b = m * s.constant, n * t.constant
    check(a, b, a + b)
    return Term(tuple(monomials), a + b)


def number_term(number):
    return Term((), number)


def name_term(name):
    return Term(((name, 1),), 0)


@dataclass(frozen=True)
class Formula:
    """A formula. The kind is one of `true`, `false`, `=`, `!=`, `>=` (of a term and 0), `holds`, `fails` (a predicate of terms), `differs`
    (a function of terms has another value than the term), `and`, `or`, `all`, `some`."""
    kind: str
    term: Term = None
    symbol: str = None
    arguments: tuple = ()
    members: tuple = ()
    size: int = 1
    is_pure: bool = True


def joined(kind, members):
    """A formula of one of the kinds that have members."""
    size, is_pure = 1 + sum(member.size for member in members), all(member.is_pure for member in members)
    return Formula(kind, None, None, (), tuple(members), size, is_pure)


def raised_term(term, least, by):
    """The term with names from `least` on raised."""
    return Term(tuple((name + by if name >= least else name, factor) for name, factor in term.monomials), term.constant)


def raised(formula, least, by):
    """The formula with all names from `least` on raised."""
    if by == 0:
        return formula
    term = formula.term and raised_term(formula.term, least, by)
    arguments = tuple(raised_term(argument, least, by) for argument in formula.arguments)
    members = tuple(raised(member, least, by) for member in formula.members)
    return replace(formula, term=term, arguments=arguments, members=members)


# From a problem to one formula (docs/CALCULUS.md). An atom becomes a chain of steps over a stack of finished terms.

class Step(NamedTuple):
    """A step with what it needs, and the steps behind it."""
    action: str
    value: object
    then: tuple


class Encoder:
    """Encodes a problem. Numbers out of the range are noticed and told at the end, since a large encoding is refused first."""

    def __init__(self, problem):
        self.problem, self.nodes, self.overflows = problem, 0, False

    def check(self, *numbers):
        self.overflows |= any(number > MOST or number < -MOST for number in numbers)

    def combine(self, m, s, n, t):
        return combine(m, s, n, t, self.check)

    def count(self, level):
        """One more node, on this level."""
        self.nodes += 1
        if self.nodes > MOST_NODES or level > MOST_LEVELS:
            raise Refusal(3, 'refused: Large')

    def atom(self, kind, level, term=None, symbol=None, arguments=()):
        self.count(level)
        return Formula(kind, term, symbol, tuple(arguments), (), 1, symbol is None)

    def encoded(self):
        """The formula of the problem, over its existential constants."""
        constants = self.problem.existentials + self.problem.universals
        names = {symbol.name: symbol.number for symbol in constants}
        conditions = [(symbol.number, symbol.bounds) for symbol in self.problem.existentials if symbol.bounds != Bounds()]
        if conditions:
            self.count(1)
        members = [one for name, bounds in conditions for one in self.conditions(name, bounds, True, 2)]
        count = len(self.problem.existentials)
        types = [symbol.bounds for symbol in self.problem.universals]
        level = 2 if members else 1
        rest = self.bound('all', count, types, level, lambda below: self.formula(self.problem.formula, True, names, len(constants), below))
        if self.overflows:
            raise Refusal(2, 'UNKNOWN: overflow')
        return joined('and', members + [rest]) if members else rest

    def conditions(self, name, bounds, is_plus, level):
        """The conditions that a type says of a name, or their negations."""
        found = []
        if bounds.least is not None:
            found.append((1, -bounds.least) if is_plus else (-1, bounds.least - 1))
        if bounds.greatest is not None:
            found.append((-1, bounds.greatest) if is_plus else (1, -bounds.greatest - 1))
        for _, number in found:
            self.check(number)
        return [self.atom('>=', level, Term(((name, factor),), number)) for factor, number in found]

    def bound(self, kind, count, types, level, body):
        """The body, given the level where it stands, below a quantifier for each of these types; `count` names are there before."""
        if not types:
            return body(level)
        self.count(level)
        if types[0] == Bounds():
            return joined(kind, [self.bound(kind, count + 1, types[1:], level + 1, body)])
        self.count(level + 1)
        members = self.conditions(count, types[0], kind == 'some', level + 2)
        members.append(self.bound(kind, count + 1, types[1:], level + 2, body))
        return joined(kind, [joined('or' if kind == 'all' else 'and', members)])

    def group(self, is_or, level, members):
        """A disjunction or a conjunction of (phrase, sign, names, count)."""
        self.count(level)
        return joined('or' if is_or else 'and', [self.formula(*member, level + 1) for member in members])

    def formula(self, phrase, sign, names, count, level):
        """The encoding of a formula with plus (True) or minus, where `count` names are bound."""
        word, parts = phrase.word, phrase.parts
        if word in ('true', 'false'):
            return self.atom('true' if (word == 'true') == sign else 'false', level)
        if word == '!':
            return self.formula(parts[0], not sign, names, count, level)
        if word == '\\part':
            return self.formula(parts[0], sign, names, count, level)
        if word in ('&', '|'):
            return self.group((word == '|') == sign, level, [(part, sign, names, count) for part in parts])
        if word == '->':
            return self.group(sign, level, [(parts[0], not sign, names, count), (parts[1], sign, names, count)])
        if word == '<->':
            return self.equivalence(parts, sign, names, count, level)
        if word in ('\\forall', '\\exists'):
            names = dict(names, **{name: count + place for place, (name, _) in enumerate(phrase.value)})
            kind = 'all' if (word == '\\forall') == sign else 'some'
            types = [bounds for _, bounds in phrase.value]
            return self.bound(kind, count, types, level, lambda below: self.formula(parts[0], sign, names, count + len(types), below))
        return self.run(self.atom_steps(phrase, sign, names), [], names, count, level)

    def equivalence(self, parts, sign, names, count, level):
        self.count(level)
        first, second = ((False, True), (True, False)) if sign else ((True, True), (False, False))
        return joined('and', [self.group(True, level + 1, [(parts[0], left, names, count), (parts[1], right, names, count)])
                              for left, right in (first, second)])

    def atom_steps(self, phrase, sign, names):
        if phrase.word == 'name':
            steps = Step('holds' if sign else 'fails', (phrase.value, len(phrase.parts)), None)
            return self.all_steps(phrase.parts, names, steps)
        return self.all_steps(phrase.parts, names, Step('relate', (phrase.word, sign), None))

    def all_steps(self, phrases, names, then):
        for phrase in reversed(phrases):
            then = self.steps(phrase, names, then)
        return then

    def steps(self, phrase, names, then):
        """The steps that put the value of a term on the stack, before others."""
        word, parts = phrase.word, phrase.parts
        if word == 'number':
            return Step('put', number_term(phrase.value), then)
        if word == 'name' and phrase.value in names and not parts:
            return Step('put', name_term(names[phrase.value]), then)
        if word == 'name':
            return self.all_steps(parts, names, Step('call', (phrase.value, len(parts)), then))
        if word == '+':
            for place in range(len(parts) - 1, 0, -1):
                then = self.steps(parts[place], names, Step('add', phrase.value[place], then))
            return self.steps(parts[0], names, then)
        if word == '\\if':
            return self.all_steps(parts[1:], names, Step(word, parts[0], then))
        return self.all_steps(parts, names, Step(word, None, then))

    def run(self, steps, stack, names, count, level):
        """What the steps make over a stack of finished terms."""
        while True:
            action, value, then = steps
            if action in ('holds', 'fails'):
                return self.atom(action, level, None, *self.application(stack, value))
            if action == 'relate':
                return self.relation(*value, *stack, level)
            if action == 'call':
                return self.call(value, then, stack, names, count, level)
            if action in ('\\if', '\\abs', '\\min', '\\max'):
                return self.cases(steps, stack, names, count, level)
            stack.append(value if action == 'put' else self.arithmetic(action, value, stack))
            steps = then

    def arithmetic(self, action, value, stack):
        right = stack.pop()
        if action == '-':
            return self.combine(-1, right, 0, right)
        left = stack.pop()
        if action == 'add':
            return self.combine(1, left, value, right)
        number, term = (left, right) if not left.monomials else (right, left)
        return self.combine(number.constant, term, 0, term)

    @staticmethod
    def application(stack, value):
        """The symbol and the arguments that it takes off the stack."""
        symbol, arity = value
        arguments = stack[len(stack) - arity:]
        del stack[len(stack) - arity:]
        return symbol, arguments

    def relation(self, word, sign, left, right, level):
        if word in ('=', '!='):
            return self.atom('=' if (word == '=') == sign else '!=', level, self.combine(1, left, -1, right))
        if word in ('<', '>'):
            word, sign = '>=' if word == '<' else '<=', not sign
        first, second = (left, right) if (word == '>=') == sign else (right, left)
        return self.atom('>=', level, self.at_least(first, second, sign))

    def at_least(self, first, second, sign):
        """The term that is not negative where the first one is at least (sign plus) or is greater than the second."""
        term = self.combine(1, first, -1, second)
        return term if sign else self.combine(1, term, 1, number_term(-1))

    def call(self, value, then, stack, names, count, level):
        self.count(level)
        self.count(level + 1)
        graph = self.atom('differs', level + 2, name_term(count), *self.application(stack, value))
        rest = self.run(then, stack + [name_term(count)], names, count + 1, level + 2)
        return joined('all', [joined('or', [graph, rest])])

    def cases(self, steps, stack, names, count, level):
        """Both cases of a condition."""
        self.count(level)
        members = []
        for sign in (True, False):
            self.count(level + 1)
            rest = list(stack)
            case = self.case(steps, rest, sign, names, count, level + 2)
            members.append(joined('and', [case, self.run(steps.then, rest, names, count, level + 2)]))
        return joined('or', members)

    def case(self, steps, stack, sign, names, count, level):
        """The condition of one case; on the stack the term of that case takes the place of the finished ones."""
        right = stack.pop()
        left = stack.pop() if steps.action != '\\abs' else right
        if steps.action == '\\abs':
            stack.append(left if sign else self.combine(-1, left, 0, left))
            first, second = (left, number_term(0)) if sign else (number_term(0), left)
        else:
            stack.append(left if sign else right)
            first, second = (left, right) if (steps.action == '\\max') == sign else (right, left)
        if steps.action == '\\if':
            return self.formula(steps.value, sign, names, count, level)
        return self.atom('>=', level, self.at_least(first, second, sign))


def read_problem(text):
    """The problem of a file, and its formula over the existential constants."""
    problem = Typing(ProblemReader(text).read()).problem()
    return problem, Encoder(problem).encoded()
