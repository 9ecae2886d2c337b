"""Checks clause proofs, the third format of proofs, for check_proof.py.

Written from docs/PROOFS.md (Clause proofs: the third format), docs/CALCULUS.md (Clause proofs) and the definitions in clause_proof/specs,
clause_text/specs and clause_words/specs of crates/. The text is read and checked in one pass: what comes first in it is the answer.
"""
import re
from math import gcd
from typing import NamedTuple

from proof_elimination import Purse, divided
from proof_preparation import is_over, prepared_root
from proof_prices import Prices, literal as literal_price
from proof_problem import MOST, Fault, Formula, Refusal, Term, combine, name_term, number_term

MOST_CHARGES, WORD_LIMIT = 1_000_000_000, 2 ** 32


# Words (docs/PROOFS.md, The third format): a blank, a line feed, or the longest run of other bytes. A reader of a word answers None
# where it does not read it.

TOKEN = re.compile(r'[ \n]|[^ \n]+')
NUMERAL = re.compile(r'0|[1-9][0-9]*')
PART = re.compile(r'([+-]?)(?:(?:([1-9][0-9]*)\*)?c(0|[1-9][0-9]*)|(0|[1-9][0-9]*))')


class Literal(NamedTuple):
    """The variable with this number, or its negation."""
    variable: int
    positive: bool


class Factor(NamedTuple):
    """A literal, and what its fact is multiplied by."""
    literal: Literal
    by: int


def numeral(word, limit):
    """A number below the limit, which has 39 digits at most."""
    number = int(word) if NUMERAL.fullmatch(word) and len(word) <= 39 else limit
    return number if number < limit else None


def index(word):
    return numeral(word, WORD_LIMIT)


def charges(word):
    number = numeral(word, MOST_CHARGES + 1)
    return number or None


def integer(word):
    if not word.startswith('-'):
        return numeral(word, MOST + 1)
    number = numeral(word[1:], MOST + 1)
    return -number if number else None


def literal(word):
    variable = index(word[1:]) if word[0] in '+-' else None
    return None if variable is None else Literal(variable, word[0] == '+')


def factor(word):
    first, star, second = word.partition('*')
    one, by = first and literal(first), second and integer(second)
    return Factor(one, by) if star and isinstance(one, Literal) and isinstance(by, int) else None


def term(word):
    """A linear term: names rise, and the constant stands at the end."""
    monomials, place = [], 0
    while place < len(word):
        part = PART.match(word, place)
        if not part or (not part[1] if place else part[1] == '+'):
            return None
        sign, place = -1 if part[1] == '-' else 1, part.end()
        if part[4]:
            number = numeral(part[4], MOST + 1)
            is_whole = place == len(word) and number is not None and (number or not monomials and not part[1])
            return Term(tuple(monomials), sign * number) if is_whole else None
        number, name = numeral(part[2] or '1', MOST + 1), index(part[3])
        if number is None or number == 1 and part[2] or name is None or monomials and name <= monomials[-1][0]:
            return None
        monomials.append((name, sign * number))
    return Term(tuple(monomials), 0)


# Lines: what stands behind each word. A list in brackets has words to the end of the line; `by` ends the first list of `resolve`.

SHAPES = {
    'open': (index, [literal]),
    'apply': (index, [term]),
    'read': (index, literal, [index]),
    'instance': (index, literal, [term]),
    'geq': (term,),
    'eq': (term,),
    'pred': (index, [term]),
    'split': (index, literal, literal),
    'sum': ([factor],),
    'pair': (index, index, literal, [literal]),
    'pred-pair': (index, index, [literal]),
    'divide': (integer, term, literal, literal),
    'resolve': ([literal, 'by'], [index]),
    'delete': ([index],),
}
HEAD = (('princess-proof', (lambda word: 3 if word == '3' else None,)), ('charges', (charges,)), ('prepared', (index,)),
        ('values', ([integer],)), ('root', (literal,)))


class ClauseReader:
    """Reads the text of a clause proof from a place on, and refuses the first token with which no text goes on."""

    def __init__(self, text, place):
        self.text, self.place = text, place

    def refuse(self):
        raise Refusal(4, f'refused proof: Syntax at {self.place}')

    def token(self):
        """The token at hand; none at the end."""
        found = TOKEN.match(self.text, self.place)
        return found.group() if found else ''

    def is_ended(self):
        return self.place == len(self.text)

    def take(self, *tokens):
        """The token at hand, which has to be one of these."""
        found = self.token()
        if found not in tokens:
            self.refuse()
        self.place += len(found)
        return found

    def value(self, meaning):
        """What the word at hand says."""
        found = self.token()
        value = meaning(found) if found.strip(' \n') else None
        if value is None:
            self.refuse()
        self.place += len(found)
        return value

    def values(self, meaning, end=None):
        """What words say up to the end of the line, or up to the word that ends the list."""
        found = []
        while self.take(' ', '\n') == ' ' if end is None else self.take(' '):
            if end is not None and self.token() == end:
                self.place += len(end)
                break
            found.append(self.value(meaning))
        return found

    def behind(self, shape):
        """The values behind the word of a line, to the end of the line."""
        found = []
        for part in shape:
            if isinstance(part, list):
                found.append(self.values(*part))
            else:
                self.take(' ')
                found.append(self.value(part))
        if not isinstance(shape[-1], list):
            self.take('\n')
        return found

    def head(self):
        """The values of the first five lines."""
        found = []
        for word, shape in HEAD:
            self.take(word)
            found += self.behind(shape)
        return found[1:]

    def line(self):
        """The word of a line and its values."""
        word = self.take(*SHAPES)
        return word, self.behind(SHAPES[word])


# What literals stand for: a definition, or its negation.

class Definition(NamedTuple):
    """`always`; `>=` or `=` of a term and 0; `holds` (a predicate of terms); `closure` (a formula with a term for each of its names)."""
    kind: str
    term: Term = None
    symbol: int = None
    arguments: tuple = ()
    formula: Formula = None


ALWAYS = Definition('always')
MINUS_ONE = number_term(-1)


def is_same(one, other):
    """Whether definitions are one, as far as they are compared: formulas are not."""
    return one.kind != 'closure' and one == other


def require(condition):
    """The line makes nothing where something is not as it has to be."""
    if not condition:
        raise Fault('line')


def opposite(one):
    return Literal(one.variable, not one.positive)


class ClauseProof:
    """What a clause proof has made so far: definitions of variables, clauses (None where deleted), applications, and how many constants.

    The methods that are named like lines do them, after their price is paid."""

    def __init__(self, numbers, most):
        self.numbers, self.purse = numbers, Purse(most)
        self.definitions, self.clauses, self.applications, self.count = [ALWAYS], [(Literal(0, True),)], [], 0
        self.prices = Prices(self.definitions, self.clauses, self.applications)

    def begin(self, root, values, first):
        """The root at these values is false; the literal stands for it."""
        self.purse.pay(1 + len(values) + literal_price([0] * len(values), root))
        self.stand(self.literal_of(root, tuple(map(number_term, values))), first)
        self.clauses.append((opposite(first),))

    def step(self, word, values):
        self.purse.pay(self.prices.price(word, values))
        getattr(self, 'do_' + word.replace('-', '_'))(*values)

    def is_ended(self):
        """Whether the last clause is empty."""
        return self.clauses[-1] == ()

    def put_in(self, terms, one):
        """The term with these terms for its names."""
        total = number_term(one.constant)
        for name, number in one.monomials:
            total = combine(1, total, number, terms[name] if name < len(terms) else number_term(0))
        return total

    def put_all(self, terms, ones):
        return tuple(self.put_in(terms, one) for one in ones)

    # Literals in canonical form.

    def inequality(self, one):
        """The literal of t >= 0."""
        if not one.monomials:
            return ALWAYS, one.constant >= 0
        one = self.divided(one)
        if one.monomials[0][1] < 0:
            return Definition('>=', combine(-1, one, 1, MINUS_ONE)), False
        return Definition('>=', one), True

    def equation(self, one):
        """The literal of t = 0."""
        if not one.monomials:
            return ALWAYS, one.constant == 0
        if one.constant % gcd(*(number for _, number in one.monomials)):
            return ALWAYS, False
        one = self.divided(one)
        if one.monomials[0][1] < 0:
            one = combine(-1, one, 0, number_term(0))
        return Definition('=', one), True

    def divided(self, one):
        """The term divided by the greatest common divisor of its coefficients, the constant rounded down."""
        return divided(one, gcd(*(number for _, number in one.monomials)))

    def literal_of(self, formula, terms):
        """What the formula with these terms for its names stands for."""
        while formula.kind in ('and', 'or') and len(formula.members) == 1:
            formula = formula.members[0]
        kind = formula.kind
        if kind in ('=', '!='):
            definition, positive = self.equation(self.put_in(terms, formula.term))
            return definition, positive == (kind == '=')
        if kind == '>=':
            return self.inequality(self.put_in(terms, formula.term))
        if kind in ('holds', 'fails'):
            return Definition('holds', None, self.numbers[formula.symbol], self.put_all(terms, formula.arguments)), kind == 'holds'
        if kind in ('true', 'false') or kind in ('and', 'or') and not formula.members:
            return ALWAYS, kind in ('true', 'and')
        return Definition('closure', None, None, terms, formula), True

    # Variables.

    def known(self, variable, *kinds):
        """The definition of a variable, which has to be of one of these kinds."""
        require(variable < len(self.definitions) and self.definitions[variable].kind in kinds)
        return self.definitions[variable]

    def stand(self, meant, one):
        """The literal has to stand for this: by a variable that is known for it, or by the next new one."""
        definition, positive = meant
        require(positive == one.positive)
        if one.variable == len(self.definitions):
            self.definitions.append(definition)
            return
        require(one.variable < len(self.definitions) and is_same(self.definitions[one.variable], definition))

    def stand_all(self, makers, literals):
        """Each of the literals in turn stands for what a maker makes."""
        for place, make in enumerate(makers):
            require(place < len(literals))
            self.stand(make(), literals[place])
        require(len(literals) == len(makers))

    def application(self, number):
        require(number < len(self.applications))
        return self.applications[number]

    def new_constant(self):
        self.count += 1
        return name_term(self.count - 1)

    # Lines on formulas.

    def do_open(self, variable, literals):
        closure = self.known(variable, 'closure')
        formula, terms = closure.formula, closure.arguments
        require(formula.kind in ('and', 'or', 'all'))
        if formula.kind == 'all':
            terms += (name_term(self.count),)
        makers = [lambda member=member: self.literal_of(member, terms) for member in formula.members]
        if formula.kind == 'all':
            self.stand_body(makers[0], literals)
            self.count += 1
        else:
            self.stand_all(makers, literals)
        true = Literal(variable, True)
        if formula.kind == 'and':
            self.clauses.append((true, *map(opposite, literals)))
        else:
            self.clauses += [(true, opposite(one)) for one in literals]

    def stand_body(self, make, literals):
        meant = make()
        require(len(literals) == 1)
        self.stand(meant, literals[0])

    def do_apply(self, function, terms):
        require(is_over(self.count, terms))
        self.applications.append((function, tuple(terms), self.new_constant()))

    def do_read(self, variable, one, numbers):
        closure = self.known(variable, 'closure')
        formula, terms = closure.formula, closure.arguments
        for number in numbers:
            function, arguments, value = self.application(number)
            require(formula.kind == 'all')
            formula = formula.members[0]
            require(formula.kind == 'or' and len(formula.members) == 2)
            graph, formula = formula.members
            require(graph.kind == 'differs')
            made, is_outer = self.put_all(terms, graph.arguments), is_over(len(terms), graph.arguments)
            require(self.numbers[graph.symbol] == function and is_outer and made == arguments and graph.term == name_term(len(terms)))
            terms = terms + (value,)
        self.implied_by(variable, one, formula, terms)

    def do_instance(self, variable, one, values):
        closure = self.known(variable, 'closure')
        formula, terms = closure.formula, closure.arguments
        require(is_over(self.count, values))
        for value in values:
            require(formula.kind == 'some')
            formula = formula.members[0]
            terms = terms + (value,)
        self.implied_by(variable, one, formula, terms)

    def implied_by(self, variable, one, formula, terms):
        """The variable is true where the formula with these terms is, for which the literal stands."""
        meant = self.literal_of(formula, terms)
        self.stand(meant, one)
        self.clauses.append((Literal(variable, True), opposite(one)))

    # Lines on atoms.

    def do_geq(self, one):
        require(is_over(self.count, [one]))
        self.definitions.append(self.inequality(one)[0])

    def do_eq(self, one):
        require(is_over(self.count, [one]))
        self.definitions.append(self.equation(one)[0])

    def do_pred(self, predicate, terms):
        require(is_over(self.count, terms))
        self.definitions.append(Definition('holds', None, predicate, tuple(terms)))

    def do_split(self, variable, above, below):
        one = self.known(variable, '=').term
        meant = [self.inequality(combine(sign, one, 1, MINUS_ONE)) for sign in (1, -1)]
        self.stand(meant[0], above)
        self.stand(meant[1], below)
        self.clauses.append((Literal(variable, True), above, below))

    def fact(self, one):
        """What the falsity of a literal says of a term: that it is 0 (True), or at least 0 (False)."""
        definition = self.known(one.variable, '>=', '=')
        if definition.kind == '>=' and one.positive:
            return combine(-1, definition.term, 1, MINUS_ONE), False
        require(definition.kind == '>=' or not one.positive)
        return definition.term, definition.kind == '='

    def do_sum(self, factors):
        total, is_exact = number_term(0), True
        for one, by in factors:
            fact, is_equation = self.fact(one)
            require(is_equation or by >= 0)
            total, is_exact = combine(1, total, by, fact), is_exact and is_equation
        require((self.equation if is_exact else self.inequality)(total) == (ALWAYS, False))
        self.clauses.append(tuple(one for one, _ in factors))

    def do_divide(self, divisor, one, least, most):
        require(divisor > 0 and is_over(self.count, [one]))
        rest = combine(1, one, -divisor, name_term(self.count))
        below = combine(-1, rest, 1, number_term(divisor - 1))
        meant = self.inequality(rest), self.inequality(below)
        self.stand(meant[0], least)
        self.stand(meant[1], most)
        self.clauses += [(least,), (most,)]
        self.count += 1

    # Lines on pairs and clauses.

    def equations(self, ones, others):
        """What makes the equations of arguments."""
        return [lambda s=s, t=t: self.equation(combine(1, s, -1, t)) for s, t in zip(ones, others)]

    def do_pair(self, first, second, result, literals):
        one, other = self.application(first), self.application(second)
        require(one[0] == other[0] and len(one[1]) == len(other[1]))
        self.stand_all(self.equations((one[2],) + one[1], (other[2],) + other[1]), [result] + literals)
        self.clauses.append((result, *map(opposite, literals)))

    def do_pred_pair(self, first, second, literals):
        one = self.known(first, 'holds')
        other = self.known(second, 'holds')
        require(one.symbol == other.symbol and len(one.arguments) == len(other.arguments))
        self.stand_all(self.equations(one.arguments, other.arguments), literals)
        self.clauses.append((Literal(first, False), Literal(second, True), *map(opposite, literals)))

    def do_resolve(self, clause, hints):
        require(all(one.variable < len(self.definitions) for one in clause))
        require(self.clashes(set(clause), hints))
        self.clauses.append(tuple(clause))

    def clashes(self, false, hints):
        """Whether the clauses in turn clash with the falsity of these literals: each has one literal left, which so is true, until one has none."""
        for hint in hints:
            require(hint < len(self.clauses) and self.clauses[hint] is not None)
            left = [one for one in self.clauses[hint] if one not in false]
            if not left:
                return True
            require(len(left) == 1)
            false.add(opposite(left[0]))
        return False

    def do_delete(self, numbers):
        for number in numbers:
            if number < len(self.clauses):
                self.clauses[number] = None


def symbol_numbers(problem):
    """The numbers of functions and of predicates: each kind is counted from 0 in the order of declarations."""
    found = {}
    for role in ('function', 'predicate'):
        names = [name for name, symbol in problem.symbols.items() if symbol.role == role]
        found.update((name, number) for number, name in enumerate(names))
    return found


def is_clause_text(text, place):
    """Whether the proof that begins at a place is of the third format."""
    return text.startswith('princess-proof 3', place)


def levels(formula):
    """The most nodes on one way from the root to an atom."""
    return 1 + max(map(levels, formula.members), default=0)


def check_clauses(problem, formula, text, place):
    """The values at which the clause proof at a place of the text shows the formula; a refusal names the first fault."""
    reader = ClauseReader(text, place)
    most, steps, values, root = reader.head()
    proof, number = ClauseProof(symbol_numbers(problem), most), 3
    try:
        proof.purse.pay(steps and steps + formula.size * levels(formula))
        number = 4
        require(len(values) == len(problem.existentials))
        number = 5
        proof.begin(prepared_root(len(values), formula, steps), values, root)
        while not reader.is_ended():
            number += 1
            proof.step(*reader.line())
        number += 1
        require(proof.is_ended())
        return values
    except Fault as fault:
        raise Refusal(4, f'refused proof: {fault} {number}') from None
