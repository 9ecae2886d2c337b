"""Normal forms, charged operations on disjunctions, and elimination by a log, for check_proof.py.

Written from docs/CALCULUS.md: Normal forms, Charges of disjunctions, the rules for equations, divisibilities and inequalities, and
A whole formula. Nothing is chosen here: the next entry of a log names the rule that is performed.
"""
from dataclasses import replace
from math import gcd
from typing import NamedTuple

from proof_problem import Fault, Term, combine, in_range, name_term, number_term


# Literals, clauses and disjunctions in normal form (docs/CALCULUS.md, Normal forms).

class Literal(NamedTuple):
    """`term = 0`, `term >= 0`, `divisor divides term` or not; the divisor is 0 where there is none. Literals compare field by field."""
    kind: int
    divisor: int
    term: Term


EQUATION, INEQUALITY, DIVIDES, NOT_DIVIDES = range(4)
TRUE, FALSE = ((),), ()


def plus(term, number):
    return combine(1, term, 1, number_term(number))


def coefficient(term, name):
    return next((factor for other, factor in term.monomials if other == name), 0)


def without(term, name):
    return Term(tuple(part for part in term.monomials if part[0] != name), term.constant)


def has_name(clause, name):
    return any(coefficient(literal.term, name) for literal in clause)


def divided(term, divisor):
    """The term by a divisor of its coefficients; the constant is rounded down."""
    return Term(tuple((name, factor // divisor) for name, factor in term.monomials), term.constant // divisor)


def normal_literal(literal):
    """The normal form of a literal, or True or False."""
    kind, divisor, term = literal
    if kind >= DIVIDES:
        return normal_divisibility(kind, divisor, term)
    if not term.monomials:
        return term.constant == 0 if kind == EQUATION else term.constant >= 0
    common = gcd(*(factor for _, factor in term.monomials))
    if kind == EQUATION:
        if term.constant % common:
            return False
        common = common if term.monomials[0][1] > 0 else -common
    return Literal(kind, 0, divided(term, common))


def normal_divisibility(kind, divisor, term):
    monomials = tuple((name, factor % divisor) for name, factor in term.monomials if factor % divisor)
    term = Term(monomials, term.constant % divisor)
    common = gcd(divisor, *(factor for _, factor in monomials))
    if term.constant % common:
        return kind == NOT_DIVIDES
    if common == divisor:
        return kind == DIVIDES
    return Literal(kind, divisor // common, divided(term, common))


def clause_of(literals):
    """The normal form of a conjunction, or None where the form finds it false."""
    others, limits = set(), {}
    for literal in map(normal_literal, literals):
        if literal is False:
            return None
        if literal is True:
            continue
        if literal.kind >= DIVIDES:
            others.add(literal)
        else:
            limit(limits, literal)
    for form, (least, greatest) in limits.items():
        if least is not None and greatest is not None and least > greatest:
            return None
        others.update(limited(form, least, greatest))
    return tuple(sorted(others))


def negated_form(form):
    return tuple((name, -factor) for name, factor in form)


def limit(limits, literal):
    """Narrows the least and the greatest value of the form of a literal: its monomials, the first one with a positive factor."""
    form, constant = literal.term
    is_turned = form[0][1] < 0
    form, value = (negated_form(form), constant) if is_turned else (form, -constant)
    least, greatest = limits.get(form, (None, None))
    if literal.kind == EQUATION or not is_turned:
        least = value if least is None else max(least, value)
    if literal.kind == EQUATION or is_turned:
        greatest = value if greatest is None else min(greatest, value)
    limits[form] = least, greatest


def limited(form, least, greatest):
    """The literals that say these limits of a form."""
    if least == greatest:
        return [Literal(EQUATION, 0, Term(form, -least))]
    found = [] if least is None else [Literal(INEQUALITY, 0, Term(form, -least))]
    return found if greatest is None else found + [Literal(INEQUALITY, 0, Term(negated_form(form), greatest))]


def bounds_of(clause):
    """For each linear form that the clause bounds from below, the constant of that bound."""
    found = {}
    for literal in clause:
        if literal.kind <= INEQUALITY:
            found[literal.term.monomials] = literal.term.constant
        if literal.kind == EQUATION:
            found[negated_form(literal.term.monomials)] = -literal.term.constant
    return found


def covers(clause, literals, bounds):
    """Whether each literal of the clause is one of these or a bound that they imply."""
    return all(literal in literals or literal.kind == INEQUALITY
               and bounds.get(literal.term.monomials, literal.term.constant + 1) <= literal.term.constant for literal in clause)


def tidied(clauses):
    """The tidy form: sorted, each clause once, none that another one covers."""
    different = sorted(set(clauses))
    kept = []
    for clause in different:
        literals, bounds = set(clause), bounds_of(clause)
        if not any(other is not clause and covers(other, literals, bounds) for other in different):
            kept.append(clause)
    return tuple(kept)


def weight(clauses):
    """A place for each literal and for each of its monomials."""
    return sum(1 + len(literal.term.monomials) for clause in clauses for literal in clause)


def negated_literals(literal):
    """The literals of which one is true where the given one is false."""
    kind, divisor, term = literal
    if kind >= DIVIDES:
        return [Literal(DIVIDES + NOT_DIVIDES - kind, divisor, term)]
    below = Literal(INEQUALITY, 0, combine(-1, term, 1, number_term(-1)))
    return [below] if kind == INEQUALITY else [below, Literal(INEQUALITY, 0, plus(term, -1))]


class Purse:
    """Charges are made against a limit."""

    def __init__(self, most):
        self.left = most

    def pay(self, steps):
        if steps > self.left:
            raise Fault('cost')
        self.left -= steps

    def tidy(self, clauses):
        clauses = [clause for clause in clauses if clause is not None]
        self.pay(len(clauses) ** 2)
        return tidied(clauses)

    def disjunction(self, first, second):
        self.pay(1 + weight(first) + weight(second))
        return self.tidy(first + second)

    def conjunction(self, first, second):
        self.pay(1 + len(first) * weight(second) + len(second) * weight(first))
        return self.tidy([clause_of(one + other) for one in first for other in second])

    def negation(self, clauses):
        result = TRUE
        for clause in clauses:
            self.pay(1 + 2 * weight([clause]))
            literals = [literal for one in clause for literal in negated_literals(one)]
            result = self.conjunction(result, tidied([clause_of([literal]) for literal in literals]))
        return result


# The negation of a formula without predicates and functions.

DUALS = {'true': 'false', 'false': 'true', '=': '!=', '!=': '=', 'and': 'or', 'or': 'and', 'all': 'some', 'some': 'all'}


def dual(formula):
    """The negation of a formula without predicates and functions."""
    if formula.kind == '>=':
        return replace(formula, term=combine(-1, formula.term, 1, number_term(-1)))
    return replace(formula, kind=DUALS[formula.kind], members=tuple(map(dual, formula.members)))


# Elimination by a log (docs/CALCULUS.md): an entry names the rule, and nothing is chosen.

class Entry(NamedTuple):
    """An entry of a log: its letter and its positions."""
    letter: str
    first: int = 0
    second: int = 0


def require(condition):
    """A fault of the node where something is not as its rule wants it."""
    if not condition:
        raise Fault('node')


def clauses_of(*conjunctions):
    """The normal forms of conjunctions, without those that are found false."""
    return [clause for clause in map(clause_of, conjunctions) if clause is not None]


class Elimination:
    """Takes names out of clauses by the entries of a log."""

    def __init__(self, log, purse):
        self.log, self.at, self.purse = log, 0, purse

    def finish(self, result):
        """The result, where no entry is left over."""
        require(self.at == len(self.log))
        return result

    def formula(self, formula, count):
        """The disjunction that is true where a formula over so many names is."""
        kind, members = formula.kind, formula.members
        if kind in ('true', 'false'):
            return TRUE if kind == 'true' else FALSE
        if kind in ('=', '!=', '>='):
            return self.atom(kind, formula.term)
        if kind == 'some':
            return self.exists(count, self.formula(members[0], count + 1))
        if kind == 'all':
            self.purse.pay(members[0].size)
            return self.purse.negation(self.exists(count, self.formula(dual(members[0]), count + 1)))
        result, join = (TRUE, self.purse.conjunction) if kind == 'and' else (FALSE, self.purse.disjunction)
        for member in members:
            result = join(result, self.formula(member, count))
        return result

    def atom(self, kind, term):
        self.purse.pay(1 + len(term.monomials))
        literal = Literal(INEQUALITY if kind == '>=' else EQUATION, 0, term)
        literals = negated_literals(literal) if kind == '!=' else [literal]
        return tidied(clauses_of(*([one] for one in literals)))

    def exists(self, name, clauses):
        """The disjunction that is true where some value of the name makes this one true."""
        todo, done = list(reversed(clauses)), []
        while todo:
            clause = todo.pop()
            if has_name(clause, name):
                todo += reversed(self.rule(clause, name))
            else:
                self.purse.pay(1)
                done.append(clause)
        return self.purse.tidy(done)

    def for_all(self, name, clauses):
        return self.purse.negation(self.exists(name, self.purse.negation(clauses)))

    def rule(self, clause, name):
        """The clauses that the rule of the next entry leaves."""
        require(self.at < len(self.log))
        entry = self.log[self.at]
        self.at += 1
        rules = {'e': self.equation, 'n': self.apart, 'm': self.merge, 's': self.shift}
        if entry.letter in rules:
            require(max(entry.first, entry.second) < len(clause))
            return rules[entry.letter](clause, name, entry)
        return self.inequalities(clause, name, entry.letter)

    def pay(self, clause, counted):
        """Charges 1, and so many literals each with a place for itself and for each name of the clause."""
        names = {other for literal in clause for other, _ in literal.term.monomials}
        self.purse.pay(1 + counted * (1 + len(names)))

    def equation(self, clause, name, entry):
        kind, _, term = clause[entry.first]
        a = coefficient(term, name)
        require(kind == EQUATION and a)
        self.pay(clause, len(clause))
        rest, sign, factor = without(term, name), 1 if a > 0 else -1, abs(a)
        result = [Literal(DIVIDES, factor, rest)]
        for literal in clause[:entry.first] + clause[entry.first + 1:]:
            b = coefficient(literal.term, name)
            if b:
                in_range(literal.divisor * factor)
                changed = combine(factor, without(literal.term, name), -sign * b, rest)
                literal = Literal(literal.kind, literal.divisor * factor, changed)
            result.append(literal)
        return clauses_of(result)

    def apart(self, clause, name, entry):
        kind, divisor, term = clause[entry.first]
        require(kind == NOT_DIVIDES and coefficient(term, name))
        self.pay(clause, (divisor - 1) * len(clause))
        others = clause[:entry.first] + clause[entry.first + 1:]
        return clauses_of(*(others + (Literal(DIVIDES, divisor, plus(term, r)),) for r in range(1, divisor)))

    def merge(self, clause, name, entry):
        one, other = clause[entry.first], clause[entry.second]
        a1, a2 = coefficient(one.term, name), coefficient(other.term, name)
        require(entry.first < entry.second and one.kind == other.kind == DIVIDES and a1 and a2)
        self.pay(clause, len(clause))
        d1, d2, t1, t2 = one.divisor, other.divisor, without(one.term, name), without(other.term, name)
        in_range(a1 * d2, a2 * d1, d1 * d2)
        g, p, q = bezout(a1 * d2, a2 * d1)
        in_range(p * d2, q * d1)
        rest = combine(p * d2, t1, q * d1, t2)
        result = [literal for place, literal in enumerate(clause) if place not in (entry.first, entry.second)]
        result.append(Literal(DIVIDES, d1 * d2, combine(1, rest, g, name_term(name))))
        result.append(Literal(DIVIDES, g, combine(a2, t1, -a1, t2)))
        return clauses_of(result)

    def shift(self, clause, name, entry):
        kind, divisor, term = clause[entry.first]
        others = clause[:entry.first] + clause[entry.first + 1:]
        require(kind == DIVIDES and coefficient(term, name))
        require(all(other.kind == INEQUALITY or not coefficient(other.term, name) for other in others))
        self.pay(clause, len(clause))
        rest = without(term, name)
        g, u, _ = bezout(coefficient(term, name), divisor)
        result = [Literal(DIVIDES, g, rest)]
        for literal in others:
            a = coefficient(literal.term, name)
            if a:
                in_range(a * u, a * divisor)
                bound = combine(g, without(literal.term, name), -a * u, rest)
                literal = literal._replace(term=combine(1, bound, a * divisor, name_term(name)))
            result.append(literal)
        return clauses_of(result)

    def inequalities(self, clause, name, letter):
        """One-sided, exact and dark."""
        lower = [one for one in clause if coefficient(one.term, name) > 0]
        upper = [one for one in clause if coefficient(one.term, name) < 0]
        others = [one for one in clause if not coefficient(one.term, name)]
        require(all(one.kind == INEQUALITY for one in lower + upper))
        if letter == 'o':
            require(not lower or not upper)
            self.pay(clause, len(clause))
            return clauses_of(others)
        require(lower and upper)
        if letter == 'x':
            require(all(coefficient(one.term, name) == 1 for one in lower) or all(coefficient(one.term, name) == -1 for one in upper))
            self.pay(clause, len(others) + len(lower) * len(upper))
            return clauses_of(others + self.shadow(name, lower, upper, False))
        return self.dark(clause, name, lower, upper, others)

    @staticmethod
    def shadow(name, lower, upper, is_dark):
        """For each pair of a lower and an upper bound that an integer lies between them, if need be by more room."""
        result = []
        for below in lower:
            for above in upper:
                b, a = coefficient(below.term, name), -coefficient(above.term, name)
                term = combine(b, without(above.term, name), a, without(below.term, name))
                if is_dark:
                    in_range((a - 1) * (b - 1))
                    term = plus(term, -(a - 1) * (b - 1))
                result.append(Literal(INEQUALITY, 0, term))
        return result

    def dark(self, clause, name, lower, upper, others):
        greatest = max(-coefficient(one.term, name) for one in upper)
        counts = [(greatest * b - greatest - b) // greatest + 1 for b in (coefficient(one.term, name) for one in lower)]
        names = {other for literal in clause for other, _ in literal.term.monomials}
        charged = len(others) + len(lower) * len(upper) + sum(counts) * (len(clause) + 1)
        self.purse.pay(1 + charged * (1 + len(names)))
        result = clauses_of(others + self.shadow(name, lower, upper, True))
        for b in (coefficient(one.term, name) for one in lower):
            in_range(greatest * b, greatest * b - greatest, greatest * b - greatest - b)
        for below, count in zip(lower, counts):
            for i in range(count):
                result += clauses_of(clause + (Literal(EQUATION, 0, plus(below.term, -i)),))
        return result


def bezout(a, b):
    """The greatest common divisor of two positive numbers, and factors p and q so that it is p*a + q*b; p is the least from 0 on."""
    g = gcd(a, b)
    p = pow(a // g, -1, b // g)
    return g, p, (g - p * a) // b
