"""Miniscoping and the preparation of the root of a clause proof, for proof_clauses.py.

Written from docs/CALCULUS.md (The prepared root, Which rule comes first, A whole formula) and the definitions in form_miniscope/specs,
form_naming/specs and clause_root_laws/specs of crates/. An elimination chooses its rules here, where no log names them.
"""
from dataclasses import replace

from proof_elimination import DIVIDES, EQUATION, INEQUALITY, NOT_DIVIDES, Elimination, Entry, Purse, coefficient
from proof_problem import Fault, Formula, Term, joined, raised

MOST_NAMES, MOST_SHARE = 64, 2 ** 32 - 1


# Names in formulas.

def terms_of(formula):
    """The terms of an atom."""
    return formula.arguments + ((formula.term,) if formula.term is not None else ())


def occurs(name, formula):
    """Whether the formula has the name."""
    return any(coefficient(term, name) for term in terms_of(formula)) or any(occurs(name, member) for member in formula.members)


def lowered_term(term, name):
    return Term(tuple((other - (other > name), factor) for other, factor in term.monomials), term.constant)


def freed(formula, name):
    """The formula, which lacks the name, with each name above it less 1."""
    term = formula.term and lowered_term(formula.term, name)
    arguments = tuple(lowered_term(argument, name) for argument in formula.arguments)
    return replace(formula, term=term, arguments=arguments, members=tuple(freed(member, name) for member in formula.members))


# Miniscoping: each quantifier goes inwards, to the members that have its name.

ACROSS = {'all': 'and', 'some': 'or'}


def scoped(kind, name, formula):
    """The formula below a quantifier of this kind, which is moved inwards."""
    if formula.kind == ACROSS[kind]:
        return joined(formula.kind, [scoped(kind, name, member) for member in formula.members])
    if not occurs(name, formula):
        return freed(formula, name)
    if formula.kind not in ('and', 'or'):
        return joined(kind, [formula])
    bound = [member for member in formula.members if occurs(name, member)]
    outer = [freed(member, name) for member in formula.members if not occurs(name, member)]
    first = joined(kind, [joined(formula.kind, bound)])
    return joined(formula.kind, [first] + outer) if outer else first


def miniscoped(count, formula):
    """The formula over so many names with each quantifier moved inwards, the innermost first."""
    if formula.kind in ACROSS:
        return scoped(formula.kind, count, miniscoped(count + 1, formula.members[0]))
    if formula.kind in ('and', 'or'):
        return joined(formula.kind, [miniscoped(count, member) for member in formula.members])
    return formula


def scoped_below(count, formula):
    """The formula over so many names with its first for-alls as they are, and what stands below them miniscoped."""
    if formula.kind == 'all':
        return joined('all', [scoped_below(count + 1, formula.members[0])])
    return miniscoped(count, formula)


# A name for an application whose arguments have outer names alone.

def is_over(count, terms):
    """Whether the names of the terms are below `count`."""
    return all(name < count for term in terms for name, _ in term.monomials)


def is_pure_but(count, formula):
    """No predicates, and functions at arguments over `count` names only, with values of other names."""
    if formula.kind in ('holds', 'fails'):
        return False
    if formula.kind == 'differs':
        return is_over(count, formula.arguments) and all(name >= count for name, _ in formula.term.monomials)
    return all(is_pure_but(count, member) for member in formula.members)


def application(count, formula):
    """The first application at arguments over `count` names: its function and its arguments."""
    if formula.kind == 'differs' and is_over(count, formula.arguments):
        return formula.symbol, formula.arguments
    return next(filter(None, (application(count, member) for member in formula.members)), None)


def named(count, found, formula):
    """The formula with the name `count` for the application that was found."""
    if formula.kind == 'differs':
        is_it = (formula.symbol, formula.arguments) == found and all(name > count for name, _ in formula.term.monomials)
        return Formula('!=', Term(((count, -1),) + formula.term.monomials, formula.term.constant)) if is_it else formula
    if not formula.members:
        return formula
    return joined(formula.kind, [named(count, found, member) for member in formula.members])


def reading(count, found, body):
    """For all values of the name `count`: it is not the value of the application, or the body is true."""
    graph = Formula('differs', Term(((count, 1),), 0), found[0], found[1], (), 1, False)
    return joined('all', [joined('or', [graph, body])])


# Elimination without a log.

class Choice(Elimination):
    """Takes names out of clauses; the rule that comes first is performed."""

    def __init__(self, purse):
        super().__init__([], purse)

    def rule(self, clause, name):
        entry = first_rule(clause, name)
        self.log, self.at = [entry], 0
        return super().rule(clause, name)


def first_rule(clause, name):
    """The entry of the rule that comes first (docs/CALCULUS.md, Which rule comes first)."""
    places = {kind: [place for place, literal in enumerate(clause) if literal.kind == kind and coefficient(literal.term, name)]
              for kind in (EQUATION, INEQUALITY, DIVIDES, NOT_DIVIDES)}
    if places[EQUATION]:
        return Entry('e', min(places[EQUATION], key=lambda place: abs(coefficient(clause[place].term, name))))
    if places[NOT_DIVIDES]:
        return Entry('n', places[NOT_DIVIDES][0])
    if len(places[DIVIDES]) > 1:
        return Entry('m', *places[DIVIDES][:2])
    if places[DIVIDES]:
        return Entry('s', places[DIVIDES][0])
    factors = [coefficient(clause[place].term, name) for place in places[INEQUALITY]]
    lower, upper = [factor for factor in factors if factor > 0], [-factor for factor in factors if factor < 0]
    if not lower or not upper:
        return Entry('o')
    return Entry('x' if max(lower) == 1 or max(upper) == 1 else 'd')


def literal_form(count, literal):
    """A literal as a formula over so many names."""
    kind, divisor, term = literal
    if kind == EQUATION:
        return Formula('=', term)
    if kind == INEQUALITY:
        return Formula('>=', term)
    rest = Term(term.monomials + ((count, -divisor),), term.constant)
    return joined('some', [Formula('=', rest)]) if kind == DIVIDES else joined('all', [Formula('!=', rest)])


def clauses_form(count, clauses):
    """A disjunction of clauses as a formula over so many names."""
    return joined('or', [joined('and', [literal_form(count, literal) for literal in clause]) for clause in clauses])


class Preparation:
    """Takes the quantifiers out of the pure parts of a formula, as far as the steps go."""

    def __init__(self, steps):
        self.left = steps

    def attempted(self, count, formula):
        """The formula without its quantifiers where it is pure and its elimination ends within its share of the steps; else itself."""
        if not formula.is_pure:
            return formula
        share = min(self.left // 8, MOST_SHARE)
        purse = Purse(share)
        try:
            return clauses_form(count, Choice(purse).formula(formula, count))
        except Fault:
            return formula
        finally:
            self.left -= share - purse.left

    def unquantified(self, most, count, formula):
        """The formula with names for at most so many of its applications at arguments over the outer names, and then attempted."""
        found = application(count, formula) if most else None
        if found is None:
            return self.attempted(count, formula)
        under = named(count, found, raised(formula, count, 1))
        return reading(count, found, self.unquantified(most - 1, count + 1, under))

    def prepared(self, is_inside, count, formula):
        """The formula prepared, from left to right; a for-all is attempted only below a for-some."""
        kind, members = formula.kind, formula.members
        if kind in ('and', 'or'):
            return joined(kind, [self.prepared(is_inside, count, member) for member in members])
        if kind not in ACROSS:
            return formula
        if (kind == 'some' or is_inside) and is_pure_but(count, members[0]):
            return self.unquantified(MOST_NAMES, count, formula)
        return joined(kind, [self.prepared(is_inside or kind == 'some', count + 1, members[0])])


def prepared_root(count, formula, steps):
    """The root over so many names, miniscoped below its first for-alls and prepared with so many steps; with 0 steps itself."""
    return Preparation(steps).prepared(False, count, scoped_below(count, formula)) if steps else formula
