"""What the check of a line of a clause proof charges, for proof_clauses.py.

Written from docs/PROOFS.md (What a check charges). A price is known before the line is made: it is in proportion to what the line reads
and writes. The width of a term is how many names it has.
"""


def width(term):
    return len(term.monomials)


def copies(terms):
    return sum(1 + width(one) for one in terms)


def put(widths, term):
    """A term with terms of these widths for its names."""
    inside = sum(1 + (widths[name] if name < len(widths) else 0) for name, _ in term.monomials)
    return (1 + width(term)) * (1 + inside)


def puts(widths, terms):
    return sum(put(widths, one) for one in terms)


def atom(widths, formula):
    if formula.kind in ('=', '!=', '>='):
        return put(widths, formula.term)
    return puts(widths, formula.arguments) if formula.kind in ('holds', 'fails') else 0


def literal(widths, formula):
    """The literal of a formula, with each connective of one member around it."""
    levels = 1
    while formula.kind in ('and', 'or') and len(formula.members) == 1:
        levels, formula = levels + 1, formula.members[0]
    return levels + atom(widths, formula)


def kept(widths):
    return sum(1 + one for one in widths)


def opened(widths, formula):
    if formula.kind in ('and', 'or'):
        return sum(literal(widths, member) for member in formula.members)
    return kept(widths) + literal(widths + [1], formula.members[0]) if formula.kind == 'all' else 0


def read(widths, numbers, formula):
    """For each application its arguments, and the terms and its constant; what is left with them."""
    total = 0
    for _ in numbers:
        body = formula.members[0] if formula.kind == 'all' else None
        if not body or body.kind != 'or' or len(body.members) != 2:
            return total
        graph, formula = body.members
        total += 1 + kept(widths) + (puts(widths, graph.arguments) if graph.kind == 'differs' else 0)
        widths = widths + [1]
    return total + literal(widths, formula)


def instance(widths, values, formula):
    """For each term all terms so far and itself; the body with them."""
    total = 0
    for one in values:
        if formula.kind != 'some':
            return total
        total += 1 + width(one) + kept(widths)
        widths, formula = widths + [width(one)], formula.members[0]
    return total + literal(widths, formula)


def definition(one):
    """The terms of an atom."""
    if one is None:
        return 0
    if one.kind in ('>=', '='):
        return 1 + width(one.term)
    return copies(one.arguments) if one.kind == 'holds' else 0


class Prices:
    """The prices of lines where a proof has come to: its definitions, clauses and applications."""

    def __init__(self, definitions, clauses, applications):
        self.definitions, self.clauses, self.applications = definitions, clauses, applications

    def price(self, word, values):
        return 1 + getattr(self, word.replace('-', '_'))(*values)

    def definition_at(self, variable):
        return self.definitions[variable] if variable < len(self.definitions) else None

    def of_definition(self, variable):
        return definition(self.definition_at(variable))

    def of_application(self, number):
        return copies(self.applications[number][1]) if number < len(self.applications) else 0

    def of_clause(self, number):
        return len(self.clauses[number] or ()) if number < len(self.clauses) else 0

    def of_closure(self, variable, price):
        one = self.definition_at(variable)
        return price(list(map(width, one.arguments)), one.formula) if one and one.kind == 'closure' else 0

    def open(self, variable, literals):
        return len(literals) + self.of_closure(variable, opened)

    def apply(self, _, terms):
        return copies(terms)

    def read(self, variable, _, numbers):
        return self.of_closure(variable, lambda widths, formula: read(widths, numbers, formula))

    def instance(self, variable, _, values):
        return self.of_closure(variable, lambda widths, formula: instance(widths, values, formula))

    def geq(self, one):
        return width(one)

    def eq(self, one):
        return width(one)

    def pred(self, _, terms):
        return copies(terms)

    def split(self, variable, *_):
        return self.of_definition(variable)

    def sum(self, factors):
        return len(factors) * (1 + sum(self.of_definition(one.variable) for one, _ in factors))

    def pair(self, first, second, _, literals):
        return len(literals) + self.of_application(first) + self.of_application(second)

    def pred_pair(self, first, second, literals):
        return len(literals) + self.of_definition(first) + self.of_definition(second)

    def divide(self, _, one, *__):
        return width(one)

    def resolve(self, clause, hints):
        return len(clause) + sum(1 + self.of_clause(hint) for hint in hints)

    def delete(self, numbers):
        return len(numbers)
