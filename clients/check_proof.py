#!/usr/bin/env python3
"""Checks a proof of a problem, apart from the prover: `check_proof.py FILE PROOF` prints what `princess check FILE PROOF` prints.

Written from docs/LANGUAGE.md (the problem's file), docs/CALCULUS.md (its encoding, the rules, the eliminations, the charges) and
docs/PROOFS.md (the formats of a proof and their checks), with the standard library of Python alone. Nothing is searched here: each rule
and each elimination that the proof names is performed, and the constraint that it leaves is compared with the one in the text.
proof_problem.py reads and encodes the problem, proof_elimination.py has the normal forms and the eliminations, proof_clauses.py checks
the third format, and proof_preparation.py prepares its root.

    status 0   CHECKED VALID (with the lines of constraint and solution), CHECKED INVALID
    status 2   UNKNOWN: overflow    a number of the encoded problem leaves the range
    status 3   refused: NAME at N   the problem's file is refused there; nothing of the proof is read then
    status 4   refused proof: ..    PROOF holds no text of a proof, or one that proves nothing of the problem
    status 5   refused words
    status 6   a file cannot be read
    status 7   standard output took no more
    status 9   refused: file too long

A file that the prover refuses is refused here. Name and place are the prover's for Syntax, Literal, Deep, Undeclared, Redeclared, Arity,
Kind, NonLinear, Many and Large; for Parts, which concerns files with interpolants, they were tried less.
"""
import os
import re
import sys
import threading
from dataclasses import dataclass, field, replace
from typing import NamedTuple

from proof_clauses import check_clauses, is_clause_text
from proof_elimination import DIVIDES, EQUATION, FALSE, INEQUALITY, NOT_DIVIDES, TRUE, Elimination, Entry, Literal, Purse, clauses_of, \
    coefficient, require, tidied, without
from proof_problem import MOST, MOST_LEVELS, MOST_SYMBOLS, Fault, Formula, Refusal, Term, combine, in_range, joined, number_term, raised, \
    read_problem

MOST_CHARGES, MOST_FILE, MOST_PROOF = 1_000_000_000, 1_048_576, 67_108_864


# The tokens of a proof (docs/PROOFS.md, Tokens).

PROOF_TOKEN = re.compile(r'princess-[0-9A-Za-z]*|m[0-9]+,[0-9][0-9A-Za-z]*|[0-9A-Za-z]+|>=|[\s\S]')
NUMERAL = r'(0|[1-9][0-9]*)'
NUMBER, NAME, USE = re.compile(NUMERAL), re.compile('c' + NUMERAL), re.compile('u' + NUMERAL)
ENTRY = re.compile(f'([ens]){NUMERAL}|m{NUMERAL},{NUMERAL}|([oxd])')
WORD_LIMIT = 2 ** 32
RULES = ('trivial', 'alpha', 'beta', 'delta', 'gamma', 'close')


@dataclass
class Node:
    """A node of a proof; nodes are numbered in the order of their first lines."""
    number: int
    rule: str
    position: int = 0
    premises: list = field(default_factory=list)
    log: list = field(default_factory=list)
    gives: tuple = ()


@dataclass
class Proof:
    """A proof: its charges, its root, how many nodes it has, and the values or the log of its conclusion."""
    charges: int
    root: Node
    count: int
    values: list = None
    log: list = None


class ProofReader:
    """Reads the text of a proof by the grammar of docs/PROOFS.md and refuses the first token with which no text goes on."""

    def __init__(self, text, start):
        self.tokens, self.places, place = [], [], start
        for token in PROOF_TOKEN.findall(text, start):
            self.tokens.append(token)
            self.places.append(place)
            place += len(token)
        self.tokens.append('')
        self.places.append(place)
        self.at, self.count, self.parts = 0, 0, []

    def refuse(self, name='Syntax'):
        raise Refusal(4, f'refused proof: {name} at {self.places[self.at]}')

    def take(self, *words):
        word = self.tokens[self.at]
        if word not in words:
            self.refuse()
        self.at += 1
        return word

    def take_all(self, *words):
        for word in words:
            self.take(word)

    def number(self, most, least=0):
        match = NUMBER.fullmatch(self.tokens[self.at])
        if not match or len(match.group()) > 39 or not least <= int(match.group()) <= most:
            self.refuse()
        self.at += 1
        return int(match.group())

    def position(self, least=0):
        self.take(' ')
        return self.number(WORD_LIMIT - 1, least)

    def read(self):
        self.take_all('princess-proof', ' ')
        is_short = self.take('1', '2') == '2'
        self.take('\n')
        if is_short:
            self.read_parts()
        self.take_all('charges', ' ')
        charges = self.number(MOST_CHARGES)
        self.take('\n')
        proof = Proof(charges, self.node(1), self.count)
        if self.take('solution', 'none') == 'none':
            proof.log = self.steps()
        else:
            proof.values = self.solution()
        self.take('')
        return proof

    def read_parts(self):
        self.take('parts')
        count = self.position()
        self.take('\n')
        parts = []
        for _ in range(count):
            self.take('part')
            if self.tokens[self.at] != ' ':
                self.refuse()
            parts.append(self.entries())
        self.parts = parts

    def entries(self):
        log = []
        while self.take(' ', '\n') == ' ':
            log.append(self.entry())
        return log

    def entry(self):
        match = ENTRY.fullmatch(self.tokens[self.at])
        if not match:
            self.refuse()
        letter, position, first, second, other = match.groups()
        numbers = [number for number in (position, first, second) if number]
        if any(len(number) > 10 or int(number) >= WORD_LIMIT for number in numbers):
            self.refuse()
        self.at += 1
        return Entry(letter or other or 'm', *map(int, numbers))

    def steps(self):
        """Entries, or the use of a part."""
        use = USE.fullmatch(self.tokens[self.at + 1]) if self.tokens[self.at] == ' ' else None
        if use is None or len(use.group(1)) > 10 or int(use.group(1)) >= len(self.parts):
            return self.entries()
        self.at += 2
        self.take('\n')
        return self.parts[int(use.group(1))]

    def solution(self):
        values = []
        while self.take(' ', '\n') == ' ':
            is_negative = self.tokens[self.at] == '-'
            self.at += is_negative
            values.append(-self.number(MOST, 1) if is_negative else self.number(MOST))
        return values

    def node(self, level):
        if level > MOST_LEVELS and self.tokens[self.at] in RULES:
            self.refuse('Deep')
        node = Node(self.count, self.take(*RULES))
        self.count += 1
        if node.rule != 'close':
            node.position = self.position()
        premises = {'beta': None, 'trivial': 0, 'close': 0}.get(node.rule, 1)
        if premises is None:
            premises = self.position(1)
        self.take('\n')
        for _ in range(premises):
            node.premises.append(self.node(level + 1))
        if node.rule in ('delta', 'gamma', 'close'):
            self.take('log')
            node.log = self.steps()
        self.take_all('gives', ' ')
        node.gives = self.constraint()
        return node

    def constraint(self):
        if self.tokens[self.at] == 'false':
            self.take_all('false', '\n')
            return FALSE
        clauses, end = [], '|'
        while end == '|':
            literals, end = self.clause()
            clauses.append(literals)
        return tuple(clauses)

    def clause(self):
        """A clause, and the sign or the line feed behind it."""
        if self.tokens[self.at] == 'true':
            self.take('true')
            return (), self.ended('|')
        literals, end = [], '&'
        while end == '&':
            literals.append(self.literal())
            end = self.ended('&', '|')
        return tuple(literals), end

    def ended(self, *signs):
        """A line feed, or one of these signs with its blanks."""
        if self.take(' ', '\n') == '\n':
            return '\n'
        sign = self.take(*signs)
        self.take(' ')
        return sign

    def literal(self):
        first = self.tokens[self.at]
        if NUMBER.fullmatch(first) and self.tokens[self.at + 1] == ' ':
            number = self.number(MOST)
            if number > 1 and self.tokens[self.at + 1] in ('divides', 'notdivides'):
                self.take(' ')
                kind = DIVIDES if self.take('divides', 'notdivides') == 'divides' else NOT_DIVIDES
                self.take(' ')
                return Literal(kind, number, self.term(True))
            term = number_term(number)
        else:
            term = self.term(False)
        self.take(' ')
        kind = EQUATION if self.take('=', '>=') == '=' else INEQUALITY
        self.take_all(' ', '0')
        return Literal(kind, 0, term)

    def term(self, is_divided):
        """A term; behind it stands a blank, or a line feed where it is divided."""
        monomials, constant, sign = [], 0, 1
        if self.tokens[self.at] == '-':
            self.at, sign = self.at + 1, -1
        is_signed = sign < 0
        while True:
            if NUMBER.fullmatch(self.tokens[self.at]) and self.tokens[self.at + 1] != '*':
                constant = sign * self.number(MOST, 1 if is_signed else 0)
                break
            monomials.append(self.monomial(sign, monomials[-1][0] + 1 if monomials else 0))
            if is_divided and self.tokens[self.at] == '\n':
                break
            if self.tokens[self.at] != ' ':
                self.refuse()
            if self.tokens[self.at + 1] not in ('+', '-'):
                break
            self.take(' ')
            sign, is_signed = 1 if self.take('+', '-') == '+' else -1, True
            self.take(' ')
        return Term(tuple(monomials), constant)

    def monomial(self, sign, least):
        """A name from `least` on with its coefficient."""
        factor = 1
        if NUMBER.fullmatch(self.tokens[self.at]):
            factor = self.number(MOST)
            if factor < 2 or least >= WORD_LIMIT:
                self.refuse()
            self.take('*')
        name = NAME.fullmatch(self.tokens[self.at])
        if not name or len(name.group(1)) > 10 or not least <= int(name.group(1)) < WORD_LIMIT:
            self.refuse()
        self.at += 1
        return int(name.group(1)), sign * factor


# Sequents and the check of a proof (docs/CALCULUS.md, Sequents and their rules; docs/PROOFS.md, The check).

class Member(NamedTuple):
    """A formula of a sequent, and how many constants it is over."""
    formula: Formula
    count: int


PRINCIPALS = {'trivial': 'true', 'alpha': 'or', 'beta': 'and', 'delta': 'all', 'gamma': 'some'}


def pair_of(one, other):
    """The formula that two members of a sequent say, or None."""
    if one.symbol is None or one.symbol != other.symbol:
        return None
    if {one.kind, other.kind} == {'holds', 'fails'}:
        if one.kind == 'holds':
            one, other = other, one
        extra = []
    elif one.kind == other.kind == 'differs':
        extra = [Formula('!=', difference(one.term, other.term))]
    else:
        return None
    equations = [Formula('=', difference(s, t)) for s, t in zip(one.arguments, other.arguments)]
    return joined('and', equations + extra)


def difference(s, t):
    """s - t, where numbers may leave the range: that is looked at once their node is paid."""
    return combine(1, s, -1, t, lambda *numbers: None)


def closing_formula(members, count):
    """The members without applications, and what the pairs say."""
    found = [raised(formula, over, count - over) for formula, over in members if formula.is_pure]
    applied = [formula for formula, _ in members if formula.symbol]
    pairs = [pair_of(one, other) for one in applied if one.kind == 'fails' for other in applied if other.kind == 'holds']
    pairs += [pair_of(one, other) for place, one in enumerate(applied) if one.kind == 'differs' for other in applied[place + 1:]]
    return joined('or', found + [pair for pair in pairs if pair])


def check_numbers(formula):
    """The numbers of a closing formula stay in the range."""
    if formula.term:
        in_range(formula.term.constant, *(factor for _, factor in formula.term.monomials))
    for member in formula.members:
        check_numbers(member)


class Checker:
    """Checks a proof of a formula over so many names."""

    def __init__(self, formula, names, proof):
        self.formula, self.names, self.proof = formula, names, proof
        self.purse, self.current = Purse(proof.charges), 0

    def check(self):
        """The constraint of the root; a refusal names the node where the first fault is."""
        try:
            constraint = self.node(self.proof.root, [Member(self.formula, self.names)], self.names)
            self.current = self.proof.count
            self.conclude(constraint)
            return constraint
        except Fault as fault:
            raise Refusal(4, f'refused proof: {fault} {self.current}') from None

    def node(self, node, members, count):
        """The constraint of a node with this sequent over `count` constants."""
        self.current = node.number
        if node.rule == 'close':
            made = self.closed(node, members, count)
        else:
            premises, over = self.premises(node, members, count)
            results = [self.node(below, premise, over) for below, premise in zip(node.premises, premises)]
            self.current = node.number
            made = self.joined(node, results, count)
        require(made == node.gives)
        return made

    def premises(self, node, members, count):
        """The sequents of the premises of a node, which is charged, and how many constants they are over."""
        require(node.position < len(members))
        formula, over = principal = members[node.position]
        require(formula.kind == PRINCIPALS[node.rule])
        require(node.rule != 'beta' or len(node.premises) == len(formula.members))
        self.purse.pay(1 + formula.size)
        others = members[:node.position] + members[node.position + 1:]
        parts = [Member(member, over) for member in formula.members]
        if node.rule == 'trivial':
            return [], count
        if node.rule == 'alpha':
            return [others + parts], count
        if node.rule == 'beta':
            return [others + [part] for part in parts], count
        body = Member(raised(formula.members[0], over, count - over), count + 1)
        return [others + [body] + ([principal] if node.rule == 'gamma' else [])], count + 1

    def closed(self, node, members, count):
        formula = closing_formula(members, count)
        self.purse.pay(1 + formula.size)
        check_numbers(formula)
        work = Elimination(node.log, self.purse)
        return work.finish(work.formula(formula, count))

    def joined(self, node, results, count):
        """The constraint of a node by those of its premises."""
        work = Elimination(node.log, self.purse)
        if node.rule == 'delta':
            return work.finish(work.for_all(count, results[0]))
        if node.rule == 'gamma':
            return work.finish(work.exists(count, results[0]))
        if node.rule == 'alpha':
            return results[0]
        made = TRUE
        for result in results:
            made = self.purse.conjunction(made, result)
        return made

    def conclude(self, constraint):
        values = self.proof.values
        if values is None:
            require(self.formula.is_pure and not self.proof.root.premises)
            work = Elimination(self.proof.log, self.purse)
            for name in reversed(range(self.names)):
                constraint = work.exists(name, constraint)
            require(work.finish(constraint) == FALSE)
        else:
            require(len(values) == self.names)
            for name, value in enumerate(values):
                constraint = with_value(constraint, name, value)
            require(constraint == TRUE)


def with_value(clauses, name, value):
    """The disjunction with a value for a name."""
    return tidied(clauses_of(*([valued(literal, name, value) for literal in clause] for clause in clauses)))


def valued(literal, name, value):
    factor = coefficient(literal.term, name)
    return literal._replace(term=combine(1, without(literal.term, name), factor, number_term(value)))


# The answer (docs/LANGUAGE.md, Printed constraints and interpolants).

def printed_term(term, names):
    text = ''
    for name, factor in term.monomials:
        part = names[name] if abs(factor) == 1 else f'{abs(factor)}*{names[name]}'
        sign = (' - ' if factor < 0 else ' + ') if text else ('-' if factor < 0 else '')
        text += sign + part
    if not text:
        return str(term.constant)
    return text + (f' {"-" if term.constant < 0 else "+"} {abs(term.constant)}' if term.constant else '')


def printed_literal(literal, names, quotient):
    kind, divisor, term = literal
    if kind < DIVIDES:
        return f'{printed_term(term, names)} {"=" if kind == EQUATION else ">="} 0'
    return f'{"!" if kind == NOT_DIVIDES else ""}\\exists int {quotient}; {printed_term(term, names)} = {divisor}*{quotient}'


def printed_constraint(clauses, names, quotient):
    texts = [' & '.join(printed_literal(literal, names, quotient) for literal in clause) or 'true' for clause in clauses]
    return ' | '.join(texts) or 'false'


def values_constraint(values):
    """The constraint that says that the existential constants have these values."""
    return tuple(Literal(EQUATION, 0, Term(((name, 1),), -value)) for name, value in enumerate(values)),


def valid(problem, values, constraint):
    """The answer where the constraint and the values are shown."""
    names = [symbol.name for symbol in problem.existentials]
    if not names:
        return 'CHECKED VALID\n'
    quotient = next(f'k{number}' for number in range(MOST_SYMBOLS + 1) if f'k{number}' not in problem.symbols)
    values = ', '.join(f'{name} = {value}' for name, value in zip(names, values))
    return f'CHECKED VALID\nconstraint: {printed_constraint(constraint, names, quotient)}\nsolution: {values}\n'


def behind_marker(text):
    """Where the proof begins: behind the first line that is `proof:`, or else at the front."""
    match = re.search(r'^proof:(?:\n|\Z)', text, re.MULTILINE)
    return match.end() if match else 0


def checked(problem_text, proof_tokens):
    """The status and the text of the answer to the texts of both files."""
    try:
        problem, formula = read_problem(problem_text)
        start = behind_marker(proof_tokens)
        if is_clause_text(proof_tokens, start):
            values = check_clauses(problem, formula, proof_tokens, start)
            return 0, valid(problem, values, values_constraint(values))
        proof = ProofReader(proof_tokens, start).read()
        constraint = Checker(formula, len(problem.existentials), proof).check()
        return 0, 'CHECKED INVALID\n' if proof.values is None else valid(problem, proof.values, constraint)
    except Refusal as refusal:
        return refusal.status, refusal.text + '\n'


def contents(name, most):
    """The bytes of a file, each as one character."""
    try:
        with open(name, 'rb') as file:
            found = file.read(most + 1)
    except OSError as error:
        sys.stderr.write(f'check_proof.py: {error}\n')
        raise Refusal(6, '') from None
    if len(found) > most:
        raise Refusal(9, 'refused: file too long')
    return found.decode('latin-1')


def put(text, status):
    """Prints a text and returns the status; where standard output takes no more, the rest is dropped, and the status is 7."""
    try:
        sys.stdout.write(text)
        sys.stdout.flush()
        return status
    except OSError:
        os.dup2(os.open(os.devnull, os.O_WRONLY), sys.stdout.fileno())
        return 7


def main(words):
    """Prints the answer, and returns the status."""
    if '--help' in words:
        return put(__doc__.strip() + '\n', 0)
    try:
        if len(words) != 2:
            raise Refusal(5, 'refused words')
        status, text = checked(contents(words[0], MOST_FILE), contents(words[1], MOST_PROOF))
    except Refusal as refusal:
        status, text = refusal.status, refusal.text and refusal.text + '\n'
    return put(text, status)


def run(job):
    """The status of a job on the words of the command line, with room for 2,000 levels of nodes over 2,000 levels of a formula."""
    status = []
    sys.setrecursionlimit(100_000)
    threading.stack_size(512 * 1024 * 1024)
    thread = threading.Thread(target=lambda: status.append(job(sys.argv[1:])))
    thread.start()
    thread.join()
    sys.stdout.flush()
    return status[0] if status else 70


if __name__ == '__main__':
    sys.exit(run(main))
