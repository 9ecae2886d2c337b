"""A problem of this prover as a script of SMT-LIB 2.6, for runs beside other provers: the script is unsat where the problem holds.

Problems without existential constants alone have one. Names are quoted, since they may be words of SMT-LIB.
"""
import os
import sys

import runs

sys.path.insert(0, os.path.join(runs.HOME, 'clients'))
from proof_problem import ProblemReader, Typing  # noqa: E402

SIGNS = {'&': 'and', '|': 'or', '->': '=>', '<->': '=', '!': 'not', '=': '=', '<': '<', '<=': '<=', '>': '>', '>=': '>=', '*': '*', '-': '-'}


def applied(word, parts):
    return f'({word} {" ".join(parts)})'


def numeral(number):
    return str(number) if number >= 0 else f'(- {-number})'


def conditions(name, bounds):
    """What a type says of a name."""
    found = []
    if bounds.least is not None:
        found.append(f'(>= |{name}| {numeral(bounds.least)})')
    if bounds.greatest is not None:
        found.append(f'(<= |{name}| {numeral(bounds.greatest)})')
    return found


def bound(phrase):
    """The term of a quantified phrase."""
    body = term(phrase.parts[0])
    said = [one for name, bounds in phrase.value for one in conditions(name, bounds)]
    if said:
        body = applied('=>', [applied('and', said), body]) if phrase.word == '\\forall' else applied('and', [*said, body])
    binders = ' '.join(f'(|{name}| Int)' for name, _ in phrase.value)
    return f'({phrase.word[1:]} ({binders}) {body})'


def summed(phrase, parts):
    """The term of a sum, with its signs."""
    text = parts[0]
    for sign, part in zip(phrase.value[1:], parts[1:]):
        text = applied('+' if sign == 1 else '-', [text, part])
    return text


def term(phrase):
    """The term of a phrase."""
    word = phrase.word
    if word in ('\\forall', '\\exists'):
        return bound(phrase)
    if word in ('true', 'false'):
        return word
    if word == 'number':
        return numeral(phrase.value)
    parts = [term(part) for part in phrase.parts]
    if word == 'name':
        return applied(f'|{phrase.value}|', parts) if parts else f'|{phrase.value}|'
    if word == '\\part':
        return parts[0]
    if word == '+':
        return summed(phrase, parts)
    if word == '!=':
        return applied('not', [applied('=', parts)])
    if word == '\\if':
        return applied('ite', parts)
    if word == '\\abs':
        return f'(ite (>= {parts[0]} 0) {parts[0]} (- {parts[0]}))'
    if word in ('\\min', '\\max'):
        first, second = parts
        return f'(ite ({"<=" if word.endswith("min") else ">="} {first} {second}) {first} {second})'
    return applied(SIGNS[word], parts)


def script(text):
    """The script of a problem's text, None where the problem has existential constants."""
    problem = Typing(ProblemReader(text).read()).problem()
    if problem.existentials:
        return None
    lines = ['(set-logic ALL)']
    for one in problem.symbols.values():
        sort = 'Bool' if one.role == 'predicate' else 'Int'
        lines.append(f'(declare-fun |{one.name}| ({" ".join(["Int"] * one.arity)}) {sort})')
    for constant in problem.universals:
        lines += [f'(assert {one})' for one in conditions(constant.name, constant.bounds)]
    lines += [f'(assert (not {term(problem.formula)}))', '(check-sat)']
    return '\n'.join(lines) + '\n'
