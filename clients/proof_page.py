#!/usr/bin/env python3
"""Writes a page that shows a proof beside its problem, to be read in a browser.

    proof_page.py FILE PROOF > page.html

FILE is a problem's file and PROOF a proof of it in any of the three formats (docs/PROOFS.md), or the whole output of `solve --proof`. A
proof tree is shown as a tree whose nodes open and close, each with its rule and the constraint that it gives. Of a clause proof each
line is shown with the variables, constants and clauses that it makes, and with links to those that it uses; a variable or a clause that
is pointed at says what it is. The page needs no network and no script.

The proof is checked while it is read (check_proof.py). A proof that is refused has no page: the refusal goes to standard error, and the
status is that of `check`.
"""
import html
import sys

import check_proof
from check_proof import Checker, ProofReader, behind_marker, contents, printed_constraint, printed_term, read_problem
from proof_clauses import ClauseProof, ClauseReader, is_clause_text, levels, symbol_numbers
from proof_preparation import prepared_root
from proof_problem import Fault, Refusal

STYLE = '''body { font: 15px/1.5 system-ui, sans-serif; margin: 0; color: #1d2733; background: #fbfbf9 }
main { display: grid; grid-template-columns: minmax(16em, 26em) 1fr; gap: 2em; padding: 1.5em 2em }
h1 { font-size: 1.25em; margin: 1em 2em 0 } h2 { font-size: 1em; margin: 0 0 .5em }
pre, code, .line, summary, li { font-family: ui-monospace, monospace; font-size: 13px } pre { white-space: pre-wrap; margin: 0 }
section { min-width: 0 } .problem { position: sticky; top: 1em; align-self: start; max-height: 95vh; overflow: auto }
.line { padding: .15em .4em; border-left: 3px solid #d7dde4 } .line:target, :target > code { background: #fff3c4 }
.number { color: #8894a2; display: inline-block; min-width: 3.5em } .word { color: #0b5c8e; font-weight: 600 }
.made { display: block; margin-left: 4em; color: #4a5663 } a { color: inherit; text-decoration: underline dotted }
details { margin-left: 1.2em } details > div { margin-left: 1.2em; color: #4a5663 } summary { cursor: pointer } .end { background: #dff3e2 }'''


def escaped(text):
    return html.escape(text, quote=True)


def linked(kind, number, text, title=''):
    """A link to the place where a variable or a clause is made."""
    return f'<a href="#{kind}{number}" title="{escaped(title)}">{escaped(text)}</a>'


# ---- clause proofs

class Names:
    """How terms, formulas and literals of a clause proof are written."""

    def __init__(self, problem):
        numbers = symbol_numbers(problem)
        self.functions = {numbers[name]: name for name, one in problem.symbols.items() if one.role == 'function'}
        self.predicates = {numbers[name]: name for name, one in problem.symbols.items() if one.role == 'predicate'}

    def term(self, term):
        return printed_term(term, [f'c{name}' for name in range(1 + max((name for name, _ in term.monomials), default=0))])

    def applied(self, name, terms):
        return f'{name}({", ".join(map(self.term, terms))})' if terms else name

    def definition(self, one):
        if one.kind == 'always':
            return 'true'
        if one.kind == 'holds':
            return self.applied(self.predicates.get(one.symbol, f'predicate {one.symbol}'), one.arguments)
        if one.kind == 'closure':
            kinds = {'and': 'a conjunction', 'or': 'a disjunction', 'all': 'a for-all', 'some': 'a for-some'}
            at = ', '.join(map(self.term, one.arguments))
            return f'{kinds.get(one.formula.kind, "an atom")} of the formula' + (f' at {at}' if at else '')
        return f'{self.term(one.term)} {one.kind} 0'

    def literal(self, proof, one):
        told = self.definition(proof.definitions[one.variable])
        text = ('' if one.positive else 'not ') + (told if one.positive or ' ' not in told else f'({told})')
        return linked('v', one.variable, ('+' if one.positive else '-') + str(one.variable), text)

    def clause(self, proof, clause):
        return ' or '.join(self.literal(proof, one) for one in clause) or '<b>the empty clause</b>'


def uses(word, values):
    """The clauses that a line names, to be linked."""
    return values[-1] if word in ('resolve', 'delete') else []


def made(names, proof, before):
    """What a line made: variables, constants and clauses behind those that were there before."""
    variables, count, clauses = before
    for number in range(variables, len(proof.definitions)):
        yield f'<span class="made" id="v{number}">variable {number}: {escaped(names.definition(proof.definitions[number]))}</span>'
    for number in range(count, proof.count):
        yield f'<span class="made">constant c{number}</span>'
    for number in range(clauses, len(proof.clauses)):
        text = names.clause(proof, proof.clauses[number])
        yield f'<span class="made{" end" if proof.clauses[number] == () else ""}" id="k{number}">clause {number}: {text}</span>'


def state_of(proof):
    return len(proof.definitions), proof.count, len(proof.clauses)


def shown_line(number, text, links, makes):
    """A line of the page."""
    word, _, rest = text.partition(' ')
    used = f' <span>uses {" ".join(linked("k", one, str(one)) for one in links)}</span>' if links else ''
    return f'<div class="line" id="l{number}"><span class="number">{number}</span><span class="word">{word}</span> {escaped(rest)}{used}{"".join(makes)}</div>'


def clause_page(problem, formula, text, place):
    """The lines of a clause proof, each with what it makes."""
    reader, names = ClauseReader(text, place), Names(problem)
    most, steps, values, root = reader.head()
    proof, number = ClauseProof(symbol_numbers(problem), most), 3
    try:
        proof.purse.pay(steps and steps + formula.size * levels(formula))
        number = 4
        if len(values) != len(problem.existentials):
            raise Fault('line')
        number = 5
        proof.begin(prepared_root(len(values), formula, steps), values, root)
        head = text[place:reader.place].splitlines()
        for before, one in enumerate(head[:-1], 1):
            yield shown_line(before, one, [], [])
        yield shown_line(5, head[-1], [], made(names, proof, (0, 0, 0)))
        while not reader.is_ended():
            number += 1
            start, before = reader.place, state_of(proof)
            word, behind = reader.line()
            proof.step(word, behind)
            yield shown_line(number, text[start:reader.place].rstrip('\n'), uses(word, behind), made(names, proof, before))
        number += 1
        if not proof.is_ended():
            raise Fault('line')
    except Fault as fault:
        raise Refusal(4, f'refused proof: {fault} {number}') from None


# ---- proof trees

def tree_page(problem, formula, text, place):
    """The nodes of a proof tree."""
    proof = ProofReader(text, place).read()
    Checker(formula, len(problem.existentials), proof).check()
    names = [f'c{number}' for number in range(10_000)]
    yield from shown_node(proof.root, names)
    if proof.values is None:
        yield '<div class="line end">no values of the existential constants solve the constraint</div>'
    else:
        yield f'<div class="line end">solution: {escaped(", ".join(map(str, proof.values)) or "no existential constants")}</div>'


def shown_node(root, names):
    """A node with the nodes below it. The list of what is left keeps the depth of the page off the stack."""
    left = [root]
    while left:
        node = left.pop()
        if isinstance(node, str):
            yield node
            continue
        rule = node.rule if node.rule == 'close' else f'{node.rule} of member {node.position}'
        gives = printed_constraint(node.gives, names, 0)
        yield f'<details open><summary id="n{node.number}"><span class="number">{node.number}</span><span class="word">{rule}</span> gives {escaped(gives)}</summary>'
        if node.log:
            yield f'<div>eliminated in {len(node.log)} steps</div>'
        left += ['</details>', *reversed(node.premises)]


def page(problem_text, proof_text):
    """The page, part by part; what is wrong comes before the first part."""
    problem, formula = read_problem(problem_text)
    place = behind_marker(proof_text)
    show = clause_page if is_clause_text(proof_text, place) else tree_page
    parts = list(show(problem, formula, proof_text, place))
    yield f'<!doctype html><html lang="en"><meta charset="utf-8"><title>A proof</title><style>{STYLE}</style>'
    yield f'<h1>A proof, checked</h1><main><section class="problem"><h2>The problem</h2><pre>{escaped(problem_text)}</pre></section><section><h2>The proof</h2>'
    yield from parts
    yield '</section></main></html>'


def main(words):
    """Writes the page, and returns the status."""
    if '--help' in words or len(words) != 2:
        sys.stderr.write(__doc__)
        return 0 if '--help' in words else 5
    try:
        parts = list(page(contents(words[0], check_proof.MOST_FILE), contents(words[1], check_proof.MOST_PROOF)))
    except Refusal as refusal:
        sys.stderr.write(f'{refusal.text}\n')
        return refusal.status
    sys.stdout.reconfigure(encoding='utf-8')
    sys.stdout.write('\n'.join(part.encode('latin-1', 'replace').decode('utf-8', 'replace') for part in parts) + '\n')
    return 0


if __name__ == '__main__':
    sys.exit(check_proof.run(main))
