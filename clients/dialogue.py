#!/usr/bin/env python3
"""Holds a dialogue with the solver at the end of a pipe: `dialogue.py [PROGRAM]`, where PROGRAM is `princess` if none is named.

Each command is written, and its answer read before the next one: with `:print-success` each command has an answer.
"""
import subprocess
import sys


class Solver:
    """`princess smt -`, which answers each command as it comes."""

    def __init__(self, program='princess'):
        self.child = subprocess.Popen([program, 'smt', '-'], stdin=subprocess.PIPE, stdout=subprocess.PIPE, text=True, bufsize=1)
        self.ask('(set-option :print-success true)')

    def ask(self, command):
        """The answer to a command that is answered by one line."""
        self.child.stdin.write(command + '\n')
        answer = self.child.stdout.readline().rstrip('\n')
        if answer.startswith('(error'):
            raise ValueError(f'{command}: {answer}')
        return answer


solver = Solver(*sys.argv[1:])
solver.ask('(declare-const x Int)')
solver.ask('(assert (<= 0 x 100))')
low, high = 0, 100
while low < high:
    # The least x that is divisible by 7 and by 5 after 3 more, by halves.
    middle = (low + high) // 2
    solver.ask('(push 1)')
    solver.ask(f'(assert (and (= (mod x 7) 0) (= (mod (+ x 3) 5) 0) (<= x {middle})))')
    is_low = solver.ask('(check-sat)') == 'sat'
    solver.ask('(pop 1)')
    low, high = (low, middle) if is_low else (middle + 1, high)
print(low)
solver.ask('(exit)')
