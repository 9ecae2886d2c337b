"""Families of problems of growing size, for the scripts of bench/: each function gives the text of a problem file."""
import math


def joined(formulas):
    return ' & '.join(formulas)


def row(letter, count):
    return [f'{letter}{i}' for i in range(count)]


def universal(names, formula, more=''):
    return f'\\universalConstants {{ int {", ".join(names)}; }}\n{more}\\problem {{ {formula} }}\n'


def existential(names, formula, kind='int'):
    return f'\\existentialConstants {{ {kind} {", ".join(names)}; }}\n\\problem {{ {formula} }}\n'


def applied(name, times, term):
    return f'{name}(' * times + term + ')' * times


ONE_FUNCTION = '\\functions { int f(int); }\n'


def equations(n):
    return universal(row('x', n + 1), f'{joined(f"x{i + 1} = x{i} + 1" for i in range(n))} -> x{n} = x0 + {n}')


def inequalities(n):
    return universal(row('x', n + 1), f'{joined(f"x{i} + 1 <= x{i + 1}" for i in range(n))} -> x0 + {n} <= x{n}')


def coins(a, b):
    return existential(['least'], f'\\forall int n; (n >= least -> \\exists int x, y; (x >= 0 & y >= 0 & n = {a}*x + {b}*y))')


def doubled(n):
    steps = joined(f'x{i + 1} = 2*x{i} + 1' for i in range(n))
    return f'\\problem {{ \\forall int {", ".join(row("x", n + 1))}; ({steps} -> \\exists int h; x{n} = 2*h + 1) }}\n'


def between(n):
    steps = joined(f'x{i} + 2 <= x{i + 1} & x{i + 1} <= x{i} + 3' for i in range(n))
    return existential(['low', 'high'], f'\\forall int {", ".join(row("x", n + 1))}; (x0 = 0 & {steps} -> low <= x{n} & x{n} <= high)')


def steps_of_two(target):
    return f'\\predicates {{ p(int); }}\n\\problem {{ p(0) & \\forall int x; (p(x) -> p(x + 2)) -> p({target}) }}\n'


def some_value():
    return '\\predicates { p(int); }\n\\problem { \\exists int x; p(x) }\n'


def nested(n):
    return universal(['x', 'y'], f'x = y -> {applied("f", n, "x")} = {applied("f", n, "y")}', ONE_FUNCTION)


def orbit(n):
    return universal(['a'], f'f(a) = a -> {applied("f", n, "a")} = a', ONE_FUNCTION)


def orbits(a, b):
    return universal(['a'], f'{applied("f", a, "a")} = a & {applied("f", b, "a")} = a -> f(a) = a', ONE_FUNCTION)


def bounds(n, last=''):
    parts = joined(f'(0 <= i{k} & i{k} < n & a(i{k}) <= b -> a(i{k}) + i{k} < b + n{last if k == n - 1 else ""})' for k in range(n))
    return universal(['n', 'b', *row('i', n)], parts, '\\functions { int a(int); }\n')


def one_bound_fails(n):
    """The bounds of an array, of which the last is one too low."""
    return bounds(n, ' - 1')


def array_bounds(n):
    wanted = joined(f'a(j) <= m + {i}' for i in range(n))
    return universal(['n', 'm', 'j'], f'\\forall int i; (0 <= i & i < n -> a(i) <= m) & 0 <= j & j < n -> {wanted}', '\\functions { int a(int); }\n')


def members(n):
    parts = ' | '.join(f'p({k})' for k in range(n - 1))
    return f'\\universalConstants {{ int c; }}\n\\predicates {{ p(int); }}\n\\problem {{ {parts} | !p(c) | c < 0 | c > {n - 2} }}\n'


def assumed_members(n):
    return f'\\predicates {{ p(int); }}\n\\problem {{ {joined(f"p({i})" for i in range(n))} -> p({n - 1}) }}\n'


def implications(n, backwards=False):
    steps = [f'(p{i} -> p{i + 1})' for i in range(n)]
    parts = [*reversed(steps), 'p0'] if backwards else ['p0', *steps]
    return f'\\predicates {{ {", ".join(row("p", n + 1))}; }}\n\\problem {{ {joined(parts)} -> p{n} }}\n'


def pigeons(n):
    same = ' | '.join(f'h{i} = h{j}' for i in range(n) for j in range(i))
    return universal(row('h', n), f'{joined(f"0 < {h} & {h} < {n}" for h in row("h", n))} -> {same}')


def equal_arguments(n):
    same = joined(f'x{i} = x{i + 1}' for i in range(n))
    return universal(row('x', n + 1), f'{same} -> g(g(x0)) = g(g(x{n}))', '\\functions { int g(int); }\n')


def writes(n, rest):
    """n writes to an array, one behind another; `rest` says what the k-th leaves as it is."""
    functions = '\\functions { ' + ' '.join(f'int m{k}(int);' for k in range(n + 1)) + ' }\n'
    steps = joined(f'm{k + 1}(j + {k}) = v + {k} & {rest(k)}' for k in range(n))
    return universal(['i', 'j', 'v'], f'{steps} & i > j + {n} -> m{n}(i) = m0(i)', functions)


def writes_by_instances(n):
    return writes(n, lambda k: f'(i != j + {k} -> m{k + 1}(i) = m{k}(i))')


def writes_by_quantifiers(n):
    return writes(n, lambda k: f'\\forall int k; (k != j + {k} -> m{k + 1}(k) = m{k}(k))')


def multiples(n):
    each = joined(f'\\exists int y{i}; x = {i}*y{i}' for i in range(2, n))
    return f'\\problem {{ \\forall int x; ({each} -> \\exists int z; x = {math.lcm(*range(2, n))}*z) }}\n'


def ring(m):
    given = joined(f'0 <= {x} & {x} < {m}' for x in 'htr') + f' & h + 1 = {m}*q + r & r != t'
    return universal(['h', 't', 'q', 'r'], f'{given} -> \\exists int n, k; (t - r + {m} = {m}*k + n & 0 < n & n < {m})')


def in_order(n):
    steps = joined(f'(x{i} <= x{i + 1} | x{i} + 1 <= x{i + 1})' for i in range(n - 1))
    return universal(row('x', n), f'{steps} -> x0 <= x{n - 1}')


def bits_by_disjunctions(n):
    return universal(row('x', n), f'{joined(f"({x} = 0 | {x} = 1)" for x in row("x", n))} -> {" + ".join(row("x", n))} <= {n}')


def bits_by_intervals(n):
    return universal(row('x', n), f'{joined(f"0 <= {x} & {x} <= 1" for x in row("x", n))} -> {" + ".join(row("x", n))} <= {n}')


def monotone():
    return ONE_FUNCTION + '\\problem { \\forall int x, y; (x <= y -> f(x) <= f(y)) & f(3) = 7 & f(5) = 7 -> f(4) = 7 & f(2) <= 7 }\n'


def idempotent():
    return universal(['a'], '\\forall int x; f(f(x)) = f(x) -> f(f(f(f(a)))) = f(f(a))', ONE_FUNCTION)


def transitive():
    return ('\\predicates { r(int, int); }\n'
            '\\problem { \\forall int x, y, z; (r(x, y) & r(y, z) -> r(x, z)) & r(0, 1) & r(1, 2) & r(2, 3) -> r(0, 3) }\n')


def one_swap(n):
    """A step that sorts the first two of n numbers, which does not sort all."""
    rest = joined(f'b({k}) = a({k})' for k in range(2, n))
    ordered = joined(f'b({k}) <= b({k + 1})' for k in range(n - 1))
    return f'\\functions {{ int a(int), b(int); }}\n\\problem {{ a(0) > a(1) & b(0) = a(1) & b(1) = a(0) & {rest} -> {ordered} }}\n'


def cancelled(n):
    """A congruence the wrong way round."""
    return universal(['x', 'y'], f'{applied("f", n, "x")} = {applied("f", n, "y")} -> x = y', ONE_FUNCTION)


def schedule(n):
    hours = [2, 3, 4, 2, 3][:n]
    within = [f'0 <= t{i} & t{i} + {hours[i]} <= {sum(hours)}' for i in range(n)]
    apart = [f'(t{i} + {hours[i]} <= t{j} | t{j} + {hours[j]} <= t{i})' for i in range(n) for j in range(i)]
    return existential(row('t', n), joined(within + apart))


def jobs(n):
    """n jobs on one machine, of 2, 3, 4, .. hours. The term `end` is the hour when the last one ends."""
    ends = joined(f's{i} + {i + 2} <= end' for i in range(n))
    apart = joined(f'(s{i} + {i + 2} <= s{j} | s{j} + {j + 2} <= s{i})' for i in range(n) for j in range(i))
    return existential([*row('s', n), 'end'], f'{ends} & {apart}', 'nat')


def priced(total):
    """Coins of 5 and 8 that make a sum. The term `7*a + 11*b` is what they weigh."""
    return existential(['a', 'b'], f'5*a + 8*b >= {total} & \\exists int k; 5*a + 8*b = {total} + 3*k', 'nat')


def differences(n):
    """A chain of n differences. The term is the way from its first name to its last."""
    steps = joined(f'x{i + 1} >= x{i} + {i % 3 + 1}' for i in range(n))
    return existential(row('x', n + 1), f'{steps} & x0 >= 0')


# What the scripts time: a name, and the text of the problem.
FAMILIES = ([(f'coins of {a} and {b}', coins(a, b)) for a, b in ((3, 5), (4, 7), (5, 8))]
            + [(f'doubled {n} times', doubled(n)) for n in (4, 8, 16)]
            + [(f'{n} steps of 2 or 3', between(n)) for n in (2, 4, 8)]
            + [('steps of two to 5', steps_of_two(5)), ('some value', some_value())]
            + [(f'{n} functions nested', nested(n)) for n in (10, 20, 40)]
            + [(f'{n} bounds of an array', bounds(n)) for n in (20, 60, 200)]
            + [(f'{n} members', members(n)) for n in (75, 150, 300)]
            + [(f'{n} implications', implications(n)) for n in (10, 20, 40)]
            + [(f'{n} implications backwards', implications(n, True)) for n in (10, 20, 40)]
            + [(f'{n} pigeons', pigeons(n)) for n in (4, 5)]
            + [(f'orbits of {a} and {b}', orbits(a, b)) for a, b in ((2, 3), (2, 5), (3, 4))]
            + [(f'{n} equal arguments', equal_arguments(n)) for n in (3, 5, 8)]
            + [(f'{n} writes to an array', writes_by_quantifiers(n)) for n in (2, 3, 4)]
            + [(f'multiples of 2 to {n - 1}', multiples(n)) for n in (6, 10, 14)]
            + [(f'a ring of {m}', ring(m)) for m in (6, 8)]
            + [(f'{n} in order', in_order(n)) for n in (4, 6)]
            + [('a monotone function', monotone()), ('an idempotent function', idempotent()), ('a transitive relation', transitive())])

# Problems with a counterexample.
FAILING = ([(f'one of {n} bounds fails', one_bound_fails(n)) for n in (5, 10, 20)]
           + [(f'{n} after one swap', one_swap(n)) for n in (3, 4, 6)]
           + [(f'{n} functions cancelled', cancelled(n)) for n in (1, 2)])

# Problems with a term whose least value is asked for.
LEAST = ([(f'{n} jobs on one machine', jobs(n), 'end') for n in (2, 3, 4, 5)]
         + [(f'coins for {total}', priced(total), '7*a + 11*b') for total in (40, 400, 4000)]
         + [(f'{n} differences', differences(n), f'x{n} - x0') for n in (8, 16, 32)])
