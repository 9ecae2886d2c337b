"""Problems in the style of program verifiers, for bench/power: each function yields the names and the texts of one family."""
from problems import applied, joined, row, universal


def functions(*signatures):
    return f'\\functions {{ int {", ".join(signatures)}; }}\n'


def predicates(*signatures):
    return f'\\predicates {{ {"; ".join(signatures)}; }}\n'


def grouped(formulas):
    return joined(f'({formula})' for formula in formulas)


def stored(after, before, place, value):
    """The function `after` is the function `before` with this value at this place."""
    return f'{after}({place}) = {value} & \\forall int k; (k != {place} -> {after}(k) = {before}(k))'


def writes():
    """Chains of writes to an array, and a read at a place that none of them touches, that the first one does, or that one may."""
    for n in (2, 4, 6, 10, 14, 20):
        names = row('i', n) + row('v', n) + ['j']
        arrays = functions(*(f'm{k}(int)' for k in range(n + 1)))
        steps = grouped(stored(f'm{k + 1}', f'm{k}', f'i{k}', f'v{k}') for k in range(n))
        for name, more, end in [
                ('untouched', joined(f'j != i{k}' for k in range(n)), f'm{n}(j) = m0(j)'),
                ('last', joined(['j = i0', *(f'i{k} > i0' for k in range(1, n))]), f'm{n}(j) = v0'),
                ('bad', joined(f'j >= i{k}' for k in range(n)), f'm{n}(j) = m0(j)')]:
            yield f'{name}_{n:02}', universal(names, f'{steps} & {more} -> {end}', arrays)


def swaps():
    """Swaps of two cells, each through a variable and two writes."""
    for n in (2, 3, 4):
        names = ['i', 'j', *row('t', n)]
        arrays = functions(*(f'a{k}(int)' for k in range(2 * n + 1)))
        steps = []
        for k in range(n):
            first, middle, last = f'a{2 * k}', f'a{2 * k + 1}', f'a{2 * k + 2}'
            steps += [f't{k} = {first}(i)', stored(middle, first, 'i', f'{first}(j)'), stored(last, middle, 'j', f't{k}')]
        i, j = ('i', 'j') if n % 2 == 0 else ('j', 'i')
        yield f'swap_{n}', universal(names, f'{grouped(steps)} -> a{2 * n}(i) = a0({i}) & a{2 * n}(j) = a0({j})', arrays)
        yield f'bad_{n}', universal(names, f'{grouped(steps)} -> a{2 * n}(i) = a0({j})', arrays)


def sorted_arrays():
    """Steps of binary search, insertion, partition and merge, with sortedness as a quantified assumption."""
    ordered = '\\forall int x, y; (lo <= x & x <= y & y <= hi -> a(x) <= a(y))'
    search = f'{ordered} & lo <= mid & mid <= hi & lo <= p & p <= hi & a(p) = k'
    names = ['lo', 'hi', 'mid', 'k', 'p']
    yield 'search_left', universal(names, f'{search} & a(mid) < k -> mid < p', functions('a(int)'))
    yield 'search_right', universal(names, f'{search} & a(mid) > k -> p < mid', functions('a(int)'))
    yield 'search_bad', universal(names, f'{search} & a(mid) <= k -> mid < p', functions('a(int)'))
    longer = '\\forall int x, y; (lo <= x & x <= y & y <= hi + 1 -> b(x) <= b(y))'
    for name, end in (('extend', 'hi'), ('extend_bad', 'lo')):
        step = f'{ordered} & lo <= hi & ({stored("b", "a", "hi + 1", "v")}) & a({end}) <= v'
        yield name, universal(['lo', 'hi', 'v'], f'{step} -> {longer}', functions('a(int)', 'b(int)'))
    below, above = '(\\forall int x; (lo <= x & x < i -> a(x) <= p))', '(\\forall int x; (i <= x & x < j -> a(x) > p))'
    moved = f't = a(i) & ({stored("b", "a", "i", "a(j)")}) & ({stored("c", "b", "j", "t")})'
    for name, end in (('partition', 'i + 1'), ('partition_bad', 'i')):
        parts = f'(\\forall int x; (lo <= x & x < i + 1 -> c(x) <= p)) & (\\forall int x; ({end} <= x & x < j + 1 -> c(x) > p))'
        yield name, universal(['lo', 'i', 'j', 'p', 't'], f'lo <= i & i <= j & {below} & {above} & a(j) <= p & {moved} -> {parts}', functions('a(int)', 'b(int)', 'c(int)'))
    least = '(\\forall int x; (0 <= x & x < i -> m <= a(x)))'
    yield 'least', universal(['n', 'i', 'm'], f'0 <= i & i < n & {least} -> \\forall int x; (0 <= x & x <= i -> \\min(m, a(i)) <= a(x))', functions('a(int)'))
    local = '(\\forall int x; (0 <= x & x < n - 1 -> a(x) <= a(x + 1)))'
    yield 'local', universal(['n', 'm'], f'{local} & 0 <= m & m + 4 < n -> a(m) <= a(m + 4)', functions('a(int)'))


def networks():
    """Networks that sort by minima and maxima, whole and without their last comparison, and the sum that they keep."""
    for n, pairs in ((3, [(0, 1), (1, 2), (0, 1)]), (4, [(0, 1), (2, 3), (0, 2), (1, 3), (1, 2)]),
                     (5, [(0, 1), (3, 4), (2, 4), (2, 3), (1, 4), (0, 3), (0, 2), (1, 3), (1, 2)])):
        for name, used in (('sorts', pairs), ('fails', pairs[:-1]), ('sum', pairs)):
            present = [f'x{i}_0' for i in range(n)]
            first, names, steps = list(present), list(present), []
            for step, (i, j) in enumerate(used, 1):
                low, high = f'x{i}_{step}', f'x{j}_{step}'
                steps.append(f'{low} = \\min({present[i]}, {present[j]}) & {high} = \\max({present[i]}, {present[j]})')
                names += [low, high]
                present[i], present[j] = low, high
            end = f'{" + ".join(present)} = {" + ".join(first)}' if name == 'sum' else joined(f'{s} <= {t}' for s, t in zip(present, present[1:]))
            yield f'{name}_{n}', universal(names, f'{grouped(steps)} -> {end}')


def conditions():
    """Loops of conditions, each of which counts one of two counters up."""
    for n in (4, 8, 12, 16, 24):
        steps = joined(f'(c{i} > 0 & x{i + 1} = x{i} + 1 & y{i + 1} = y{i} | c{i} <= 0 & x{i + 1} = x{i} & y{i + 1} = y{i} + 1)' for i in range(n))
        names = row('x', n + 1) + row('y', n + 1) + row('c', n)
        for name, end in (('sum', f'x{n} + y{n} = {n}'), ('range', f'0 <= x{n} & x{n} <= {n}'), ('bad', f'x{n} + 2*y{n} < {2 * n - 1}')):
            yield f'{name}_{n:02}', universal(names, f'x0 = 0 & y0 = 0 & {steps} -> {end}')


def unrollings():
    """Unrolled steps of a counter with two modes."""
    for n in (5, 10, 15, 20, 30, 40):
        steps = joined(
            f'(m{i} = 0 & x{i} < 5 & x{j} = x{i} + 1 & y{j} = y{i} & m{j} = 0 | m{i} = 0 & x{i} >= 5 & m{j} = 1 & x{j} = x{i} & y{j} = y{i}'
            f' | m{i} = 1 & y{i} < x{i} & y{j} = y{i} + 2 & x{j} = x{i} & m{j} = 1 | m{i} = 1 & y{i} >= x{i} & x{j} = 0 & y{j} = 0 & m{j} = 0)'
            for i, j in ((k, k + 1) for k in range(n)))
        names = row('x', n + 1) + row('y', n + 1) + row('m', n + 1)
        for name, most in (('modes', 6), ('bad', 4)):
            yield f'{name}_{n:02}', universal(names, f'x0 = 0 & y0 = 0 & m0 = 0 & {steps} -> y{n} <= {most}')


def schedules():
    """Jobs on one machine, in one unit less than they take together, and in just as much."""
    for n in (4, 5, 6, 7, 8, 10, 12):
        lengths = [2 + 3 * i % 4 for i in range(n)]
        for name, slack in (('none', -1), ('fits', 0)):
            times = [f'0 <= s{i} & s{i} + {lengths[i]} <= {sum(lengths) + slack}' for i in range(n)]
            apart = [f'(s{i} + {lengths[i]} <= s{j} | s{j} + {lengths[j]} <= s{i})' for i in range(n) for j in range(i)]
            yield f'{name}_{n:02}', universal(row('s', n), f'!({joined(times + apart)})')


def chains():
    """Chains of implications over predicates and over bounds, and of steps by one or two."""
    for n in (10, 50, 100, 200):
        names = row('x', n + 1)
        rules = joined(f'(p{i} -> p{i + 1})' for i in reversed(range(n)))
        yield f'rules_{n:03}', f'{predicates(*row("p", n + 1))}\\problem {{ p0 & {rules} -> p{n} }}\n'
        yield f'bounds_{n:03}', universal(names, f'x0 >= 0 & {joined(f"(x{i} >= {i} -> x{i + 1} >= x{i} + 1)" for i in range(n))} -> x{n} >= {n}')
        steps = joined(f'(x{i + 1} = x{i} + 1 | x{i + 1} = x{i} + 2)' for i in range(n))
        yield f'steps_{n:03}', universal(names, f'{steps} -> x{n} <= x0 + {2 * n}')
        yield f'steps_bad_{n:03}', universal(names, f'{steps} -> x{n} < x0 + {2 * n}')


def orbits():
    """A function applied many times: its orbits, equal arguments, a known step, monotony, and chains of equations by cases."""
    one = functions('f(int)')
    for a, b in ((3, 5), (5, 8), (7, 12), (9, 25), (13, 30)):
        yield f'orbit_{a:02}_{b:02}', universal(['a'], f'{applied("f", a, "a")} = a & {applied("f", b, "a")} = a -> f(a) = a', one)
    for n in (3, 8, 15, 30):
        yield f'equal_{n:02}', universal(['a', 'b'], f'a = b -> {applied("f", n, "a")} = {applied("f", n, "b")}', one)
        yield f'equal_bad_{n:02}', universal(['a', 'b'], f'f(a) = b -> {applied("f", n, "a")} = {applied("f", n, "b")}', one)
        yield f'shift_{n:02}', universal(['a'], f'(\\forall int x; f(x) = x + 1) -> {applied("f", n, "a")} = a + {n}', one)
        rises = '(\\forall int x, y; (x <= y -> f(x) <= f(y)))'
        yield f'rises_{n:02}', universal(['a', 'b'], f'{rises} & a <= b -> {applied("f", n, "a")} <= {applied("f", n, "b")}', one)
        cases = joined(f'(x{i} = y{i} & y{i} = x{i + 1} | x{i} = z{i} & z{i} = x{i + 1})' for i in range(n))
        yield f'diamonds_{n:02}', universal(row('x', n + 1) + row('y', n) + row('z', n), f'{cases} -> x0 = x{n}')


def relations():
    """Axioms of relations and functions: transitivity, induction, inverses, lists and stacks."""
    for n in (3, 6, 10, 20):
        transitive = '(\\forall int x, y, z; (r(x, y) & r(y, z) -> r(x, z)))'
        yield f'transitive_{n:02}', f'{predicates("r(int, int)")}\\problem {{ {transitive} & {joined(f"r({i}, {i + 1})" for i in range(n))} -> r(0, {n}) }}\n'
        yield f'induction_{n:02}', f'{predicates("p(int)")}\\problem {{ p(0) & (\\forall int x; (p(x) -> p(x + 1))) -> p({n}) }}\n'
    yield 'inverse', universal(['a', 'b'], '(\\forall int x; g(f(x)) = x) & f(a) = f(b) -> a = b', functions('f(int)', 'g(int)'))
    linked = '(\\forall int x; (list(x) & x != 0 -> list(next(x)))) & list(p) & p != 0 & next(p) != 0'
    yield 'frame', universal(['p', 'q', 'v'], f'{linked} & after(q) = v & (\\forall int x; (x != q -> after(x) = next(x))) & q != p -> list(after(p))',
                             functions('next(int)', 'after(int)') + predicates('list(int)'))
    stack = '(\\forall int a, b; pop(push(a, b)) = a) & (\\forall int a, b; top(push(a, b)) = b) & (\\forall int a, b; size(push(a, b)) = size(a) + 1)'
    yield 'stack', universal(['s', 'x', 'y'], f'{stack} -> top(pop(push(push(s, x), y))) = x & size(push(push(s, x), y)) = size(s) + 2',
                             functions('push(int, int)', 'pop(int)', 'top(int)', 'size(int)'))


def integers():
    """Sums of even numbers, boxes, knapsacks and divisions."""
    for n in (3, 6, 10):
        names = row('x', n)
        yield f'even_{n:02}', universal(names, f'{" + ".join(f"{2 * i + 4}*x{i}" for i in range(n))} != {2 * n + 1}')
        box = joined(f'0 <= x{i} & x{i} <= 3' for i in range(n))
        yield f'box_{n:02}', universal(names, f'{box} -> {" + ".join(f"{6 + 4 * i}*x{i}" for i in range(n))} != {4 * n + 3}')
        weights = [12 + 5 * i + i * i for i in range(n)]
        taken = joined(f'0 <= x{i} & x{i} <= 1' for i in range(n))
        yield f'knapsack_{n:02}', universal(names, f'{taken} -> {" + ".join(f"{w}*x{i}" for i, w in enumerate(weights))} != {11 + sum(weights[::2])}')
    digits = 'x = 10*q + r & 0 <= r & r < 10 & q = 10*s + t & 0 <= t & t < 10 & x >= 0 & x < 100'
    yield 'digits', universal(['x', 'q', 'r', 's', 't'], f'{digits} -> s = 0 & x = 10*t + r')
    yield 'residues', universal(['x', 'y', 'h', 'k', 'l'], 'x = 17*h + k & 0 <= k & k < 17 & y = 17*l + k & x < y & y < x + 17 -> false')
    yield 'shadow', universal(['x', 'y'], '27 <= 11*x + 13*y & 11*x + 13*y <= 45 & -10 <= 7*x - 9*y & 7*x - 9*y <= 4 -> false')


FAMILIES = [writes, swaps, sorted_arrays, networks, conditions, unrollings, schedules, chains, orbits, relations, integers]
