"""A plot of solved problems over time, as SVG: for each prover a line that says how many problems it solves within so many seconds each."""
import math

WIDTH, HEIGHT, LEFT, BOTTOM, TOP, RIGHT = 720, 420, 60, 50, 20, 150
COLOURS = ('#1b6ca8', '#c0392b', '#27864a', '#7d3c98')


def across(seconds, least, most):
    """Where a time stands, on a logarithmic axis."""
    share = math.log(max(seconds, least) / least) / math.log(most / least)
    return LEFT + share * (WIDTH - LEFT - RIGHT)


def up(count, most):
    return HEIGHT - BOTTOM - count / max(most, 1) * (HEIGHT - BOTTOM - TOP)


def line_of(times, least, longest, problems):
    """The points of a prover's line: a step up at each time."""
    points, count = [(across(least, least, longest), up(0, problems))], 0
    for time in sorted(times):
        points.append((across(time, least, longest), up(count, problems)))
        count += 1
        points.append((across(time, least, longest), up(count, problems)))
    points.append((across(longest, least, longest), up(count, problems)))
    return ' '.join(f'{x:.1f},{y:.1f}' for x, y in points)


def svg(title, problems, times, least=0.001, longest=10.0):
    """The plot; `times` has for each prover the seconds of the problems that it solves."""
    parts = [f'<svg xmlns="http://www.w3.org/2000/svg" width="{WIDTH}" height="{HEIGHT}" font-family="sans-serif" font-size="12">',
             f'<title>{title}</title>', f'<rect width="{WIDTH}" height="{HEIGHT}" fill="white"/>']
    for power in range(round(math.log10(least)), round(math.log10(longest)) + 1):
        x = across(10.0 ** power, least, longest)
        parts.append(f'<line x1="{x:.1f}" y1="{TOP}" x2="{x:.1f}" y2="{HEIGHT - BOTTOM}" stroke="#dddddd"/>')
        parts.append(f'<text x="{x:.1f}" y="{HEIGHT - BOTTOM + 18}" text-anchor="middle">{10.0 ** power:g} s</text>')
    for step in range(5):
        count = problems * step // 4
        y = up(count, problems)
        parts.append(f'<line x1="{LEFT}" y1="{y:.1f}" x2="{WIDTH - RIGHT}" y2="{y:.1f}" stroke="#dddddd"/>')
        parts.append(f'<text x="{LEFT - 8}" y="{y + 4:.1f}" text-anchor="end">{count}</text>')
    for place, (name, seconds) in enumerate(times.items()):
        colour, y = COLOURS[place % len(COLOURS)], TOP + 14 + 20 * place
        parts.append(f'<polyline fill="none" stroke="{colour}" stroke-width="2" points="{line_of(seconds, least, longest, problems)}"/>')
        parts.append(f'<line x1="{WIDTH - RIGHT + 14}" y1="{y - 4}" x2="{WIDTH - RIGHT + 38}" y2="{y - 4}" stroke="{colour}" stroke-width="2"/>')
        parts.append(f'<text x="{WIDTH - RIGHT + 44}" y="{y}">{name}: {len(seconds)}</text>')
    parts.append(f'<text x="{(LEFT + WIDTH - RIGHT) / 2}" y="{HEIGHT - 12}" text-anchor="middle">processor time for each problem; problems solved</text>')
    return '\n'.join([*parts, '</svg>']) + '\n'
