#!/usr/bin/env python3
"""Texts made to be slow for the rules on copies, and families of gen_front.py with their directives in parentheses.

  hard_front.py list                          the texts: bytes, tokens, and what each is after
  hard_front.py text NAME SHARE [OUT]         an accepted text that fills SHARE (such as 1/8 or 1) of the limits
  hard_front.py measure XMPC [--runs N] [NAME..]

`measure` runs `xmpc check`: processor milliseconds (the least of N runs, 3 where nothing else is said) at 1/8, 1/4, 1/2 and all of
the limits, the exponent of the growth between the last two (an empty program's time left out), and seconds of the clock and MB at
the limits. A family with directives is measured in brackets and in parentheses. Exit status 1 where a text isn't accepted."""
import math
import os
import re
import subprocess
import sys
import tempfile
import time
from fractions import Fraction

sys.path.insert(0, os.path.dirname(os.path.abspath(__file__)))
import gen_front  # noqa: E402


def heads(n):
    return ''.join('for (i%d = 0; i%d < 2; i%d++) ' % (j, j, j) for j in range(n))


def indices(n):
    return 'int i0' + ''.join(', i%d' % j for j in range(1, n)) + ';\n'


def deep_ifs(k):
    """120 counted loops one in the other round as many `if (s) v = 1;` as fit"""
    return 'int s, v;\n' + indices(120) + 'int main() {\n' + heads(120) + '{\n' + '  if (s) v = 1;\n' * k + '}\n}\n'


def deep_tasks(k):
    """120 counted loops round pairs of a task that writes v and its bcast"""
    return ('#pragma xmp nodes p[4]\nint v;\n' + indices(120) + 'int main() {\n' + heads(120) + '{\n'
            + ''.join('#pragma xmp task on p[%d]\n  v = %d;\n#pragma xmp bcast (v) from p[%d]\n' % (i % 4, i, i % 4) for i in range(k))
            + '}\n}\n')


def nests_arrays(k):
    """80 nests of 120 loops that read 1,000 arrays"""
    o = [''.join('int a%d[1];\n' % j for j in range(1000)) + 'int s;\n' + indices(120) + 'int main() {\n']
    at = 0
    for n in range(80):
        o.append(heads(120) + '{\n')
        for i in range(k):
            o.append('  s = a%d[0];\n' % (at % 1000))
            at += 1
        o.append('}\n')
    return ''.join(o) + '}\n'


def row_loops(k):
    """loops in a row"""
    return 'int i, v;\nint main() {\n' + ''.join('  for (i = 0; i < %d; i++) v = i;\n' % (i % 9) for i in range(k)) + '}\n'


def row_loops_tasks(k):
    """loops in a row, each round a task and a bcast of a scalar of its own"""
    return ('#pragma xmp nodes p[4]\nint i;\n' + ''.join('int v%d;\n' % i for i in range(k)) + 'int main() {\n'
            + ''.join('  for (i = 0; i < 2; i++) {\n#pragma xmp task on p[%d]\n  v%d = v%d + 1;\n#pragma xmp bcast (v%d) from p[%d]\n  }\n'
                      % (i % 4, i, i, i, i % 4) for i in range(k)) + '}\n')


def scalars_loops(k):
    """30,000 scalars, then one-line loop directives up to the limit"""
    return ('int i;\nint v0' + ''.join(', v%d' % j for j in range(1, 30000)) + ';\n#pragma xmp nodes p[4]\n#pragma xmp template t[8]\n'
            '#pragma xmp distribute t[block] onto p\nint main() {\n'
            + ''.join('#pragma xmp loop (i) on t[i]\nfor (i = 0; i < 8; i++) v%d = i;\n' % (i * 7 % 30000) for i in range(k)) + '}\n')


def many_shadows(k):
    """1,000 shadows reflected and read at an offset"""
    o = ['#pragma xmp nodes p[4]\n#pragma xmp template t[8]\n#pragma xmp distribute t[block] onto p\nint i, s;\n']
    for j in range(1000):
        o.append('int a%d[8];\n#pragma xmp align a%d[x] with t[x]\n#pragma xmp shadow a%d[1]\n' % (j, j, j))
    o.append('int main() {\n')
    for i in range(k):
        j = i % 1000
        o.append('#pragma xmp reflect (a%d)\n#pragma xmp loop (i) on t[i] reduction(+:s)\nfor (i = 1; i < 7; i++) s += a%d[i - 1] + a%d[i + 1];\n' % (j, j, j))
    return ''.join(o) + '}\n'


def one_body(k):
    """one loop directive with all tokens in its body"""
    o = ['int u[64], v[64], i, s, x, y;\n#pragma xmp nodes p[4]\n#pragma xmp template t[64]\n#pragma xmp distribute t[block] onto p\n'
         '#pragma xmp align u[q] with t[q]\n#pragma xmp align v[q] with t[q]\n#pragma xmp shadow u[1]\nint main() {\n'
         '#pragma xmp loop (i) on t[i] reduction(+:s)\nfor (i = 1; i < 63; i++) {\n  x = i;\n']
    for i in range(k):
        o.append('  if (i > %d) y = x; else y = i;\n  v[i] = u[i - 1] + y * x; s += u[i + 1];\n' % (i % 60))
    return ''.join(o) + '}\n}\n'


def one_body_many(k):
    """one loop directive whose body writes as many scalars as fit"""
    o = ['int i' + ''.join(', v%d' % j for j in range(k)) + ';\n#pragma xmp nodes p[4]\n#pragma xmp template t[64]\n'
         '#pragma xmp distribute t[block] onto p\nint main() {\n#pragma xmp loop (i) on t[i]\nfor (i = 1; i < 63; i++) {\n  v0 = i;\n']
    for j in range(1, k):
        o.append('  v%d = v%d;\n' % (j, j // 2))
    return ''.join(o) + '}\n}\n'


def else_ifs(k):
    """`else if` 60 deep, again and again"""
    o = ['int a, b;\nint main() {\n']
    for i in range(k):
        o.append('  ' + ''.join('if (a == %d) b = %d; else ' % (j, j) for j in range(60)) + 'b = %d;\n' % i)
    return ''.join(o) + '}\n'


def else_ifs_tasks(k):
    """`else if` 60 deep round tasks on scalars of their own, again and again"""
    o = ['#pragma xmp nodes p[4]\nint a;\n' + 'int b0' + ''.join(', b%d' % j for j in range(1, 60)) + ';\nint main() {\n']
    for i in range(k):
        o.append('  ' + ''.join('if (a == %d)\n#pragma xmp task on p[%d]\n b%d = %d;\nelse ' % (j, j % 4, j, j) for j in range(60)) + ';\n')
    return ''.join(o) + '}\n'


HARD = [deep_ifs, deep_tasks, nests_arrays, row_loops, row_loops_tasks, scalars_loops, many_shadows, one_body, one_body_many,
        else_ifs, else_ifs_tasks]
WITH_DIRECTIVES = ['flowif', 'flownest', 'loops', 'mappings', 'prints']
SHARES = ['1/8', '1/4', '1/2', '1']
for one in HARD:
    setattr(gen_front, one.__name__, one)


def in_parentheses(text):
    """The text with its directives in parentheses: nodes from 1, templates from 0."""
    def line(s):
        if not s.startswith('#pragma xmp'):
            return s
        s = re.sub(r'nodes p\[(\d+)\]', r'nodes p(\1)', s)
        s = re.sub(r'template t\[(\d+)\]', lambda m: 'template t(0:%d)' % (int(m[1]) - 1), s)
        s = re.sub(r'((?:on|from) )p\[(\d+)\]', lambda m: '%sp(%d)' % (m[1], int(m[2]) + 1), s)
        return re.sub(r'\bt\[([^\]]*)\]', r't(\1)', s)
    return '\n'.join(line(s) for s in text.split('\n'))


def text_of(name, share):
    if name.endswith('_parens'):
        return in_parentheses(gen_front.build(name[:-7], share)[0])
    return gen_front.build(name, share)[0]


def names():
    return [f.__name__ for f in HARD] + [n + form for n in WITH_DIRECTIVES for form in ('', '_parens')]


def once(command):
    """Processor seconds, MB, seconds of the clock, and whether the text was accepted."""
    start = time.time()
    ran = subprocess.Popen(command, stdout=subprocess.PIPE, stderr=subprocess.STDOUT)
    said = ran.stdout.read()
    _, status, used = os.wait4(ran.pid, 0)
    return used.ru_utime + used.ru_stime, used.ru_maxrss / 1024, time.time() - start, status == 0 and said == b'accepted\n'


def least(command, runs):
    all_runs = [once(command) for _ in range(runs)]
    return [min(r[0] for r in all_runs), max(r[1] for r in all_runs), min(r[2] for r in all_runs), all(r[3] for r in all_runs)]


def measure(xmpc, runs, wanted):
    right = True
    with tempfile.TemporaryDirectory() as folder:
        file = os.path.join(folder, 'text.c')

        def run(text):
            with open(file, 'w') as it:
                it.write(text)
            return least([xmpc, 'check', file], runs)
        empty = run('int main() {}\n')[0]
        print('| Text | %s | growth | s | MB |' % ' | '.join('ms at ' + s for s in SHARES))
        print('|---|%s---:|---:|---:|' % ('---:|' * len(SHARES)))
        for name in wanted:
            found = [run(text_of(name, Fraction(share))) for share in SHARES]
            growth = math.log2(max(found[-1][0] - empty, 1e-4) / max(found[-2][0] - empty, 1e-4))
            right = right and all(f[3] for f in found)
            print('| %s | %s | %.2f | %.2f | %d |%s' % (
                name, ' | '.join('%d' % round(f[0] * 1000) for f in found), growth, found[-1][2], found[-1][1],
                '' if all(f[3] for f in found) else ' not accepted'), flush=True)
    return right


def main():
    words = sys.argv[1:]
    if words[:1] == ['list']:
        for name in names():
            text = text_of(name, Fraction(1))
            said = getattr(gen_front, name.replace('_parens', '')).__doc__
            print('%-16s %9d bytes %7d tokens  %s' % (name, len(text), gen_front.count(text)[0], said))
    elif words[:1] == ['text'] and len(words) > 2:
        text = text_of(words[1], Fraction(words[2]))
        open(words[3], 'w').write(text) if len(words) > 3 else sys.stdout.write(text)
    elif words[:1] == ['measure'] and len(words) > 1:
        runs, rest = 3, words[2:]
        if rest[:1] == ['--runs']:
            runs, rest = int(rest[1]), rest[2:]
        sys.exit(0 if measure(words[1], runs, rest or names()) else 1)
    else:
        sys.exit(__doc__)


main()
