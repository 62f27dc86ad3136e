#!/usr/bin/env python3
"""bench.py: XMP programs under xmpc and xmpt against what a user would pick instead, in one run, as ratios.

  bench.py [--xmpc CMD] [--xmpt CMD] [--nodes 1,4,16] [--threads 1,2,4] [--quick]
           [--only a,b] [--peers a,b] [--size small|quick|big] [--runs N] [--limit SECONDS]
           [--clock cpu|wall] [--stat median|min] [--no-programs] [--no-front] [--families a,b] [--front-limit SECONDS]
           [--no-run] [--json FILE] [--keep DIR]

See README.md."""
import argparse
import json
import math
import os
import re
import shlex
import shutil
import signal
import statistics
import subprocess
import sys
import tempfile
import threading
import time
from fractions import Fraction

HERE = os.path.dirname(os.path.abspath(__file__))
sys.path.insert(0, HERE)
import erase  # noqa: E402
import gen_front  # noqa: E402

# how the work is shared: 'divided' over the nodes, 'copied' to each node, 'images' of a coarray program
PROGRAMS = {
    'heat': ('divided', {'N': 64, 'T': 6}, {'N': 10000, 'T': 100}, {'N': 20000, 'T': 500}),
    'jacobi': ('divided', {'N': 12, 'T': 4}, {'N': 100, 'T': 50}, {'N': 200, 'T': 100}),
    'matmul': ('divided', {'N': 12, 'S': 4}, {'N': 100, 'S': 20}, {'N': 280, 'S': 20}),
    'primes': ('copied', {'N': 200, 'M': 300}, {'N': 50000, 'M': 200000}, {'N': 200000, 'M': 2000000}),
    'collatz': ('divided', {'N': 50}, {'N': 12000}, {'N': 100000}),
    'mandel': ('divided', {'N': 12, 'B': 4}, {'N': 100, 'B': 16}, {'N': 280, 'B': 16}),
    'hash': ('divided', {'N': 20}, {'N': 40000}, {'N': 400000}),
    # T is divided by the number of images, so that the whole work hardly changes
    'ring': ('images', {'B': 4, 'T': 16}, {'B': 64, 'T': 4000}, {'B': 64, 'T': 48000}),
}
PEERS = ['lua5.4', 'luajit -joff', 'luajit', 'python3', 'gcc -O0', 'gcc -O2', 'tcc']
STEPS = '1000000000000'


class Ran:
    """one run: seconds of the wall and of the processor, MB at most, output, status"""

    def __init__(self, wall, cpu, mb, out, err, status):
        self.wall, self.cpu, self.mb, self.out, self.err, self.status = wall, cpu, mb, out, err, status


def run(cmd, limit):
    with tempfile.TemporaryFile() as out, tempfile.TemporaryFile() as err:
        t = time.perf_counter()
        p = subprocess.Popen(cmd, stdin=subprocess.DEVNULL, stdout=out, stderr=err, start_new_session=True)
        late = threading.Event()

        def stop():
            late.set()
            try:
                os.killpg(p.pid, signal.SIGKILL)  # our own child's group
            except ProcessLookupError:
                pass
        timer = threading.Timer(limit, stop)
        timer.start()
        _, status, use = os.wait4(p.pid, 0)
        wall = time.perf_counter() - t
        timer.cancel()
        p.returncode = os.waitstatus_to_exitcode(status)
        out.seek(0)
        err.seek(0)
        return Ran(wall, use.ru_utime + use.ru_stime, use.ru_maxrss / 1024, out.read(), err.read(200),
                   'late' if late.is_set() else p.returncode)


STAT = statistics.median


class Series:
    """the runs of one tool on one instance"""

    def __init__(self, cmd):
        self.cmd, self.runs, self.bad, self.build = cmd, [], None, None

    def value(self, clock):
        if self.bad or not self.runs:
            return None
        return STAT(getattr(r, clock) for r in self.runs)

    def spread(self, clock):
        v = [getattr(r, clock) for r in self.runs]
        return max(v) / max(min(v), 1e-6) if len(v) > 1 and not self.bad else 1.0

    def mb(self):
        return max((r.mb for r in self.runs), default=0)


def found(cmd):
    return shutil.which(cmd) is not None


def put(path, text):
    with open(path, 'w') as f:
        f.write(text)
    return path


def sized(name, end, sizes):
    """the text of a program with its sizes put in"""
    path = os.path.join(HERE, 'programs', name + end)
    with open(path) as f:
        text = f.read()
    lead = {'.c': '#define %s ', '.py': '%s = ', '.lua': 'local %s = '}[end[end.rindex('.'):]]
    for k, v in sizes.items():
        text, n = re.subn(r'(?m)^(%s)\d+$' % re.escape(lead % k), r'\g<1>%d' % v, text)
        if n != 1 and not (k == 'P' and end == '.c'):
            raise SystemExit('%s: no line for %s' % (path, k))
    return text


class Instance:
    """a program with its sizes, and for a coarray program its number of images"""

    def __init__(self, name, sizes, images, tools, a, work):
        self.name, self.images = name, images
        self.kind = PROGRAMS[name][0]
        sizes = dict(sizes)
        if images:
            sizes['T'] = max(1, sizes['T'] // images)
            sizes['P'] = images
        self.label = name if not images else '%s/%d' % (name, images)
        base = os.path.join(work, '%s_%s' % (name, images or 0))
        self.file = put(base + '.c', sized(name, '.c', sizes))
        self.series = {}
        s = self.series
        # the peers
        if 'lua5.4' in tools:
            s['lua5.4'] = Series(['lua5.4', put(base + '.lua', sized(name, '.lua', sizes))])
        if 'luajit' in tools or 'luajit -joff' in tools:
            end = '.lj.lua' if os.path.exists(os.path.join(HERE, 'programs', name + '.lj.lua')) else '.lua'
            f = put(base + '.lj.lua', sized(name, end, sizes))
            if 'luajit -joff' in tools:
                s['luajit -joff'] = Series(['luajit', '-joff', f])
            if 'luajit' in tools:
                s['luajit'] = Series(['luajit', f])
        if 'python3' in tools:
            s['python3'] = Series([a.python, put(base + '.py', sized(name, '.py', sizes))])
        if {'gcc -O0', 'gcc -O2', 'tcc'} & set(tools):
            if os.path.exists(os.path.join(HERE, 'programs', name + '.hand.c')):
                c = put(base + '.e.c', sized(name, '.hand.c', sizes))
            else:
                c = put(base + '.e.c', erase.erase(sized(name, '.c', sizes)))
            for level in ('-O0', '-O2'):
                if 'gcc ' + level in tools:
                    exe = base + level + '.exe'
                    b = run(['gcc', '-w', '-fwrapv', level, c, '-o', exe], a.limit)
                    s['gcc ' + level] = Series([exe])
                    s['gcc ' + level].build = b
                    if b.status != 0:
                        s['gcc ' + level].bad = 'build'
            if 'tcc' in tools:
                s['tcc'] = Series(['tcc', '-w', '-run', c])
        # xmpc and xmpt
        if a.xmpc:
            if not images:
                s['serial'] = Series(a.xmpc + ['serial', '--steps=' + STEPS, self.file])
                for n in [] if a.no_run else a.nodes:
                    s['run %d' % n] = Series(a.xmpc + ['run', '--nodes=%d' % n, '--steps=' + STEPS, self.file])
            else:
                s['serial'] = Series(a.xmpc + ['serial', '--nodes=%d' % images, '--steps=' + STEPS, self.file])
                if images in a.nodes and not a.no_run:
                    s['run %d' % images] = Series(a.xmpc + ['run', '--nodes=%d' % images, '--steps=' + STEPS, self.file])
            s['check'] = Series(a.xmpc + ['check', '--nodes=%d' % (images or 4), self.file])
        if a.xmpt:
            for n in ([images] if images else a.threads):
                if n in a.threads:
                    s['xmpt %d' % n] = Series(a.xmpt + ['--nodes=%d' % n, '--steps=' + STEPS, self.file])

    def measure(self, a, faults):
        said = {}
        for turn in range(a.runs):
            for tool, s in self.series.items():
                if s.bad:
                    continue
                r = run(s.cmd, a.limit)
                if r.status == 'late':
                    s.bad = '>%gs' % a.limit
                elif r.status != 0:
                    s.bad = 'st %s' % r.status
                    faults.append('%s %s: status %s %s' % (self.label, tool, r.status, r.err.decode(errors='replace').strip()))
                else:
                    s.runs.append(r)
                    if tool == 'check':
                        if r.out != b'accepted\n':
                            s.bad = 'refused'
                            faults.append('%s check: %r' % (self.label, r.out))
                    else:
                        said.setdefault(r.out, set()).add(tool)
        if len(said) > 1:
            faults.append('%s: the outputs differ: %s' % (
                self.label, '; '.join('%s say %r' % (', '.join(sorted(t)), o[:80]) for o, t in said.items())))
            best = next((t for w in PEERS for t in said.values() if w in t), max(said.values(), key=len))
            for o, t in said.items():
                if t is not best:
                    for tool in t:
                        self.series[tool].bad = 'DIFFERS'


def table(title, heads, rows, note=''):
    """rows: lists of texts, the first one a label"""
    print('\n## ' + title)
    if note:
        print('\n' + note)
    print()
    wide = [max(len(r[c]) for r in [heads] + rows) for c in range(len(heads))]
    line = lambda r: '| ' + ' | '.join((t.ljust if c == 0 else t.rjust)(wide[c]) for c, t in enumerate(r)) + ' |'
    print(line(heads))
    print('|' + '|'.join('-' * (w + 2) if c == 0 else '-' * (w + 1) + ':' for c, w in enumerate(wide)) + '|')
    for r in rows:
        print(line(r))
    sys.stdout.flush()


def num(v):
    return '-' if v is None else '%.3f' % v if v < 0.1 else '%.2f' % v if v < 10 else '%.1f' % v if v < 100 else '%.0f' % v


def mean(vs):
    vs = [v for v in vs if v]
    return math.exp(sum(map(math.log, vs)) / len(vs)) if vs else None


def ratio(inst, a, b, clock):
    x, y = inst.series.get(a), inst.series.get(b)
    if x is None or y is None:
        return None, '-'
    if x.bad or y.bad:
        return None, x.bad or y.bad
    v = x.value(clock) / max(y.value(clock), 1e-4)
    return v, num(v)


def ratios(title, insts, tool, against, clock, note=''):
    rows, sums = [], [[] for _ in against]
    for inst in insts:
        if tool not in inst.series:
            continue
        row = [inst.label]
        for c, b in enumerate(against):
            v, t = ratio(inst, tool, b, clock)
            sums[c].append(v)
            row.append(t)
        rows.append(row)
    if rows:
        rows.append(['geometric mean'] + [num(mean(x)) for x in sums])
        table(title, ['program'] + ['/ ' + b for b in against], rows, note)
    return {b: mean(x) for b, x in zip(against, sums)}


def programs(a, tools, work, faults, kept):
    names = a.only or list(PROGRAMS)
    which = {'small': 1, 'quick': 2, 'big': 3}[a.size]
    insts = []
    for name in names:
        kind = PROGRAMS[name][0]
        counts = sorted(set(a.nodes) | (set(a.threads) if a.xmpt else set())) if kind == 'images' else [0]
        for n in counts:
            inst = Instance(name, PROGRAMS[name][which], n, tools, a, work)
            inst.measure(a, faults)
            insts.append(inst)
            print('measured %s (%s)' % (inst.label, ', '.join('%s %s' % (t, s.bad or num(s.value('wall')))
                                                              for t, s in inst.series.items())), file=sys.stderr)
    clock = a.clock
    rows = []
    for i in insts:
        rows.append([i.label] + [(s.bad or '%.0f' % (s.value(clock) * 1000)) if s else '-' for s in map(i.series.get, tools)]
                    + ['%.2f' % max([i.series[t].spread(clock) for t in tools if t in i.series and (i.series[t].value(clock) or 0) > 0.02] or [1])])
    table('Peers, milliseconds of the %s, %s of %d' % (clock, a.stat, a.runs), ['program'] + tools + ['spread'], rows,
          'spread: the greatest over the tools of slowest / fastest run, among those above 20 ms. tcc -run compiles in its time, gcc does not.')
    if 'lua5.4' in tools:
        rows = []
        for i in insts:
            rows.append([i.label] + [ratio(i, t, 'lua5.4', clock)[1] for t in tools])
        rows.append(['geometric mean'] + [num(mean([ratio(i, t, 'lua5.4', clock)[0] for i in insts])) for t in tools])
        table('Peers, time / time of lua5.4', ['program'] + tools, rows)
    means = {}
    if a.xmpc:
        configs = ['serial'] + ['run %d' % n for n in ([] if a.no_run else a.nodes)]
        for c in configs:
            means[c] = ratios('xmpc %s: time / time of the peer' % c.replace('run ', 'run --nodes='), insts, c, tools, clock,
                              'Above 1 the peer is faster. primes is copied to every node, all else is divided.' if c == 'serial' else '')
        rows = []
        for i in insts:
            row = [i.label, i.kind]
            for c in configs[1:]:
                row.append(ratio(i, c, 'serial', clock)[1])
            for c in configs + ['check']:
                s = i.series.get(c)
                row.append('-' if not s else s.bad or '%.0f' % s.mb())
            s = i.series.get('check')
            row.append(s.bad or '%.1f' % (s.value(clock) * 1000) if s else '-')
            rows.append(row)
        table('xmpc: cost of the nodes, memory, front end',
              ['program', 'work'] + ['%s / serial' % c for c in configs[1:]] + ['MB ' + c for c in configs + ['check']]
              + ['check ms'], rows, 'In lockstep on one thread the best for divided work is 1, for copied work the number of nodes.')
    if a.xmpt:
        rows = []
        first = a.threads[0]
        groups = {}
        for i in insts:
            groups.setdefault(i.name, []).append(i)
        for name, g in groups.items():
            def at(n):
                for i in g:
                    s = i.series.get('xmpt %d' % n)
                    if s:
                        return i, s
                return None, None
            row = [name, g[0].kind]
            base = at(first)[1]
            for n in a.threads:
                s = at(n)[1]
                row.append('-' if not s else s.bad or '%.0f' % (s.value('wall') * 1000))
            for n in a.threads[1:]:
                s = at(n)[1]
                row.append('-' if not s or s.bad or not base or base.bad else num(base.value('wall') / s.value('wall')))
            x, y = at(first)[1], at(a.threads[-1])[1]
            row.append(num(y.value('cpu') / x.value('cpu')) if x and y and not x.bad and not y.bad else '-')
            for b in ('lua5.4', 'gcc -O0'):
                i = at(a.threads[-1])[0]
                row.append(ratio(i, 'xmpt %d' % a.threads[-1], b, 'wall')[1] if i and b in tools else '-')
            if a.xmpc:
                i = at(first)[0]
                row.append(ratio(i, 'xmpt %d' % first, 'run %d' % first, 'wall')[1] if i else '-')
            rows.append(row)
        table('xmpt: wall milliseconds, speedup, ratio to the peers',
              ['program', 'work'] + ['ms %d' % n for n in a.threads] + ['speedup %d' % n for n in a.threads[1:]]
              + ['cpu %d / cpu %d' % (a.threads[-1], first), '%d / lua5.4' % a.threads[-1], '%d / gcc -O0' % a.threads[-1]]
              + (['xmpt %d / run %d' % (first, first)] if a.xmpc else []), rows,
              'One thread per node, %d processors here, load %.1f. Divided work should gain the number of threads; '
              'copied work stays at 1 at best. cpu: what the waiting costs, 1 is nothing, for divided work.' % (os.cpu_count() or 0, os.getloadavg()[0]))
    if {'gcc -O0', 'gcc -O2'} & set(tools):
        rows = []
        gs = [t for t in ('gcc -O0', 'gcc -O2') if t in tools]
        for i in insts:
            row = [i.label]
            for t in gs:
                s = i.series[t]
                row += ['%.0f' % (getattr(s.build, clock) * 1000),
                        '-' if s.bad else '%.0f' % ((getattr(s.build, clock) + s.value(clock)) * 1000)]
                for c in (['run %d' % (i.images or a.nodes[0])] if a.xmpc else []):
                    x = i.series.get(c)
                    row.append(num(x.value(clock) / (getattr(s.build, clock) + s.value(clock)))
                               if x and not x.bad and not s.bad else '-')
            rows.append(row)
        heads = ['program']
        for t in gs:
            heads += [t + ' build ms', 'build + run ms'] + (['xmpc run / that'] if a.xmpc else [])
        table('gcc with its compile time', heads, rows)
    kept['programs'] = {i.label: {t: {'bad': s.bad, 'wall': [r.wall for r in s.runs], 'cpu': [r.cpu for r in s.runs],
                                      'mb': s.mb()} for t, s in i.series.items()} for i in insts}
    kept['means'] = means


def front(a, work, faults, kept):
    shares = [Fraction(1, 4), Fraction(1)] if a.quick else [Fraction(1, 8), Fraction(1, 4), Fraction(1, 2), Fraction(1)]
    if not a.xmpc:
        shares = shares[-1:]
    runs = a.runs
    rows, keep = [], {}
    base = 0.0
    if a.xmpc:
        empty = put(os.path.join(work, 'empty.c'), 'int main() {}\n')
        base = statistics.median(getattr(run(a.xmpc + ['check', empty], a.front_limit), a.clock) for _ in range(5))
    slow, times_gcc, stopped = [], [], []
    cs = [('gcc', ['gcc', '-w', '-fsyntax-only'])] if found('gcc') else []
    if found('tcc'):
        cs.append(('tcc', ['tcc', '-w', '-c', '-o', os.path.join(work, 'x.o')]))
    for f in gen_front.FAMILIES:
        name = f.__name__
        if a.families and name not in a.families:
            continue
        last, dead, got = None, False, []
        for share in shares:
            text, plain, grown = gen_front.build(name, share)
            path = put(os.path.join(work, 'front_%s.c' % name), text)
            tools = {}
            if a.xmpc and not dead:
                tools['xmpc'] = Series(a.xmpc + ['check', '--nodes=4', path] if 'nodes p[4]' in text or name in gen_front.COARRAY
                                       else a.xmpc + ['check', path])
            if share == 1 and name not in gen_front.COARRAY:
                e = put(os.path.join(work, 'front_%s.e.c' % name), erase.erase(text))
                for t, c in cs:
                    tools[t] = Series(c + [e])
            for turn in range(runs):
                for t, s in tools.items():
                    if s.bad:
                        continue
                    r = run(s.cmd, a.front_limit)
                    if r.status == 'late':
                        s.bad = '>%gs' % a.front_limit
                    elif r.status != 0 or t == 'xmpc' and r.out != b'accepted\n':
                        s.bad = 'st %s' % r.status
                        if t != 'tcc':  # a peer that falls over a deep text is no fault of ours
                            faults.append('front %s %s %s: status %s %r' % (name, share, t, r.status, (r.out + r.err)[:120]))
                    s.runs.append(r)
            if 'xmpc' in tools and tools['xmpc'].bad and tools['xmpc'].bad[0] == '>':
                stopped.append('%s at %s' % (name, share))
            got.append((share, plain, grown, len(text), tools))
            dead = dead or ('xmpc' in tools and tools['xmpc'].bad is not None)
        row = [name]
        clock = a.clock
        times = []
        for share, plain, grown, size, tools in got:
            s = tools.get('xmpc')
            v = s.value(clock) if s else None
            times.append((share, v, max(plain, grown), size))
            if a.xmpc:
                row.append(('-' if not s else s.bad) if v is None else '%.0f' % (v * 1000))
        if a.xmpc:
            for (s0, v0, _, _), (s1, v1, _, _) in zip(times, times[1:]):
                # the exponent of the growth: 1 is linear, 2 quadratic
                if v0 and v1 and v0 - base > 0.002 and v1 > base:
                    x = math.log((v1 - base) / (v0 - base)) / math.log(s1 / s0)
                    row.append('%.2f' % x)
                    if x > 1.3:
                        slow.append('%s %.2f (to %s)' % (name, x, s1))
                else:
                    row.append('-')
            v = times[-1][1]
            row.append('%.2f' % (v * 1e6 / times[-1][2]) if v else '-')
            row.append('%.0f' % got[-1][4]['xmpc'].mb() if v else '-')
        share, plain, grown, size, tools = got[-1]
        row += [str(size), str(plain), str(grown)]
        for t, _ in cs:
            s = tools.get(t)
            row.append('-' if not s else s.bad or '%.0f' % (s.value(clock) * 1000))
            if a.xmpc:
                x = tools.get('xmpc')
                row.append(num(x.value(clock) / s.value(clock)) if s and x and not s.bad and not x.bad else '-')
                if t == 'gcc' and s and x and not s.bad and not x.bad:
                    times_gcc.append(x.value(clock) / s.value(clock))
        rows.append(row)
        keep[name] = {str(sh): {t: {'bad': s.bad, 'cpu': [r.cpu for r in s.runs], 'mb': s.mb()} for t, s in ts.items()}
                      for sh, _, _, _, ts in got}
        print('front %s: %s' % (name, ' '.join(row[1:])), file=sys.stderr)
    heads = ['family']
    if a.xmpc:
        heads += ['ms %s' % s for s in shares] + ['exp to %s' % s for s in shares[1:]] + ['us/token', 'MB']
    heads += ['bytes', 'tokens', 'expanded']
    for t, _ in cs:
        heads += [t + ' ms'] + (['xmpc / ' + t] if a.xmpc else [])
    table('Front end: xmpc check at growing shares of the limits, %s' % a.clock, heads, rows,
          'A text fills its share of 1,048,576 bytes or 200,000 tokens, whichever is less text. exp: exponent of the growth '
          'between two sizes, 1 is linear, 2 quadratic. gcc is -fsyntax-only, tcc is -c, on the erased text at the full size.')
    if a.xmpc:
        print('\nAn empty program takes %.1f ms, which the exponents leave out. xmpc / gcc over the families: geometric mean %s, '
              'greatest %s.' % (base * 1000, num(mean(times_gcc)), num(max(times_gcc, default=None))))
        print('Grow faster than to the power 1.3: %s. Stopped at the limit: %s.' % (
            ', '.join(slow) or 'none', ', '.join(stopped) or 'none'))
    kept['front'] = keep


def main():
    p = argparse.ArgumentParser()
    p.add_argument('--xmpc')
    p.add_argument('--xmpt')
    p.add_argument('--nodes', default='1,4,16')
    p.add_argument('--threads', default='1,2,4')
    p.add_argument('--quick', action='store_true')
    p.add_argument('--only')
    p.add_argument('--peers')
    p.add_argument('--families')
    p.add_argument('--size', choices=['small', 'quick', 'big'])
    p.add_argument('--runs', type=int)
    p.add_argument('--limit', type=float, default=120)
    p.add_argument('--front-limit', type=float, default=60)
    p.add_argument('--clock', choices=['cpu', 'wall'], default='cpu')
    p.add_argument('--stat', choices=['median', 'min'], default='median')
    p.add_argument('--no-programs', action='store_true')
    p.add_argument('--no-front', action='store_true')
    p.add_argument('--no-run', action='store_true', help='xmpc has no `run` of whole programs yet')
    p.add_argument('--python', default=sys.executable)
    p.add_argument('--json')
    p.add_argument('--keep')
    a = p.parse_args()
    numbers = lambda t: [int(x) for x in t.split(',')]
    words = lambda t: t.split(',') if t else None
    a.nodes, a.threads = numbers(a.nodes), numbers(a.threads)
    a.only, a.peers, a.families = words(a.only), words(a.peers), words(a.families)
    a.size = a.size or ('quick' if a.quick else 'big')
    global STAT
    STAT = {'median': statistics.median, 'min': min}[a.stat]
    a.runs = a.runs or (1 if a.quick else 3)
    for t in ('xmpc', 'xmpt'):
        v = shlex.split(getattr(a, t) or '')
        if v and not found(v[0]):
            print('no %s: %s isn\'t there' % (t, v[0]))
            v = []
        if v and '/' in v[0]:
            v[0] = os.path.abspath(v[0])
        setattr(a, t, v)
    need = {'lua5.4': 'lua5.4', 'luajit -joff': 'luajit', 'luajit': 'luajit', 'python3': a.python, 'gcc -O0': 'gcc',
            'gcc -O2': 'gcc', 'tcc': 'tcc'}
    tools = []
    for t in a.peers or PEERS:
        if found(need[t]):
            tools.append(t)
        else:
            print('skipped: %s' % t)
    print('# Benchmark of xmpc and xmpt')
    print('\n%s, %d processors, load %s; size %s, %s of %d; clock %s; nodes %s; xmpc %s; xmpt %s' % (
        time.strftime('%Y-%m-%d %H:%M'), os.cpu_count() or 0, ' '.join('%.1f' % x for x in os.getloadavg()), a.size, a.stat, a.runs,
        a.clock, ','.join(map(str, a.nodes)), ' '.join(a.xmpc) or 'none', ' '.join(a.xmpt) or 'none'))
    faults, kept = [], {}
    work = a.keep or tempfile.mkdtemp(prefix='xmpbench')
    os.makedirs(work, exist_ok=True)
    try:
        if not a.no_programs:
            programs(a, tools, work, faults, kept)
        if not a.no_front:
            front(a, work, faults, kept)
    finally:
        if not a.keep:
            shutil.rmtree(work)
    if a.json:
        with open(a.json, 'w') as f:
            json.dump(kept, f, indent=1)
    print('\n## Faults\n')
    print('\n'.join('- ' + f for f in faults) if faults else 'none')
    sys.exit(1 if faults else 0)


if __name__ == '__main__':
    main()
