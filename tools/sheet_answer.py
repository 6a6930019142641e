#!/usr/bin/env python3
"""Prints the answer of the sheet on standard input, from the scope and hexx's face.rs alone, with every
float step rounded to 32 bits by struct. With the word `cases` it prints what panel_cases is to write of its
own standard input, crates/panel_cases/stdin.
"""
import math, re, struct, sys
def f(x):
    if x != x: return x
    try: return struct.unpack('<f', struct.pack('<f', x))[0]
    except OverflowError: return math.copysign(math.inf, x)
def bits(x): return 0x7fc00000 if x != x else struct.unpack('<I', struct.pack('<f', x))[0]
def num(b): return struct.unpack('<f', struct.pack('<I', b))[0]
def add(a,b): return f(a+b)
def mul(a,b): return f(a*b)
def div(a,b):
    if b == 0:
        if a == 0 or a != a: return math.nan
        return math.copysign(math.inf, a) * math.copysign(1, b)
    return f(a/b)
def root(x):
    if x != x or x < 0: return math.nan
    return f(math.sqrt(x))
def recip_len(v):
    s = mul(v[0], v[0])
    for c in v[1:]: s = add(s, mul(c, c))
    return div(1.0, root(s))
def wrap(p):
    r = recip_len(p)
    if r > 0 and r != math.inf and r == r: p = (mul(p[0], r), mul(p[1], r))
    return tuple(add(mul(c, 0.5), 0.5) for c in p)
def alter(uv): # scale 1, offset +0, rectangle 0 to 1
    return tuple(add(add(mul(c, 1.0), 0.0), 0.0) for c in uv)
LINE = re.compile(rb'column 1\n([0-9a-f]{8}) (0|[1-9][0-9]*)\nsides ([0-6])\n((?:[0-9a-f]{8} [0-9a-f]{8} [0-9a-f]{8} [0-9a-f]{8}\n)*)caps (0|6)\n((?:[0-9a-f]{8} [0-9a-f]{8}\n)*)', re.S)
def read(t):
    m = LINE.fullmatch(t)
    if not m: return None
    sub = int(m[2]); n = int(m[3]); c = int(m[5])
    if sub > 0xffffffff: return None
    sides = [[int(w,16) for w in l.split()] for l in m[4].splitlines()]
    caps = [[int(w,16) for w in l.split()] for l in m[6].splitlines()]
    if len(sides) != n or len(caps) != c: return None
    return int(m[1],16), sub, sides, caps
def answer(t):
    r = read(t)
    if r is None: return b'refused 9\n'
    h, sub, sides, caps = r
    every = [h] + [x for s in sides for x in s] + [x for c in caps for x in c]
    for b in every:
        x = num(b)
        if not (abs(x) <= 1000000.0): return b'refused 2\n'
    h = num(h); s = max(1, sub)
    V = 4*s*len(sides) + (12 if caps else 0)
    if V > 65536: return b'refused 4\n'
    if V > 1024: return b'refused 51\n'
    verts, norms, uvs, idx = [], [], [], []
    delta = div(h, f(float(s)))
    for sd in sides:
        lx, lz, rx, rz = map(num, sd)
        n = (add(lx, rx), add(lz, rz)); k = recip_len(n)
        n = (mul(n[0], k), 0.0, mul(n[1], k))
        for p in range(s):
            foot = mul(delta, f(float(p))); top = add(foot, delta)
            b = len(verts)
            for q in ((rx, foot, rz), (rx, top, rz), (lx, top, lz), (lx, foot, lz)): verts.append(tuple(add(c, 0.0) for c in q))
            norms += [n]*4
            uvs += [alter(u) for u in ((1.,0.),(1.,1.),(0.,1.),(0.,0.))]
            idx += [b+i for i in (2,1,0,0,3,2)]
    if caps:
        cs = [tuple(map(num, c)) for c in caps]
        off = tuple(add(0.0, c) for c in (mul(0.0, h), h, mul(0.0, h)))
        tri = (0,2,1,3,5,4,0,5,3,3,2,0)
        b = len(verts)
        for x, z in cs: verts.append(tuple(add(add(p, o), 0.0) for p, o in zip((x, 0.0, z), off)))
        norms += [(0.0, 1.0, 0.0)]*6; uvs += [alter(wrap(c)) for c in cs]; idx += [b+i for i in tri]
        b = len(verts)
        for x, z in cs:
            q = tuple(add(p, 0.0) for p in (x, 0.0, z)); q = (-q[0], -q[1], q[2])
            verts.append(tuple(add(c, 0.0) for c in q))
        norms += [(-0.0, -1.0, 0.0)]*6; uvs += [alter(wrap(c)) for c in cs]; idx += [b+i for i in tri]
    out = []
    for name, l in (('vertices', verts), ('normals', norms), ('uvs', uvs)):
        out.append('%s %d\n' % (name, len(l))); out += [' '.join('%08x' % bits(c) for c in v) + '\n' for v in l]
    out.append('indices %d\n' % len(idx)); out += ['%d %d %d\n' % tuple(idx[i:i+3]) for i in range(0, len(idx), 3)]
    return ''.join(out).encode()
def shown(text):
    if len(text) <= 1000: return text
    total = 0
    for byte in text: total = (total * 31 + byte) % 2**32
    return b'%d bytes, sum %08x\n' % (len(text), total)
def cases(text): # a name and a newline, a sheet, and '=' and a newline
    told = b''
    for case in text.split(b'=\n')[:-1]:
        name, sheet = case.split(b'\n', 1)
        told += name + b'\n' + shown(answer(sheet))
    # `refused 9` has ten bytes, which do not fit into nine places.
    return told + b'too short, and long enough\n0 ' + b'-' * 9 + b'\n10 ' + answer(b'') + b'-\n'
if __name__ == '__main__':
    told = cases if sys.argv[1:] == ['cases'] else answer
    sys.stdout.buffer.write(told(sys.stdin.buffer.read()))
