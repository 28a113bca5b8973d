"""Makes the places of the productions in annex.py, and what a parser looks up at each of them."""
import sys
from annex import *
NAMED_RULES = ('Declarator', 'DirectDeclarator')
MERGED = {frozenset(('ParameterDeclarator', 'AbstractDeclarator')): 'AnyDeclarator', frozenset(('DirectParameterDeclarator', 'DirectAbstractDeclarator')): 'DirectAnyDeclarator',
  frozenset(('OpenStatement', 'ClosedStatement')): 'Statement'}
GOALS = []
for g in list(dict.fromkeys([p['of'] for p in PRODS] + list(UNITS))):
    GOALS.append(g)
GOALS = [g for g in RULES_TREE if g in GOALS] + [g for g in EXTRA if g in GOALS]
assert set(GOALS) == set(p['of'] for p in PRODS) | set(UNITS)
def takes(t): return SETS.get(t, [t])
def barred(q): return set(takes(q['bar'])) if q['bar'] else set()
def shunned(g): return set(takes(SHUNS[g])) if g in SHUNS else set()
# productions that begin with a nonterminal that is read before it is known which of them it is
CORNERS = {'PostfixExpression', 'ConditionalExpression', 'AssignmentExpression', 'Expression', 'InitDeclarator', 'StructDeclarator', 'Declarator', 'ParameterDeclarator', 'AbstractDeclarator',
  'DirectDeclarator', 'DirectParameterDeclarator', 'DirectAbstractDeclarator', 'ParameterTypeList', 'ParameterDeclaration', 'TypeName'} | {b for b, _ in BINARY}
# nonterminals whose productions begin alike
GROUP = {'ParameterDeclarator': 'AnyDeclarator', 'AbstractDeclarator': 'AnyDeclarator', 'DirectParameterDeclarator': 'DirectAnyDeclarator', 'DirectAbstractDeclarator': 'DirectAnyDeclarator',
  **{o + g: g for o in ('Open', 'Closed') for g in ('LabeledStatement', 'SelectionStatement', 'IterationStatement')}}
def corner_of(p):
    s = p['parts'][0]
    return s[1][1] if p['of'] in CORNERS and s[0] == '1' and s[1][0] == 'N' else None
def endable(p, d): return all(k in '?*' for k, _ in p['parts'][d:])
def nexts(p, d):
    """what may stand after d parts: separator, symbol, and how many parts are then behind"""
    out = []
    for i in range(d, len(p['parts'])):
        k, s = p['parts'][i]
        out.append((None, s, i if k == '*' else i + 1))
        if k == '1': break
    if endable(p, d):
        for c, a, i in p['again']:
            k, s = p['parts'][i]; assert k in '1?'
            out.append(((c, a), s, i + 1))
    return out
P = []          # places: dict(home, items, edges, name, bars, corner, turn)
INDEX = {}
def place(home, items):
    key = (home, frozenset(items))
    if key in INDEX: return INDEX[key]
    n = len(P); INDEX[key] = n
    P.append(dict(home=n if home is None else home, items=sorted(items), edges=[], name=None, bar=None, scoped=False, corner=None, turn=None))
    if home is not None: fill(n)
    return n
def fill(n):
    q = P[n]; home = q['home']
    ended = {(PRODS[i]['rule'], PRODS[i]['choice'], PRODS[i]['bar'], PRODS[i]['scoped']) for i, d in q['items'] if endable(PRODS[i], d)}
    assert len(ended) <= 1, (n, ended)
    if ended:
        r, c, b, l = ended.pop(); q['name'] = (r, c); q['bar'] = b; q['scoped'] = l
    groups = {}; order = []
    for i, d in q['items']:
        for sep, s, d2 in nexts(PRODS[i], d):
            if (sep, s) not in groups: groups[(sep, s)] = set(); order.append((sep, s))
            groups[(sep, s)].add((i, d2))
    done = set()
    for sep, s in order:
        if (sep, s) in done: continue
        if s[0] == 'N':
            other = [t for t in order if t[0] == sep and t[1][0] == 'N' and frozenset((s[1], t[1][1])) in MERGED]
            if other:
                t = other[0]; done |= {(sep, s), t}
                pd, ad = (s, t[1]) if 'Parameter' in s[1] or 'Open' in s[1] else (t[1], s)
                m = N(MERGED[frozenset((s[1], t[1][1]))])
                turn = len(P); P.append(dict(home=home, items=[], edges=[], name=None, bar=None, scoped=False, corner=None, turn=None))
                q['edges'].append((sep, m, turn))
                P[turn]['turn'] = (place(home, groups[(sep, pd)]), place(home, groups[(sep, ad)]))
                continue
        done.add((sep, s))
        q['edges'].append((sep, s, place(home, groups[(sep, s)])))
P.append(dict(home=0, items=[], edges=[], name=None, bar=None, scoped=False, corner=None, turn=None))     # 0: a token's leaf
HOMES = {}
for i, p in enumerate(PRODS):
    HOMES.setdefault((GROUP.get(p['of'], p['of']), corner_of(p)), []).append((i, 0))
for (g, c), items in HOMES.items():
    n = place(None, items)
    fill(n)
    if c:
        assert len(P[n]['edges']) == 1 and P[n]['edges'][0][1] == N(c), (g, c, P[n]['edges'])
        P[n]['corner'] = (c, P[n]['edges'][0][2])
START = {}
for n, q in enumerate(P):
    for i, d in q['items']:
        if q['home'] == n and d == 0: START[i] = n
assert len(START) == len(PRODS)
for n, q in enumerate(P):
    if n and q['home'] == n: assert all(d == 0 for i, d in q['items'])
own = {g: [] for g in GOALS}
for n, q in enumerate(P):
    for g in dict.fromkeys(PRODS[i]['of'] for i, d in q['items'] if endable(PRODS[i], d)): own[g].append(n)
K = {}
def kinds(g):
    if g not in K:
        K[g] = []
        for z in [z for u in UNITS.get(g, []) for z in kinds(u)] + own[g]:
            if z not in K[g]: K[g].append(z)
    return K[g]
for g in GOALS: kinds(g)
is_named = [bool(q['name'] and (q['name'][0] in NAMED_RULES or any(PRODS[i]['of'].startswith('Open') for i, d in q['items']))) for q in P]
def turn(n, y):
    w = P[n]['turn']
    return n if w is None else w[0] if is_named[y] else w[1]
def ways(s): return [0] if s[0] == 'T' else K[s[1]] + ([0] if s[0] == 'I' else [])
home = [q['home'] for q in P]
openers = {}; suffixes = {}
for g in GOALS:
    O = []; S_ = []
    def add(z):
        s = home[z]
        if P[s]['corner']:
            if s in S_: return
            S_.append(s)
            for y in K[P[s]['corner'][0]]: add(y)
        elif s not in O: O.append(s)
    for z in K[g]: add(z)
    openers[g] = O; suffixes[g] = S_
F = {g: set() for g in GOALS}
ENTRIES = [c for c in CLASSES if c != 'RightBrace']
def beg_s(s): return set(takes(s[1])) if s[0] == 'T' else set(ENTRIES) if s[0] == 'I' else F[s[1]]
def beg(e): return {e[0][0]} if e[0] else beg_s(e[1])
def entering(q): return set().union(*[beg(e) for e in P[q]['edges']]) if P[q]['edges'] else set()
ch = True
while ch:
    ch = False
    for g in GOALS:
        for z in K[g]:
            X = entering(home[z]) - shunned(g)
            if not X <= F[g]: F[g] |= X; ch = True
ends = [set() for q in P]; goes = {g: set() for g in GOALS}
ch = True
def add_to(A, X):
    global ch
    if not X <= A: A |= X; ch = True
while ch:
    ch = False
    for q in range(len(P)):
        if P[q]['name']: add_to(ends[q], entering(q) - barred(P[q]))
        for sep, s, n in P[q]['edges']:
            for z in ways(s):
                q2 = turn(n, z)
                add_to(ends[q], ends[q2])
                if s[0] == 'N' and P[q2]['name']: add_to(ends[q], goes[s[1]] - barred(P[q2]))
    for g in GOALS:
        for z in K[g]: add_to(goes[g], ends[home[z]])
        for s in suffixes[g]:
            b, q = P[s]['corner']
            if set(K[b]) & set(K[g]): add_to(goes[g], entering(q))
bad = []
for q in range(len(P)):
    E = P[q]['edges']
    for i in range(len(E)):
        for j in range(i):
            if beg(E[i]) & beg(E[j]): bad.append(('edges', q, E[i], E[j], beg(E[i]) & beg(E[j])))
    for sep, s, n in E:
        if s[0] == 'N':
            for z in K[s[1]]:
                X = entering(turn(n, z)) & (ends[home[z]] if P[q]['corner'] else goes[s[1]])
                if X: bad.append(('shut', q, s, z, X))
for g in GOALS:
    O = openers[g]
    for i in range(len(O)):
        for j in range(i):
            a = entering(O[i]) & entering(O[j])
            if a: bad.append(('openers', g, O[i], O[j], a))
    S_ = suffixes[g]
    for i in range(len(S_)):
        for j in range(i):
            a, b = P[S_[i]]['corner'], P[S_[j]]['corner']
            if set(K[a[0]]) & set(K[b[0]]) and entering(a[1]) & entering(b[1]): bad.append(('suffixes', g, S_[i], S_[j], entering(a[1]) & entering(b[1])))
for z, q in enumerate(P):
    if q['scoped'] and (ends[home[z]] or P[home[z]]['corner']): bad.append(('scoped', z, ends[home[z]]))
for q in P:
    if q['corner'] and q['corner'][0] in SHUNS: bad.append(('corner', q['corner']))
if goes['BlockItem'] or any('RightBrace' in F[g] for g in GOALS): bad.append(('entry', goes['BlockItem']))
# what holds no block: the nonterminals and the productions from which no list of a block's items is reached
FLAT = {g: True for g in GOALS}
ch = True
while ch:
    ch = False
    flat = {}
    for q in range(len(P)): flat[home[q]] = flat.get(home[q], True) and all(s[0] == 'T' or s[0] == 'N' and FLAT[s[1]] for _, s, _ in P[q]['edges'])
    for g in GOALS:
        if FLAT[g] and not all(flat[home[z]] for z in K[g]): FLAT[g] = False; ch = True
for q in P:
    if q['corner'] and not FLAT[q['corner'][0]]: bad.append(('flat', q['corner']))
def show(i, d):
    p = PRODS[i]
    t = []
    for j, (k, s) in enumerate(p['parts']):
        if j == d: t.append('.')
        t.append(s[1] + {'1': '', '?': '?', '*': '*'}[k])
    if d == len(p['parts']): t.append('.')
    return p['of'] + ' -> ' + ' '.join(t)
if __name__ == '__main__':
    for b in bad: print('BAD', b); print([show(*x) for x in P[b[1]]['items']] if isinstance(b[1], int) else '')
    print(len(P), 'places', sum(len(q['edges']) for q in P), 'edges', len(GOALS), 'goals', len(PRODS), 'productions', len(CLASSES), 'classes')
    print(sum(len(K[g]) for g in GOALS), 'kinds', sum(len(F[g]) for g in GOALS), 'firsts', sum(len(v) for v in openers.values()), sum(len(v) for v in suffixes.values()))
