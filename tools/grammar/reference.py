"""Trees of expressions, declarations, statements and files by a parser of its own, which shares nothing with the tables. Writes crates/cl_tree_cases/stdout from
the cases in cases.txt; pycparser says beside it which texts of C99 are none, and clang what type each declarator puzzle has."""
import re, sys, os, subprocess, tempfile
TOK = re.compile(r'\s*([A-Za-z_]\w*|\d[\w.]*|"[^"]*"|\'[^\']*\'|\.\.\.|<<=|>>=|->|\+\+|--|<<|>>|<=|>=|==|!=|&&|\|\||[-+*/%&|^]=|[-+*/%&|^~!<>=?:;,.(){}\[\]])')
TYPEW = 'void char short int long float double signed unsigned _Bool'.split(); QUAL = 'const restrict volatile _Atomic'.split()
STORAGE = 'typedef extern static _Thread_local auto register'.split(); FUNC = 'inline _Noreturn'.split(); TAGS = 'struct union enum'.split()
KW = set(TYPEW + QUAL + STORAGE + FUNC + TAGS + """sizeof _Alignof _Alignas _Generic _Static_assert default case break continue do else for goto if return switch while
    _Complex _Imaginary""".split())
def lex(s):
    out = []; i = 0; s = s.rstrip()
    while i < len(s):
        m = TOK.match(s, i); assert m, (s, i); out.append(m.group(1)); i = m.end()
    return out
HERE = os.path.dirname(os.path.abspath(__file__))
def pairs(toks):
    """Each token's partner or itself: `}` pairs with the last open `{`, and what is open after that stays alone."""
    out = list(range(len(toks))); stack = []
    for i, t in enumerate(toks):
        if t in ('(', '[', '{'): stack.append(i)
        elif t == '}':
            if any(toks[j] == '{' for j in stack):
                while toks[stack[-1]] != '{': stack.pop()
                j = stack.pop(); out[i] = j; out[j] = i
        elif t in (')', ']') and stack and toks[stack[-1]] == {')': '(', ']': '['}[t]:
            j = stack.pop(); out[i] = j; out[j] = i
    return out
class No(Exception): pass
def node(r, c, *ps): return '(' + r + '.' + str(c) + ''.join(' ' + p for p in ps) + ')'
class P:
    def __init__(s, toks, typedefs): s.t = toks; s.i = 0; s.scopes = [{n: True for n in typedefs}]; s.lists = 0; s.first = None; s.lost = set()
    def typed(s, name):
        for f in reversed(s.scopes):
            if name in f: return f[name]
        return False
    def declare(s, name, typed): s.scopes[-1][name] = typed
    def save(s): return s.i, [dict(f) for f in s.scopes], set(s.lost)
    def back(s, saved): s.i, s.scopes, s.lost = saved[0], [dict(f) for f in saved[1]], set(saved[2])
    def at(s, k=0): return s.t[s.i + k] if s.i + k < len(s.t) else None
    def eat(s, x=None):
        t = s.at()
        if t is None or (x is not None and t != x): raise No()
        s.i += 1; return t
    def is_type(s, k): t = s.at(k); return t is not None and (t in TYPEW or t in QUAL or t in STORAGE or t in FUNC or t in TAGS or t == '_Alignas' or s.typed(t))
    def ident(s):
        t = s.at()
        if t is None or not re.match(r'[A-Za-z_]', t) or t in KW: raise No()
        return s.eat()
    def expr(s):
        l = s.assign()
        while s.at() == ',': l = node('Expression', 1, l, s.eat(), s.assign())
        return l
    def assign(s):
        start = s.i
        l, kind = s.cond()
        ops = '= *= /= %= += -= <<= >>= &= ^= |='.split()
        if s.at() in ops:
            if kind != 'unary': raise No()
            o = s.eat(); return node('AssignmentExpression', 1, l, node('AssignmentOperator', ops.index(o), o), s.assign())
        return l
    LEVELS = [('LogicalOrExpression', ['||']), ('LogicalAndExpression', ['&&']), ('InclusiveOrExpression', ['|']), ('ExclusiveOrExpression', ['^']), ('AndExpression', ['&']), ('EqualityExpression', ['==', '!=']),
      ('RelationalExpression', ['<', '>', '<=', '>=']), ('ShiftExpression', ['<<', '>>']), ('AdditiveExpression', ['+', '-']), ('MultiplicativeExpression', ['*', '/', '%'])]
    def cond(s):
        l, kind = s.level(0)
        if s.at() == '?':
            q = s.eat(); m = s.expr(); c = s.eat(':'); r, _ = s.cond(); return node('ConditionalExpression', 1, l, q, m, c, r), 'other'
        return l, kind
    def level(s, n):
        if n == len(s.LEVELS): return s.cast()
        r, ops = s.LEVELS[n]
        l, kind = s.level(n + 1)
        while s.at() in ops:
            o = s.eat(); l = node(r, ops.index(o) + 1, l, o, s.level(n + 1)[0]); kind = 'other'
        return l, kind
    def paren_type(s):
        a = s.eat('('); t = s.type_name(); return a, t, s.eat(')')
    def cast(s):
        if s.at() == '(' and s.is_type(1):
            save = s.save()
            a, t, b = s.paren_type()
            if s.at() != '{': return node('CastExpression', 1, a, t, b, s.cast()[0]), 'other'
            s.back(save)
        return s.unary(), 'unary'
    def unary(s):
        t = s.at()
        if t in ('++', '--'): return node('UnaryExpression', 1 if t == '++' else 2, s.eat(), s.unary())
        ops = '& * + - ~ !'.split()
        if t in ops: s.eat(); return node('UnaryExpression', 3, node('UnaryOperator', ops.index(t), t), s.cast()[0])
        if t == 'sizeof':
            s.eat()
            if s.at() == '(' and s.is_type(1):
                save = s.save(); a, n, b = s.paren_type()
                if s.at() != '{': return node('UnaryExpression', 5, t, a, n, b)
                s.back(save)
            return node('UnaryExpression', 4, t, s.unary())
        if t == '_Alignof': s.eat(); return node('UnaryExpression', 6, t, *s.paren_type())
        return s.postfix()
    def postfix(s):
        if s.at() == '(' and s.is_type(1):
            a, n, b = s.paren_type(); o = s.eat('{'); l = s.init_list()
            if s.at() == ',': c = s.eat(); e = node('PostfixExpression', 8, a, n, b, o, l, c, s.eat('}'))
            else: e = node('PostfixExpression', 7, a, n, b, o, l, s.eat('}'))
        else: e = s.primary()
        while True:
            t = s.at()
            if t == '[': e = node('PostfixExpression', 1, e, s.eat(), s.expr(), s.eat(']'))
            elif t == '(':
                o = s.eat()
                if s.at() == ')': e = node('PostfixExpression', 2, e, o, s.eat())
                else:
                    args = [s.assign()]
                    while s.at() == ',': s.eat(); args.append(s.assign())
                    e = node('PostfixExpression', 2, e, o, node('ArgumentExpressionList', 0, *args), s.eat(')'))
            elif t in ('.', '->'): e = node('PostfixExpression', 3 if t == '.' else 4, e, s.eat(), s.ident())
            elif t in ('++', '--'): e = node('PostfixExpression', 5 if t == '++' else 6, e, s.eat())
            else: return e
    def primary(s):
        t = s.at()
        if t == '(': return node('PrimaryExpression', 3, s.eat(), s.expr(), s.eat(')'))
        if t == '_Generic':
            s.eat(); o = s.eat('('); a = s.assign(); c = s.eat(','); gs = [s.assoc()]
            while s.at() == ',': s.eat(); gs.append(s.assoc())
            return node('GenericSelection', 0, t, o, a, c, node('GenericAssocList', 0, *gs), s.eat(')'))
        if t and t[0] == '"':
            ps = [s.eat()]
            while s.at() and s.at()[0] == '"': ps.append(s.eat())
            return node('PrimaryExpression', 2, *ps)
        if t and (t[0].isdigit() or t[0] == "'"): return node('PrimaryExpression', 1, s.eat())
        return node('PrimaryExpression', 0, s.ident())
    def assoc(s):
        if s.at() == 'default': return node('GenericAssociation', 1, s.eat(), s.eat(':'), s.assign())
        return node('GenericAssociation', 0, s.type_name(), s.eat(':'), s.assign())
    def init(s):
        if s.at() == '{':
            o = s.eat(); l = s.init_list()
            if s.at() == ',': return node('Initializer', 2, o, l, s.eat(), s.eat('}'))
            return node('Initializer', 1, o, l, s.eat('}'))
        return s.assign()
    def init_list(s):
        ps = []
        while True:
            if s.at() in ('[', '.'):
                ds = []
                while s.at() in ('[', '.'):
                    if s.at() == '[': ds.append(node('Designator', 0, s.eat(), s.cond()[0], s.eat(']')))
                    else: ds.append(node('Designator', 1, s.eat(), s.ident()))
                ps.append(node('Designation', 0, node('DesignatorList', 0, *ds), s.eat('=')))
            ps.append(s.init())
            if s.at() == ',' and s.at(1) != '}': s.eat()
            else: return node('InitializerList', 0, *ps)
    def specifier(s, typed, declaration):
        """One specifier or qualifier, and whether it is a type specifier; None where none stands."""
        t = s.at()
        if t == '_Atomic' and s.at(1) == '(': return node('AtomicTypeSpecifier', 0, s.eat(), *s.paren_type()), True
        if t in QUAL: return node('TypeQualifier', QUAL.index(t), s.eat()), False
        if t in TYPEW: return node('TypeSpecifier', TYPEW.index(t), s.eat()), True
        if t in ('struct', 'union'): return s.struct(), True
        if t == 'enum': return s.enum(), True
        if declaration:
            if t in STORAGE: return node('StorageClassSpecifier', STORAGE.index(t), s.eat()), False
            if t in FUNC: return node('FunctionSpecifier', FUNC.index(t), s.eat()), False
            if t == '_Alignas':
                s.eat()
                if s.is_type(1): return node('AlignmentSpecifier', 0, t, *s.paren_type()), False
                return node('AlignmentSpecifier', 1, t, s.eat('('), s.cond()[0], s.eat(')')), False
        if t is not None and not typed and s.typed(t): return node('TypedefName', 0, s.eat()), True
        return None
    def specifiers(s, declaration):
        ps = []; typed = False; words = s.i
        while True:
            one = s.specifier(typed, declaration)
            if one is None: break
            ps.append(one[0]); typed = typed or one[1]
        if not ps: raise No()
        return node('DeclarationSpecifiers' if declaration else 'SpecifierQualifierList', 0, *ps), any(p.startswith('(StorageClassSpecifier.0') for p in ps)
    def struct(s):
        t = s.eat(); w = node('StructOrUnion', ['struct', 'union'].index(t), t); name = [s.ident()] if s.at() != '{' else []
        if s.at() != '{': return node('StructOrUnionSpecifier', 1, w, *name)
        o = s.eat(); ms = [s.member()]
        while s.at() != '}': ms.append(s.member())
        return node('StructOrUnionSpecifier', 0, w, *name, o, node('StructDeclarationList', 0, *ms), s.eat())
    def member(s):
        if s.at() == '_Static_assert': return s.assertion()
        q, _ = s.specifiers(False); ds = []
        while s.at() != ';':
            if ds: s.eat(',')
            d = [] if s.at() == ':' else [s.declarator()[0]]
            if s.at() == ':': d = [node('StructDeclarator', 1, *d, s.eat(), s.cond()[0])]
            ds += d
        return node('StructDeclaration', 0, q, *([node('StructDeclaratorList', 0, *ds)] if ds else []), s.eat())
    def enum(s):
        t = s.eat(); name = [s.ident()] if s.at() != '{' else []
        if s.at() != '{': return node('EnumSpecifier', 2, t, *name)
        o = s.eat(); es = []
        while True:
            n = s.ident()
            es.append(node('Enumerator', 1, n, s.eat(), s.cond()[0]) if s.at() == '=' else node('Enumerator', 0, n))
            s.declare(n, False)
            if s.at() == ',' and s.at(1) != '}': s.eat()
            else: break
        l = node('EnumeratorList', 0, *es)
        if s.at() == ',': return node('EnumSpecifier', 1, t, *name, o, l, s.eat(), s.eat('}'))
        return node('EnumSpecifier', 0, t, *name, o, l, s.eat('}'))
    def assertion(s):
        t = s.eat(); a = s.eat('('); e = s.cond()[0]; c = s.eat(','); ss = []
        while s.at() and s.at()[0] == '"': ss.append(s.eat())
        if not ss: raise No()
        return node('StaticAssertDeclaration', 0, t, a, e, c, *ss, s.eat(')'), s.eat(';'))
    def type_name(s):
        q, _ = s.specifiers(False)
        d = s.abstract() if s.at() in ('*', '(', '[') else None
        return q if d is None else node('TypeName', 0, q, d)
    def qualifiers(s):
        qs = []
        while s.at() in QUAL: qs.append(node('TypeQualifier', QUAL.index(s.at()), s.eat()))
        return [node('TypeQualifierList', 0, *qs)] if qs else []
    def pointer(s):
        if s.at() != '*': return None
        ps = [s.eat()] + s.qualifiers(); p = s.pointer()
        return node('Pointer', 0, *ps) if p is None else node('Pointer', 1, *ps, p)
    def declarator(s, parameter=False):
        """A declarator that names something, and the name."""
        p = s.pointer(); d, n = s.direct(parameter)
        return (d if p is None else node('Declarator', 0, p, d)), n
    def direct(s, parameter):
        if s.at() == '(':
            o = s.eat(); i, n = s.declarator(parameter); d = node('DirectDeclarator', 1, o, i, s.eat(')'))
        else:
            n = s.ident(); d = node('DirectDeclarator', 0, n)
            if s.lists == 0: s.first = None
        while s.at() in ('(', '['):
            if s.at() == '[': d = s.bracket('DirectDeclarator', 2, d, True)
            elif s.is_type(1):
                o = s.eat(); d = node('DirectDeclarator', 6, d, o, s.parameters(), s.eat(')'))
            else:
                o = s.eat(); ns = []
                if s.lists == 0 and s.first is None: s.first = {}
                while s.at() != ')':
                    if ns: s.eat(',')
                    ns.append(s.ident())
                d = node('DirectDeclarator', 7, d, o, *([node('IdentifierList', 0, *ns)] if ns else []), s.eat())
        return d, n
    def bracket(s, rule, first, d, named):
        pre = [d] if d else []; o = s.eat('[')
        if s.at() == 'static':
            w = s.eat(); q = s.qualifiers(); return node(rule, first + 1, *pre, o, w, *q, s.assign(), s.eat(']'))
        q = s.qualifiers()
        if q and s.at() == 'static': return node(rule, first + 2, *pre, o, *q, s.eat(), s.assign(), s.eat(']'))
        if s.at() == '*' and s.at(1) == ']' and (named or not q): return node(rule, first + 3, *pre, o, *q, s.eat(), s.eat())
        e = [] if s.at() == ']' else [s.assign()]
        return node(rule, first, *pre, o, *q, *e, s.eat(']'))
    def parameters(s):
        s.scopes.append({}); s.lists += 1; ps = [s.parameter()]
        while s.at() == ',' and s.at(1) != '...': s.eat(); ps.append(s.parameter())
        l = node('ParameterList', 0, *ps)
        if s.at() == ',': l = node('ParameterTypeList', 1, l, s.eat(), s.eat())
        s.lists -= 1; names = s.scopes.pop()
        if s.lists == 0 and s.first is None: s.first = names
        return l
    def parameter(s):
        q, typing = s.specifiers(True)
        if s.at() in (',', ')'): return q
        if s.names():
            d, n = s.declarator(True); s.declare(n, typing); return node('ParameterDeclaration', 0, q, d)
        return node('ParameterDeclaration', 1, q, s.abstract())
    def names(s):
        """Whether the declarator of a parameter that begins here names something."""
        k = 0
        while True:
            t = s.at(k)
            if t == '*' or t in QUAL: k += 1
            elif t == '(' and not s.is_type(k + 1) and s.at(k + 1) != ')': k += 1
            else: return t is not None and re.match(r'[A-Za-z_]', t) is not None and t not in KW
    def abstract(s):
        p = s.pointer(); d = None
        if s.at() == '(' and s.at(1) in ('*', '[', '('): d = node('DirectAbstractDeclarator', 0, s.eat(), s.abstract(), s.eat(')'))
        while s.at() in ('(', '['):
            pre = [d] if d else []
            if s.at() == '[': d = s.bracket('DirectAbstractDeclarator', 1, d, False)
            elif s.at(1) == ')': d = node('DirectAbstractDeclarator', 5, *pre, s.eat(), s.eat())
            else: d = node('DirectAbstractDeclarator', 5, *pre, s.eat(), s.parameters(), s.eat(')'))
        if d is None:
            if p is None: raise No()
            return p
        return d if p is None else node('AbstractDeclarator', 1, p, d)
    def declaration(s):
        if s.at() == '_Static_assert': return s.assertion()
        q, typing = s.specifiers(True); ds = []
        while s.at() != ';':
            if ds: s.eat(',')
            d, n = s.declarator(); s.declare(n, typing)
            ds.append(node('InitDeclarator', 1, d, s.eat(), s.init()) if s.at() == '=' else d)
        return node('Declaration', 0, q, *([node('InitDeclaratorList', 0, *ds)] if ds else []), s.eat())
    def definition(s):
        """A function definition: in its body the first list of parameters after its name is declared."""
        q, _ = s.specifiers(True); d, n = s.declarator(); s.declare(n, False)
        if s.at() != '{': raise No()
        s.scopes.append(dict(s.first or {})); b = s.compound(); s.scopes.pop()
        return node('FunctionDefinition', 0, q, d, b)
    def block(s, read):
        """What `read` reads, with its names gone after it (6.8.2 to 6.8.5)."""
        s.scopes.append({}); t = read(); s.scopes.pop(); return t
    def is_declaration(s): return s.at() == '_Static_assert' or s.is_type(0)
    def is_label(s):
        t = s.at(); return t is not None and re.match(r'[A-Za-z_]', t) and t not in KW and s.at(1) == ':'
    def block_item(s):
        return s.declaration() if s.is_declaration() and not s.is_label() else s.statement()
    def maybe(s, end): return [] if s.at() == end else [s.expr()]
    def statement(s):
        t = s.at()
        if s.is_label(): return node('LabeledStatement', 0, s.eat(), s.eat(), s.statement())
        if t == 'case': return node('LabeledStatement', 1, s.eat(), s.cond()[0], s.eat(':'), s.statement())
        if t == 'default': return node('LabeledStatement', 2, s.eat(), s.eat(':'), s.statement())
        if t == '{': return s.block(s.compound)
        if t in ('if', 'switch'): return s.block(s.selection)
        if t in ('while', 'do', 'for'): return s.block(s.iteration)
        if t == 'goto': return node('JumpStatement', 0, s.eat(), s.ident(), s.eat(';'))
        if t in ('continue', 'break'): return node('JumpStatement', 1 if t == 'continue' else 2, s.eat(), s.eat(';'))
        if t == 'return': return node('JumpStatement', 3, s.eat(), *s.maybe(';'), s.eat(';'))
        return node('ExpressionStatement', 0, *s.maybe(';'), s.eat(';'))
    def item_or_bad(s):
        """An item of a block, or where none derives the tokens past the first `;` or brace group at its depth, or up to the block's `}`."""
        saved = s.save(); first = s.i
        try: return s.block_item()
        except No: s.back(saved)
        partner = pairs(s.t)
        while s.at() not in (None, '}'):
            t = s.at(); p = partner[s.i]; group = t == '{' and p > s.i
            s.i = max(s.i, p) + 1
            if t == ';' or group: break
        return node('Bad', 0, *s.t[first:s.i])
    def compound(s):
        o = s.eat(); items = []
        while s.at() not in ('}', None): items.append(s.item_or_bad())
        return node('CompoundStatement', 0, o, *([node('BlockItemList', 0, *items)] if items else []), s.eat('}'))
    def selection(s):
        t = s.eat(); head = [t, s.eat('('), s.expr(), s.eat(')'), s.block(s.statement)]
        if t == 'switch': return node('SelectionStatement', 2, *head)
        if s.at() != 'else' or s.i in s.lost: return node('SelectionStatement', 0, *head)
        saved = s.save()
        try: return node('SelectionStatement', 1, *head, s.eat(), s.block(s.statement))
        except No:
            # no statement derives after it: it goes with no `if`, this one or one around it
            s.back(saved); s.lost.add(s.i); return node('SelectionStatement', 0, *head)
    def iteration(s):
        t = s.eat()
        if t == 'while': return node('IterationStatement', 0, t, s.eat('('), s.expr(), s.eat(')'), s.block(s.statement))
        if t == 'do': return node('IterationStatement', 1, t, s.block(s.statement), s.eat('while'), s.eat('('), s.expr(), s.eat(')'), s.eat(';'))
        o = s.eat('('); choice = 3 if s.is_declaration() else 2
        first = [s.declaration()] if choice == 3 else [*s.maybe(';'), s.eat(';')]
        return node('IterationStatement', choice, t, o, *first, *s.maybe(';'), s.eat(';'), *s.maybe(')'), s.eat(')'), s.block(s.statement))
    def external(s, to):
        """An external declaration on just the tokens up to one: with a body at its end a definition, else a declaration."""
        s.first = None; s.lists = 0
        t = s.definition() if s.t[to - 1] == '}' else s.declaration()
        if s.i != to: raise No()
        return t
    def file(s):
        """The items of a file: external declarations, and what is none past its first `;` or brace group."""
        all_tokens = s.t; partner = pairs(all_tokens); items = []
        while s.i < len(all_tokens):
            first = s.i; to = first; equal = False
            while to < len(all_tokens):
                t = all_tokens[to]; group = partner[to] > to; body = t == '{' and group and not equal and to > 0 and all_tokens[to - 1] in (')', ']')
                equal = equal or t == '='; to = max(to, partner[to]) + 1
                if t == ';' or body: break
            saved = s.save(); s.t = all_tokens[:to]
            try: items.append(s.external(to))
            except No:
                s.back(saved)
                while s.i < len(all_tokens):
                    t = all_tokens[s.i]; group = t == '{' and partner[s.i] > s.i
                    s.i = max(s.i, partner[s.i]) + 1
                    if t == ';' or group: break
                items.append(node('Bad', 0, *all_tokens[first:s.i]))
            s.t = all_tokens
        return ' '.join(items)
GOALS = {'expression': P.expr, 'declaration': P.declaration, 'type name': P.type_name, 'statement': P.statement, 'block item': P.block_item, 'file': P.file}
def tree(goal, text, typedefs):
    p = P(lex(text), typedefs)
    try:
        t = GOALS[goal](p)
        return t if p.i == len(p.t) else None
    except No: return None
def cases():
    """Each line of cases.txt, and of a case its goal, its text, the typedef names and its tree."""
    goal = 'expression'; names = []
    for l in open(os.path.join(HERE, 'cases.txt')).read().split('\n')[:-1]:
        if l in ('[ends whole]', '[items]', '[outline]') or goal is None: goal = None; yield l, None; continue
        if l.startswith('[') and l[1:-1] in GOALS: goal = l[1:-1]; yield l, None
        elif l.startswith('typedefs'): names = l.split()[1:]; yield l, None
        elif not l or l.startswith(';'): yield l, None
        else: yield l, (goal, names, tree(goal, l, names) or 'none')
# what declares a name, as clang prints its type: from the tree, part by part
def read(t):
    """A tree as it is written out, as nested lists."""
    stack = [[]]; i = 0
    for m in re.finditer(r'\((\w+\.\d+)|"[^"]*"|\'[^\']*\'|\)|\(|[^\s()]+', t):
        if m.group(1): stack.append([m.group(1)])
        elif m.group(0) == ')' and not (stack[-1] and t[m.start() - 1] == ' '): x = stack.pop(); stack[-1].append(x)
        else: stack[-1].append(m.group(0))
    return stack[0][0]
def words(t): return [t] if isinstance(t, str) else [w for x in t[1:] for w in words(x)]
def pointers(p):
    """A Pointer, from the left: the qualifiers of each `*`."""
    out = []
    while p:
        q = [words(x) for x in p[1:] if isinstance(x, list) and x[0] == 'TypeQualifierList.0']
        out.append(q[0] if q else []); p = next((x for x in p[1:] if isinstance(x, list) and x[0].startswith('Pointer')), None)
    return out
def shape(d, inner):
    """The type of what a declarator names, where the specifiers with all around it make `inner`."""
    if d is None: return inner
    k = d[0]
    if k.startswith('Pointer'): d = [k, d]; return around(d[1], inner)
    if k in ('Declarator.0', 'AbstractDeclarator.1'): return shape(d[2], around(d[1], inner))
    if k == 'DirectDeclarator.0': return inner
    if k in ('DirectDeclarator.1', 'DirectAbstractDeclarator.0'): return shape(d[2], inner)
    first = next((x for x in d[1:] if isinstance(x, list) and x[0].startswith('Direct')), None)
    if '[' in d[1:]:
        size = [x for x in d[1:] if isinstance(x, list) and not x[0].startswith('Direct') and x[0] != 'TypeQualifierList.0']
        return shape(first, ('array', ' '.join(words(size[0])) if size else '', inner))
    ps = next((x for x in d[1:] if isinstance(x, list) and x[0].startswith('Parameter')), None)
    return shape(first, ('function', ps, inner))
def around(p, inner):
    for q in pointers(p): inner = ('pointer', q, inner)
    return inner
def shown(t, name=''):
    """A type in C's notation, as clang writes it."""
    if t[0] == 'base': return t[1] + (' ' + name if name else '')
    if t[0] == 'pointer':
        q = ' '.join(t[1]); star = '*' + q + (' ' + name if q and name and not name.startswith(('*', '(', '[')) else name)
        if q and name and name.startswith('*'): star = '*' + q + ' ' + name
        return shown(t[2], '(' + star + ')' if t[2][0] in ('array', 'function') else star)
    if t[0] == 'array': return shown(t[2], name + '[' + t[1] + ']')
    ps = t[1]
    if ps is None: return shown(t[2], name + '()')
    more = ps[0] == 'ParameterTypeList.1'; ps = ps[1] if more else ps
    return shown(t[2], name + '(' + ', '.join([parameter(p) for p in ps[1:]] + (['...'] if more else [])) + ')')
def parameter(p):
    if p[0] == 'DeclarationSpecifiers.0': return ' '.join(words(p))
    t = shape(p[2], ('base', ' '.join(words(p[1]))))
    if t[0] == 'array': t = ('pointer', [], t[2])
    if t[0] == 'function': t = ('pointer', [], t)
    return shown(t)
def types(t):
    """What a declaration of one name declares, as clang shows its type."""
    d = read(t); base = ('base', ' '.join(words(d[1])))
    return shown(shape(d[2][1], base))
def clang(text):
    with tempfile.NamedTemporaryFile('w', suffix='.c') as f:
        f.write(text); f.flush()
        out = subprocess.run(['clang', '-std=c11', '-fsyntax-only', '-fno-color-diagnostics', '-w', '-Xclang', '-ast-dump', f.name], capture_output=True, text=True).stdout
    for l in out.split('\n'):
        m = re.match(r"\|?`?-?(?:Var|Function)Decl 0x\w+ <(?!<invalid).*? '([^']*)'", l)
        if m: return m.group(1)
if __name__ == '__main__':
    import pycparser
    def outside(goal, text, names):
        before = ''.join('typedef int ' + n + '; ' for n in names)
        if goal == 'file': goal = 'declaration'
        if goal in ('statement', 'block item'): text = 'void f0(void) { ' + ('for (;;) switch (x) ' if goal == 'statement' else '') + text + ' }'; goal = 'declaration'
        try: pycparser.CParser().parse(before + ('void f0(void) { x = sizeof(' + text + '); }' if goal != 'declaration' else text)); return True
        except Exception: return False
    rows = []; puzzles = 0; count = 0; differ = []
    part = ''
    for l, c in cases():
        if l.startswith(';'): part = l
        rows.append(l if c is None else l + ' => ' + c[2])
        if c is None: continue
        count += 1
        if outside(c[0], l, c[1]) != (c[2] != 'none' and not (c[0] == 'file' and '(Bad.0' in c[2])): differ.append(('takes' if c[2] == 'none' else 'refuses') + ' ' + l)
        if part.startswith('; textbook'):
            puzzles += 1; a = types(c[2]).replace(' ', ''); b = (clang('extern ' + l) or '').replace(' ', '')
            if a != b: print('clang differs:', l, '|', a, '|', b)
    print(count, 'cases,', puzzles, 'puzzles; pycparser', *differ, sep='\n  ')
    d = os.path.join(HERE, '..', '..', 'crates', 'cl_tree_cases')
    open(os.path.join(d, 'stdout'), 'w').write('\n'.join(rows) + '\n')
    open(os.path.join(d, 'stdin'), 'w').write('\n'.join(r.split(' => ')[0] + ' => ' if ' => ' in r else r for r in rows) + '\n')
