"""Writes crates/cl_expr/src/table.rt and *_rows.rt, specs/code/Table.antt, specs/code/Looks.antt and proofs/All.antt from the places of the productions."""
import os
from emit_tree import *
from places import *
ROOT = os.path.join(os.path.dirname(os.path.abspath(__file__)), '..', '..', 'crates', 'cl_expr')
def w(f, s):
    f = os.path.join(ROOT, f); os.makedirs(os.path.dirname(f), exist_ok=True); open(f, 'w').write(s)
order = lambda S: [c for c in CLASSES if c in S]
def sep_rs(s): return 'None' if s is None else f'Some(Separator {{ class: Class::{s[0]}, act: Act::{s[1]} }})'
def sep_a(s): return 'None' if s is None else f'(Some (record {{ class = cl.{s[0]}; act = ac.{s[1]} }}))'
flat_edges = [e for q in P for e in q['edges']]
def ranges(lists):
    at = 0; out = []
    for l in lists: out.append((at, at + len(l))); at += len(l)
    return out
er = ranges([q['edges'] for q in P])
kr = ranges([K[g] for g in GOALS]); orr = ranges([openers[g] for g in GOALS]); sr = ranges([suffixes[g] for g in GOALS])
ROWS = '''// a list, in lines as they stand
macro_rules! rows {
    ($($row:expr),* $(,)?) => {
        [$($row),*]
    };
}

'''
def chunked(name, ty, items, size, one_line=True):
    if one_line: return f'static {name}: [{ty}; {len(items)}] = [\n' + wrap(items) + '];\n\n'
    return f'static {name}: [{ty}; {len(items)}] = rows! {{\n' + wrap(items) + '};\n\n'
def cterm(t): return f'Terminal::{t}' if t in SETS else f'is!({t})'
def csym(s): return 'Symbol::Entry' if s[0] == 'I' else f'node!({s[1]})' if s[0] == 'N' else (f'token!({cterm(s[1])})' if s[2] == 'Stay' else f'act!({cterm(s[1])}, {s[2]})')
def cedge(x):
    a, s, n = x
    return f'edge!({csym(s)}, {n})' if a is None else f'after!({a[0]}, {a[1]}, {csym(s)}, {n})'
q = '''//! The edges of the places, one place after the other. Written by tools/grammar/emit_expr.py.

ghost use Rattle.std.specs.Prelude.{◌≡◌};
ghost use Rattle.cl_expr.specs.code.Table as t;

use crate::table::Edge;
use cl_tree::{Act, Class, Nonterminal, Separator, Symbol, Terminal};

macro_rules! is {
    ($class:ident) => {
        Terminal::Is(Class::$class)
    };
}

macro_rules! token {
    ($terminal:expr) => {
        Symbol::Token($terminal, Act::Stay)
    };
}

macro_rules! act {
    ($terminal:expr, $act:ident) => {
        Symbol::Token($terminal, Act::$act)
    };
}

macro_rules! node {
    ($goal:ident) => {
        Symbol::Node(Nonterminal::$goal)
    };
}

macro_rules! edge {
    ($symbol:expr, $next:expr) => {
        Edge {
            before: None,
            symbol: $symbol,
            next: $next,
        }
    };
}

macro_rules! after {
    ($class:ident, $act:ident, $symbol:expr, $next:expr) => {
        Edge {
            before: Some(Separator {
                class: Class::$class,
                act: Act::$act,
            }),
            symbol: $symbol,
            next: $next,
        }
    };
}

''' + ROWS
def fn(f, st, ty, doc): return f"/// {doc}.\npub fn {f}() -> &'static [{ty}]\n    ensures {{ result.now ≡ t.{f} }}\n{{\n    &{st}\n}}\n"
q += chunked('EDGES', 'Edge', [cedge(x) for x in flat_edges], 0, False) + fn('all_edges', 'EDGES', 'Edge', 'The edges of all places, one place after the other')
w('src/edge_rows.rt', q)
q = '''//! The places, by their numbers. Written by tools/grammar/emit_expr.py.

ghost use Rattle.std.specs.Prelude.{◌≡◌};
ghost use Rattle.cl_expr.specs.code.Table as t;

use crate::table::{Head, Label, Row, Ways};
use cl_tree::{Class, Nonterminal, Rule, Terminal};

macro_rules! row {
    ($first:expr, $last:expr, $label:expr, $bar:expr, $scoped:expr, $corner:expr, $turning:expr, $named:expr) => {
        Row {
            first: $first,
            last: $last,
            label: $label,
            bar: $bar,
            scoped: $scoped,
            corner: $corner,
            turning: $turning,
            named: $named,
        }
    };
}

macro_rules! label {
    ($rule:ident, $choice:expr) => {
        Some(Label {
            rule: Rule::$rule,
            choice: $choice,
        })
    };
}

// a place in the midst of a production: its edges from one up to another
macro_rules! inner {
    ($first:expr, $last:expr) => {
        row!($first, $last, None, None, false, None, None, false)
    };
}

// a place where a node may end
macro_rules! ending {
    ($first:expr, $last:expr, $rule:ident, $choice:expr) => {
        row!($first, $last, label!($rule, $choice), None, false, None, None, false)
    };
}

// the same of a declarator that names something, or of a statement that ends with an `if` without `else`
macro_rules! naming {
    ($first:expr, $last:expr, $rule:ident, $choice:expr) => {
        row!($first, $last, label!($rule, $choice), None, false, None, None, true)
    };
}

// a place where a node may end before anything but a typedef name
macro_rules! untyped {
    ($first:expr, $last:expr, $rule:ident, $choice:expr) => {
        row!($first, $last, label!($rule, $choice), Some(Terminal::Typed), false, None, None, false)
    };
}

// a place where a block may end
macro_rules! scoped {
    ($first:expr, $last:expr, $rule:ident, $choice:expr) => {
        row!($first, $last, label!($rule, $choice), None, true, None, None, false)
    };
}

// the same of a block that ends with an `if` without `else`
macro_rules! open {
    ($first:expr, $last:expr, $rule:ident, $choice:expr) => {
        row!($first, $last, label!($rule, $choice), None, true, None, None, true)
    };
}

// the same where an `else` may follow
macro_rules! without_else {
    ($first:expr, $last:expr, $rule:ident, $choice:expr) => {
        row!($first, $last, label!($rule, $choice), Some(Terminal::Is(Class::Else)), true, None, None, true)
    };
}

// a place where a production begins with a nonterminal that is read before
macro_rules! corner {
    ($first:expr, $last:expr, $goal:ident, $next:expr) => {
        row!($first, $last, None, None, false, Some(Head { goal: Nonterminal::$goal, next: $next }), None, false)
    };
}

// a place after a declarator of a parameter, or after a statement within another one
macro_rules! turning {
    ($first:expr, $last:expr, $named:expr, $other:expr) => {
        row!($first, $last, None, None, false, None, Some(Ways { named: $named, other: $other }), false)
    };
}

''' + ROWS
FORMS = {('ending', False): 'ending', ('ending', True): 'naming', ('untyped', False): 'untyped', ('scoped', False): 'scoped', ('scoped', True): 'open', ('without_else', True): 'without_else'}
def row_rs(i, p):
    f = f'{er[i][0]}, {er[i][1]}'
    assert sum(map(bool, (p['name'], p['corner'], p['turn']))) <= 1
    if p['name']: return f'{FORMS[form(p, "ending"), is_named[i]]}!({f}, {p["name"][0]}, {p["name"][1]})'
    if p['corner']: return f'corner!({f}, {p["corner"][0]}, {p["corner"][1]})'
    if p['turn']: return f'turning!({f}, {p["turn"][0]}, {p["turn"][1]})'
    return f'inner!({f})'
q += chunked('ROWS', 'Row', [row_rs(i, p) for i, p in enumerate(P)], 0, False) + fn('rows', 'ROWS', 'Row', 'The places')
w('src/place_rows.rt', q)
q = '''//! The nonterminals. Written by tools/grammar/emit_expr.py.

ghost use Rattle.std.specs.Prelude.{◌≡◌};
ghost use Rattle.cl_expr.specs.code.Table as t;

use crate::table::GoalRow;
use cl_tree::{Class, Span};

macro_rules! span {
    ($from:expr, $to:expr) => {
        Span {
            from: $from,
            to: $to,
        }
    };
}

macro_rules! goal {
    ($kinds:expr, $openers:expr, $suffixes:expr, $shuns:expr) => {
        GoalRow {
            kinds: $kinds,
            openers: $openers,
            suffixes: $suffixes,
            shuns: $shuns,
        }
    };
}

''' + ROWS
def shun_rs(g): return f'Some({cterm(SHUNS[g])})' if g in SHUNS else 'None'
sp = lambda r: f'span!({r[0]}, {r[1]})'
q += chunked('GOALS', 'GoalRow', [f'goal!({sp(kr[i])}, {sp(orr[i])}, {sp(sr[i])}, {shun_rs(g)})' for i, g in enumerate(GOALS)], 0, False)
q += chunked('KINDS', 'u16', [str(z) for g in GOALS for z in K[g]], 0)
q += chunked('OPENERS', 'u16', [str(z) for g in GOALS for z in openers[g]], 0)
q += chunked('SUFFIXES', 'u16', [str(z) for g in GOALS for z in suffixes[g]], 0)
q += '\n'.join(fn(*x) for x in (('goal_rows', 'GOALS', 'GoalRow', 'The nonterminals'), ('all_kinds', 'KINDS', 'u16', 'The places where the trees of each nonterminal end'),
    ('all_openers', 'OPENERS', 'u16', 'The places at the left end of each nonterminal'), ('all_suffixes', 'SUFFIXES', 'u16', 'The places that go on from there')))
w('src/goal_rows.rt', q.replace('use cl_tree::{Class, Span};', 'use cl_tree::{Span, Terminal};'))
# what a token of each class begins: at a place the number of an edge, at a nonterminal that of an opener, or of a suffix that may go on; from 1, and 0 for nothing.
# A row has a character for each class, in their order: 0 is '0', and so on
def first_of(lists, c): return next((i + 1 for i, l in enumerate(lists) if c in l), 0)
def number_row(lists): return ''.join(chr(48 + first_of(lists, c)) for c in CLASSES)
PLACE_ROWS = [number_row([beg(e) for e in q['edges']]) for q in P]
OPENER_ROWS = [number_row([entering(s) for s in openers[g]]) for g in GOALS]
SUFFIX_ROWS = [number_row([entering(P[s]['corner'][1]) for s in suffixes[g]]) for g in GOALS]
NUMBER_ROWS = list(dict.fromkeys(PLACE_ROWS + OPENER_ROWS + SUFFIX_ROWS))
assert len(NUMBER_ROWS) <= 256 and all(r.isprintable() and '"' not in r and '\\' not in r for r in NUMBER_ROWS)
LOOKS = [('place_numbers', 'PLACES', 'The rows of the places', PLACE_ROWS), ('opener_numbers', 'OPENERS', 'The rows of what begins a nonterminal', OPENER_ROWS),
    ('suffix_numbers', 'SUFFIXES', 'The rows of what goes on from a nonterminal', SUFFIX_ROWS)]
q = '''//! What a token begins, as rows of numbers. Written by tools/grammar/emit_expr.py.
//!
//! A row has a character for each class of tokens, in their order: `0` for nothing, `1` for the first edge, opener or suffix, and so on.

ghost use Rattle.std.specs.Prelude.{◌≡◌, map};
ghost use Rattle.cl_expr.specs.code.Looks as l;

''' + ROWS
q += f"static NUMBERS: [&'static [u8]; {len(NUMBER_ROWS)}] = rows! {{\n" + ''.join(f'    b"{r}",\n' for r in NUMBER_ROWS) + '};\n\n'
for f, st, doc, rows in LOOKS: q += chunked(st, 'u8', [str(NUMBER_ROWS.index(r)) for r in rows], 0)
q += '''/// The rows of numbers.
pub fn number_rows() -> &'static [&'static [u8]]
    ensures { map l.bytes result.now ≡ l.number_rows }
{
    &NUMBERS
}

''' + '\n'.join(fn(f, st, 'u8', doc).replace(' t.', ' l.') for f, st, doc, rows in LOOKS)
w('src/look_rows.rt', q)
A = '''-- What a token begins, as rows of numbers. Written by tools/grammar/emit_expr.py; proofs/Numbers checks it against the places.
use Rattle.std.specs.Prelude.{ℕ, ◌-◌, List, [], ◌∷◌, Option, Some, None, slice_get, codes}
use Rattle.std.specs.Borrow.{Bor}
use Rattle.cl_tree.specs.declared.class.Class.{Class}
use Rattle.cl_tree.specs.declared.class.Class.TheVariants as cl

abbrev pub bytes : Bor (List ℕ) → List ℕ
bytes r = r.now

-- the rows: a character for each class, in their order
unfoldable pub number_rows : List (List ℕ)
number_rows =
''' + ''.join(f'    codes "{r}" ∷\n' for r in NUMBER_ROWS) + '    []\n'
for f, st, doc, rows in LOOKS: A += f'\n-- {doc[0].lower() + doc[1:]}\nunfoldable pub {f} : List ℕ\n{f} = ' + ' ∷ '.join(str(NUMBER_ROWS.index(r)) for r in rows) + ' ∷ []\n'
A += '\nabbrev pub class_number : Class → ℕ\n' + ''.join(f'class_number cl.{c} = {i}\n' for i, c in enumerate(CLASSES))
A += '''
abbrev pub row_by : Option (List ℕ) → List ℕ
row_by None = []
row_by (Some row) = row

abbrev pub row_of : Option ℕ → List ℕ
row_of None = []
row_of (Some n) = row_by (slice_get number_rows n)

abbrev pub digit : Option ℕ → ℕ
digit None = 0
digit (Some c) = c - 48

-- the number of a class in a row: 0 for nothing
abbrev pub in_row : List ℕ → Class → ℕ
in_row row k = digit (slice_get row (class_number k))

-- the same in the row of a member of a list
abbrev pub number_at : List ℕ → ℕ → Class → ℕ
number_at list i k = in_row (row_of (slice_get list i)) k
'''
w('specs/code/Looks.antt', A)
w('src/table.rt', '''//! Where the parser goes: places in the productions, as numbers of rows.

use cl_tree::{Nonterminal, Rule, Separator, Span, Symbol, Terminal};

/// What may stand at a place, and the place after it.
#[derive(Clone, Copy)]
pub struct Edge {
    pub before: Option<Separator>,
    pub symbol: Symbol,
    pub next: u16,
}

/// The rule and alternative of a node.
#[derive(Clone, Copy)]
pub struct Label {
    pub rule: Rule,
    pub choice: u8,
}

/// A nonterminal that is read before it is known which production it begins, and the place after it.
#[derive(Clone, Copy)]
pub struct Head {
    pub goal: Nonterminal,
    pub next: u16,
}

/// The places after a declarator that names something, and after any other one; or after a statement that ends with an `if`
/// without `else`, and after any other one.
#[derive(Clone, Copy)]
pub struct Ways {
    pub named: u16,
    pub other: u16,
}

/// A place: its edges as a range of all of them, the node that may end there, what may not follow it then and whether it is a
/// block, the nonterminal with which its production begins if that is read before, the places after a part whose kind
/// decides, and whether the node is a declarator that names something or a statement that ends with an `if` without `else`.
#[derive(Clone, Copy)]
pub struct Row {
    pub first: u16,
    pub last: u16,
    pub label: Option<Label>,
    pub bar: Option<Terminal>,
    pub scoped: bool,
    pub corner: Option<Head>,
    pub turning: Option<Ways>,
    pub named: bool,
}

/// A nonterminal: the places where its trees end, those at its left end and those that go on from there, as ranges, and the
/// tokens that may not begin it.
#[derive(Clone, Copy)]
pub struct GoalRow {
    pub kinds: Span,
    pub openers: Span,
    pub suffixes: Span,
    pub shuns: Option<Terminal>,
}
''')
BEFORE_ELSE, = [n for n, q in enumerate(P) if q['bar'] == 'Else']; (_, _, AFTER_ELSE), = P[BEFORE_ELSE]['edges']; (_, _, PAST_ELSE), = P[AFTER_ELSE]['edges']
A = '''-- The places in the productions. Written by tools/grammar/emit_expr.py; proofs/Conditions and proofs/Bridge check it against the productions.
use Rattle.std.specs.Prelude.{ℕ, List, [], ◌∷◌, ◌++◌, Option, Some, None, Bool, true, false, cond, slice_get, slice_range}
use Rattle.cl_tree.specs.declared.class.Class.{Class}
use Rattle.cl_tree.specs.declared.class.Class.TheVariants as cl
use Rattle.cl_tree.specs.declared.rule.Rule.TheVariants as ru
use Rattle.cl_tree.specs.declared.nonterminal.Nonterminal.{Nonterminal}
use Rattle.cl_tree.specs.declared.nonterminal.Nonterminal.TheVariants as nt
use Rattle.cl_tree.specs.declared.grammar.Terminal.{Terminal}
use Rattle.cl_tree.specs.declared.grammar.Terminal.TheVariants as te
use Rattle.cl_tree.specs.declared.grammar.Act.TheVariants as ac
use Rattle.cl_tree.specs.declared.grammar.Symbol.{Symbol}
use Rattle.cl_tree.specs.declared.grammar.Symbol.TheVariants.{Token, Node, Entry}
use Rattle.cl_tree.specs.declared.grammar.Separator.{Separator}
use Rattle.cl_tree.specs.Derives.{barred}
use Rattle.cl_expr.specs.declared.table.Edge.{Edge}
use Rattle.cl_expr.specs.declared.table.Label.{Label}
use Rattle.cl_expr.specs.declared.table.Head.{Head}
use Rattle.cl_expr.specs.declared.table.Ways.{Ways}
use Rattle.cl_expr.specs.declared.table.Row.{Row}
use Rattle.cl_expr.specs.declared.table.GoalRow.{GoalRow}
use Rattle.cl_tree.specs.declared.grammar.Span.{Span}

-- a production, by its number, and how many parts of its right side are behind
pub record Item : Type 0 where
  pub production : ℕ
  pub behind : ℕ

-- a place: what may stand there, the node that may end there, what may not follow it and whether it is a block, the nonterminal with which its
-- production begins if that is read before, the places after a part that turns on its kind, whether the node is a declarator that names something or
-- a statement that ends with an `if` without `else`, the place where the production begins, whether it holds no block, the tokens that go on from
-- where the node may end, and the productions that are there
pub record Place : Type 0 where
  pub edges : List Edge
  pub label : Option Label
  pub bar : Option Terminal
  pub scoped : Bool
  pub corner : Option Head
  pub turning : Option Ways
  pub named : Bool
  pub home : ℕ
  pub flat : Bool
  pub ends : List Class
  pub items : List Item

-- a nonterminal: the places where its trees end, those at its left end, those that go on from there, the tokens that begin it, that go on from it
-- and that may not begin it, and whether it holds no block
pub record Goal : Type 0 where
  pub kinds : List ℕ
  pub openers : List ℕ
  pub suffixes : List ℕ
  pub firsts : List Class
  pub goes : List Class
  pub shuns : Option Terminal
  pub flat : Bool

abbrev e : Symbol → ℕ → Edge
e s n = record { before = None; symbol = s; next = n }

abbrev after : Separator → Symbol → ℕ → Edge
after b s n = record { before = Some b; symbol = s; next = n }

abbrev i : ℕ → ℕ → Item
i n d = record { production = n; behind = d }

abbrev label : _ → ℕ → Option Label
label r c = Some (record { rule = r; choice = c })

abbrev head : Nonterminal → ℕ → Option Head
head g n = Some (record { goal = g; next = n })

abbrev ways : ℕ → ℕ → Option Ways
ways a b = Some (record { named = a; other = b })

abbrev pub nowhere : Place
nowhere = record { edges = []; label = None; bar = None; scoped = false; corner = None; turning = None; named = false; home = 0; flat = true; ends = []; items = [] }

abbrev pub nothing : Goal
nothing = record { kinds = []; openers = []; suffixes = []; firsts = []; goes = []; shuns = None; flat = true }

abbrev row : List Edge → Option Label → Option Terminal → Bool → Option Head → Option Ways → Bool → ℕ → Bool → List Class → List Item → Place
row es l b s c t n h f ends is = record { edges = es; label = l; bar = b; scoped = s; corner = c; turning = t; named = n; home = h; flat = f; ends = ends; items = is }

unfoldable pub places : List Place
places =
'''.replace('abbrev label : _ → ℕ', 'abbrev label : Rule → ℕ').replace('use Rattle.cl_tree.specs.declared.rule.Rule.TheVariants as ru', 'use Rattle.cl_tree.specs.declared.rule.Rule.{Rule}\nuse Rattle.cl_tree.specs.declared.rule.Rule.TheVariants as ru')
def lst(xs): return '(' + ' ∷ '.join(xs + ['[]']) + ')' if xs else '[]'
def tterm_a(t): return ("te." + t) if t in SETS else "(te.Is cl." + t + ")"
def tsym_a(s): return 'Entry' if s[0] == 'I' else f'(Node nt.{s[1]})' if s[0] == 'N' else f'(Token {tterm_a(s[1])} ac.{s[2]})'
def edge_a(x):
    a, s, n = x
    return f'e {tsym_a(s)} {n}' if a is None else f'after (record {{ class = cl.{a[0]}; act = ac.{a[1]} }}) {tsym_a(s)} {n}'
for n, q in enumerate(P):
    if q['items']: A += f'    -- {n}: ' + '; '.join(show(*x) for x in q['items'][:2]) + (' ..' if len(q['items']) > 2 else '') + '\n'
    else: A += f'    -- {n}: ' + ('a token' if n == 0 else 'a statement was read' if q['turn'] and 'Open' in PRODS[P[q['turn'][0]]['items'][0][0]]['of'] or q['turn'] and 'Statement' in show(*P[q['turn'][0]]['items'][0]) else 'a declarator was read') + '\n'
    lab = f'(label ru.{q["name"][0]} {q["name"][1]})' if q['name'] else 'None'
    A += f'    row {lst([edge_a(x) for x in q["edges"]])} {lab} {"(Some %s)" % tterm_a(q["bar"]) if q["bar"] else "None"} {"true" if q["scoped"] else "false"} {"(head nt.%s %d)" % q["corner"] if q["corner"] else "None"} {"(ways %d %d)" % q["turn"] if q["turn"] else "None"} {"true" if is_named[n] else "false"} {q["home"]} {"true" if flat[q["home"]] else "false"} {lst(["cl." + c for c in order(ends[n])])} {lst(["i %d %d" % x for x in q["items"]])} ∷\n'
A += '    []\n\nunfoldable pub goals : List Goal\ngoals =\n'
for g in GOALS:
    A += f'    -- {g}\n    record {{ kinds = {lst([str(z) for z in K[g]])}; openers = {lst([str(z) for z in openers[g]])}; suffixes = {lst([str(z) for z in suffixes[g]])}; firsts = {lst(["cl." + c for c in order(F[g])])}; goes = {lst(["cl." + c for c in order(goes[g])])}; shuns = {"Some %s" % tterm_a(SHUNS[g]) if g in SHUNS else "None"}; flat = {"true" if FLAT[g] else "false"} }} ∷\n'
A += '''    []

-- the tokens that begin an item of a block or what is none: all but what ends the block
unfoldable pub entry_classes : List Class
entry_classes = ''' + ' ∷ '.join(['cl.' + c for c in ENTRIES] + ['[]']) + '''

-- the places where the productions begin, by the numbers of these
unfoldable pub starts : List ℕ
starts = ''' + ' ∷ '.join([str(START[i]) for i in range(len(PRODS))] + ['[]']) + '''

-- the places before and after the `else` of an `if`, and after the statement that follows it
abbrev pub before_else : ℕ
before_else = ''' + f'{BEFORE_ELSE}' + '''

abbrev pub after_else : ℕ
after_else = ''' + f'{AFTER_ELSE}' + '''

abbrev pub past_else : ℕ
past_else = ''' + f'{PAST_ELSE}' + '''

abbrev pub number : Nonterminal → ℕ
''' + ''.join(f'number nt.{g} = {i}\n' for i, g in enumerate(GOALS)) + '''
abbrev pub place_of : Option Place → Place
place_of None = nowhere
place_of (Some p) = p

abbrev pub goal_of : Option Goal → Goal
goal_of None = nothing
goal_of (Some g) = g

unfoldable pub place : ℕ → Place
place q = place_of (slice_get places q)

unfoldable pub goal : ℕ → Goal
goal g = goal_of (slice_get goals g)

unfoldable pub edges : ℕ → List Edge
edges q = (place q).edges

unfoldable pub name_of : ℕ → Option Label
name_of q = (place q).label

unfoldable pub bar_of : ℕ → Option Terminal
bar_of q = (place q).bar

-- whether the node that may end there is a block
unfoldable pub scoped : ℕ → Bool
scoped q = (place q).scoped

unfoldable pub bars : ℕ → List Class
bars q = barred (place q).bar

unfoldable pub corner : ℕ → Option Head
corner q = (place q).corner

unfoldable pub turning : ℕ → Option Ways
turning q = (place q).turning

unfoldable pub is_named : ℕ → Bool
is_named q = (place q).named

unfoldable pub home : ℕ → ℕ
home q = (place q).home

unfoldable pub ends : ℕ → List Class
ends q = (place q).ends

unfoldable pub items : ℕ → List Item
items q = (place q).items

unfoldable pub kinds : Nonterminal → List ℕ
kinds g = (goal (number g)).kinds

unfoldable pub openers : Nonterminal → List ℕ
openers g = (goal (number g)).openers

unfoldable pub suffixes : Nonterminal → List ℕ
suffixes g = (goal (number g)).suffixes

unfoldable pub firsts : Nonterminal → List Class
firsts g = (goal (number g)).firsts

unfoldable pub goes : Nonterminal → List Class
goes g = (goal (number g)).goes

unfoldable pub flat : ℕ → Bool
flat q = (place q).flat

unfoldable pub flat_goal : Nonterminal → Bool
flat_goal g = (goal (number g)).flat

unfoldable pub shunned : Nonterminal → Option Terminal
shunned g = (goal (number g)).shuns

-- the place after a part
abbrev pub turned : Option Ways → ℕ → Bool → ℕ
turned None q b = q
turned (Some w) q b = cond b w.named w.other

unfoldable pub turn : ℕ → ℕ → ℕ
turn q z = turned (turning q) q (is_named z)

-- the place after what stands first at a place
abbrev pub next_by : Option Edge → ℕ → ℕ
next_by None q = q
next_by (Some e) q = e.next

-- the lists as the code has them
abbrev edges_in : List Place → List Edge
edges_in [] = []
edges_in (p ∷ ps) = p.edges ++ edges_in ps

abbrev flat_map : {X : Type 0} → (Goal → List X) → List Goal → List X
flat_map f [] = []
flat_map f (g ∷ gs) = f g ++ flat_map f gs

unfoldable pub all_edges : List Edge
all_edges = edges_in places

unfoldable pub all_kinds : List ℕ
all_kinds = flat_map (λ g. g.kinds) goals

unfoldable pub all_openers : List ℕ
all_openers = flat_map (λ g. g.openers) goals

unfoldable pub all_suffixes : List ℕ
all_suffixes = flat_map (λ g. g.suffixes) goals

abbrev rows_from : ℕ → List Place → List Row
rows_from n [] = []
rows_from n (p ∷ ps) = record { first = n; last = n + length p.edges; label = p.label; bar = p.bar; scoped = p.scoped; corner = p.corner; turning = p.turning; named = p.named } ∷ rows_from (n + length p.edges) ps

abbrev span : ℕ → ℕ → Span
span n k = record { from = n; to = n + k }

abbrev goal_rows_from : ℕ → ℕ → ℕ → List Goal → List GoalRow
goal_rows_from a b c [] = []
goal_rows_from a b c (g ∷ gs) =
    record { kinds = span a (length g.kinds); openers = span b (length g.openers); suffixes = span c (length g.suffixes); shuns = g.shuns }
    ∷ goal_rows_from (a + length g.kinds) (b + length g.openers) (c + length g.suffixes) gs

unfoldable pub rows : List Row
rows = rows_from 0 places

unfoldable pub goal_rows : List GoalRow
goal_rows = goal_rows_from 0 0 0 goals
'''
A = A.replace('slice_get, slice_range}', 'slice_get, length, ◌+◌}')
w('specs/code/Table.antt', A)
L = '''-- Every class, and numbers that tell apart.
use Rattle.std.proofs.Common.{◌≡◌, ℕ, List, [], ◌∷◌, refl, ap, sym, ◌∙◌}
use Rattle.std.specs.Prelude.{Some, slice_get}
use Rattle.cl_tree.specs.declared.class.Class.{Class}
use Rattle.cl_tree.specs.declared.class.Class.TheVariants as cl
use Rattle.cl_tree.specs.declared.nonterminal.Nonterminal.{Nonterminal}
use Rattle.cl_tree.specs.declared.nonterminal.Nonterminal.TheVariants as nt
use Rattle.cl_tree.specs.declared.grammar.Act.{Act}
use Rattle.cl_tree.specs.declared.grammar.Act.TheVariants as ac
use Rattle.cl_tree.specs.declared.rule.Rule.{Rule}
use Rattle.cl_tree.specs.declared.rule.Rule.TheVariants as ru
use Rattle.cl_expr.specs.code.Looks.{class_number}
use Rattle.cl_expr.specs.code.Table.{number}

'''
for one, ty, m, xs in (('class', 'Class', 'cl', CLASSES), ('goal', 'Nonterminal', 'nt', GOALS), ('act', 'Act', 'ac', ACTS), ('rule', 'Rule', 'ru', ['Token', 'Bad'] + RULES_TREE)):
    many = 'classes' if one == 'class' else one + 's'
    L += f'abbrev pub all_{many} : List {ty}\nall_{many} = {" ∷ ".join([m + "." + x for x in xs] + ["[]"])}\n\n'
    if one == 'goal': num = 'number'
    elif one == 'class': num = 'class_number'
    else:
        num = one + '_number'
        L += f'abbrev pub {num} : {ty} → ℕ\n' + ''.join(f'{num} {m}.{x} = {i}\n' for i, x in enumerate(xs)) + '\n'
    L += f'pub numbered_{one} : (x : {ty}) → slice_get all_{many} ({num} x) ≡ Some x\n' + ''.join(f'numbered_{one} {m}.{x} = refl\n' for i, x in enumerate(xs)) + '\n'
    L += f'some_{one} : {{x y : {ty}}} → Some x ≡ Some y → x ≡ y\nsome_{one} e = cc\n\n'
    L += f'pub same_{one}_is : (x y : {ty}) → {num} x ≡ {num} y → x ≡ y\nsame_{one}_is x y e = some_{one} (sym (numbered_{one} x) ∙ ap (λ (n : ℕ). slice_get all_{many} n) e ∙ numbered_{one} y)\n\n'
w('proofs/All.antt', L.rstrip() + '\n')
if __name__ == '__main__': print(len(flat_edges), len(P))
