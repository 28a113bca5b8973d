"""Writes crates/cl_tree/src/{rule,class,nonterminal,grammar}.rt and specs/Grammar.antt from annex.py."""
import os, sys
from annex import *
from places import GOALS
ROOT = os.path.join(os.path.dirname(os.path.abspath(__file__)), '..', '..', 'crates', 'cl_tree')
SECTIONS = dict(PrimaryExpression='6.5.1', GenericSelection='6.5.1.1', GenericAssocList='6.5.1.1', GenericAssociation='6.5.1.1', PostfixExpression='6.5.2', ArgumentExpressionList='6.5.2', UnaryExpression='6.5.3',
  UnaryOperator='6.5.3', CastExpression='6.5.4', MultiplicativeExpression='6.5.5', AdditiveExpression='6.5.6', ShiftExpression='6.5.7', RelationalExpression='6.5.8', EqualityExpression='6.5.9', AndExpression='6.5.10',
  ExclusiveOrExpression='6.5.11', InclusiveOrExpression='6.5.12', LogicalAndExpression='6.5.13', LogicalOrExpression='6.5.14', ConditionalExpression='6.5.15', AssignmentExpression='6.5.16', AssignmentOperator='6.5.16',
  Expression='6.5.17', ConstantExpression='6.6', Declaration='6.7', DeclarationSpecifiers='6.7', OtherSpecifier='6.7', LaterSpecifier='6.7', InitDeclaratorList='6.7', InitDeclarator='6.7', StorageClassSpecifier='6.7.1',
  TypeSpecifier='6.7.2', LaterTypeSpecifier='6.7.2', StructOrUnionSpecifier='6.7.2.1', StructOrUnion='6.7.2.1', StructDeclarationList='6.7.2.1', StructDeclaration='6.7.2.1', SpecifierQualifierList='6.7.2.1',
  LaterQualifier='6.7.2.1', StructDeclaratorList='6.7.2.1', StructDeclarator='6.7.2.1', EnumSpecifier='6.7.2.2', EnumeratorList='6.7.2.2', Enumerator='6.7.2.2', AtomicTypeSpecifier='6.7.2.4', TypeQualifier='6.7.3',
  FunctionSpecifier='6.7.4', AlignmentSpecifier='6.7.5', Declarator='6.7.6', DirectDeclarator='6.7.6', ParameterDeclarator='6.7.6', DirectParameterDeclarator='6.7.6', Pointer='6.7.6', TypeQualifierList='6.7.6',
  ParameterTypeList='6.7.6', ParameterList='6.7.6', ParameterDeclaration='6.7.6', IdentifierList='6.7.6', TypeName='6.7.7', AbstractDeclarator='6.7.7', DirectAbstractDeclarator='6.7.7', TypedefName='6.7.8',
  Initializer='6.7.9', InitializerList='6.7.9', Designation='6.7.9', DesignatorList='6.7.9', Designator='6.7.9', StaticAssertDeclaration='6.7.10',
  Statement='6.8', LabeledStatement='6.8.1', CompoundStatement='6.8.2', BlockItemList='6.8.2', BlockItem='6.8.2', ExpressionStatement='6.8.3', SelectionStatement='6.8.4', IterationStatement='6.8.5', JumpStatement='6.8.6',
  ClosedStatement='6.8', OpenStatement='6.8', ClosedLabeledStatement='6.8.1', OpenLabeledStatement='6.8.1', ClosedSelectionStatement='6.8.4', OpenSelectionStatement='6.8.4', ClosedIterationStatement='6.8.5', OpenIterationStatement='6.8.5',
  UnlabelledExpression='6.8.3', PlainExpression='6.8.3', BlockStatement='6.8.2', BlockExpressionStatement='6.8.2', BlockDeclaration='6.8.2', BlockSpecifiers='6.8.2', FunctionBody='6.9.1', TranslationUnit='6.9', ExternalDeclaration='6.9', FunctionDefinition='6.9.1', AnyDeclarator='6.7.6', DirectAnyDeclarator='6.7.6')
EXTRA_DOC = dict(OtherSpecifier='A specifier of a declaration that is no type specifier', LaterSpecifier='A specifier of a declaration after a type specifier', LaterTypeSpecifier='A type specifier that is no typedef name: any after another one',
  LaterQualifier='A qualifier, or a type specifier after another one', ParameterDeclarator='A declarator of a parameter: after its `(` a type begins parameters', DirectParameterDeclarator='A direct-declarator of a parameter',
  AnyDeclarator='A declarator of a parameter, or an abstract one', DirectAnyDeclarator='A direct-declarator of a parameter, or an abstract one',
  ClosedStatement='A statement that ends with no `if` without `else`: only after such a one the `else` of an `if` around it stands', OpenStatement='A statement that ends with an `if` without `else`',
  **{o + g: f'{d} that ends with {e} `if` without `else`' for g, d in (('LabeledStatement', 'A labeled-statement'), ('SelectionStatement', 'A selection-statement'), ('IterationStatement', 'An iteration-statement')) for o, e in (('Closed', 'no'), ('Open', 'an'))},
  UnlabelledExpression='An expression that begins with no label: that of an expression statement', PlainExpression='An expression that begins with no label and no typedef name: where a declaration may stand too',
  BlockStatement='A statement of a block: it begins with no typedef name', BlockExpressionStatement='An expression-statement of a block', BlockDeclaration='A declaration of a block: it begins with no label',
  BlockSpecifiers='The specifiers of a declaration of a block', FunctionBody='The compound-statement of a function-definition: its parameters are declared in it')
# of a closed or open sort of statement its own rule
SORTED = {o + g: g for o in ('Closed', 'Open') for g in ('LabeledStatement', 'SelectionStatement', 'IterationStatement')}
import re
def dashed(n): return re.sub(r'(?<=[a-z])(?=[A-Z])', '-', n).lower().replace('and-expression', 'AND-expression') if n == 'AndExpression' else re.sub(r'(?<=[a-z])(?=[A-Z])', '-', n).lower()
STD = {'GenericAssocList': 'generic-assoc-list', 'AndExpression': 'AND-expression', 'ExclusiveOrExpression': 'exclusive-OR-expression', 'InclusiveOrExpression': 'inclusive-OR-expression', 'LogicalAndExpression': 'logical-AND-expression',
  'LogicalOrExpression': 'logical-OR-expression', 'StaticAssertDeclaration': 'static_assert-declaration', 'InitDeclaratorList': 'init-declarator-list', 'LabeledStatement': 'labeled-statement'}
def std(n): return STD.get(n, dashed(n))
SPELL = dict(Dot='.', Arrow='->', PlusPlus='++', MinusMinus='--', Ampersand='&', Star='*', StarBracket='*` before `]', Plus='+', Minus='-', Tilde='~', Bang='!', Slash='/', Percent='%', ShiftLeft='<<', ShiftRight='>>', Less='<', Greater='>', LessEqual='<=',
  GreaterEqual='>=', EqualEqual='==', BangEqual='!=', Caret='^', Bar='|', AndAnd='&&', OrOr='||', Question='?', Colon=':', Semicolon=';', Ellipsis='...', Comma=',', LastComma=',` before `}` or `...', DesignationComma=',` before `[` or `.', Equal='=', StarEqual='*=',
  SlashEqual='/=', PercentEqual='%=', PlusEqual='+=', MinusEqual='-=', ShiftLeftEqual='<<=', ShiftRightEqual='>>=', AmpersandEqual='&=', CaretEqual='^=', BarEqual='|=', LeftParen='(', RightParen=')', LeftBracket='[', RightBracket=']', LeftBrace='{', RightBrace='}')
CLASS_DOC = dict(Ident='An identifier that is no typedef name', IdentColon='The same directly before `:`', TypedefName='An identifier that is visible as a typedef name', TypedefColon='The same directly before `:`', Constant='A number or a character constant', String='A string literal',
  LeftParen='`(` before what begins no type', TypeParen='`(` before what may begin a type', LiteralParen='The same where its partner stands directly before `{`', AtomicParen='`_Atomic` directly before `(`', Other='A token that no production takes')
WORDS = dict(Sizeof='sizeof', Alignof='_Alignof', Generic='_Generic', StaticAssert='_Static_assert', ThreadLocal='_Thread_local', Bool='_Bool', Atomic='_Atomic', Noreturn='_Noreturn', Alignas='_Alignas')
def word(c): return WORDS.get(c, c.lower())
def term_rs(t): return f'Terminal::{t}' if t in SETS else f'Terminal::Is(Class::{t})'
def term_a(t): return f'te.{t}' if t in SETS else f'(is cl.{t})'
def sym_a(s): return 'entry' if s[0] == 'I' else f'(n nt.{s[1]})' if s[0] == 'N' else (f'(t {term_a(s[1])})' if s[2] == 'Stay' else f'(act {term_a(s[1])} ac.{s[2]})')
def form(p, plain): return {(None, False): plain, ('Typed', False): 'untyped', (None, True): 'scoped', ('Else', True): 'without_else'}[(p['bar'], p['scoped'])]
PART = {'1': 'One', '?': 'Optional', '*': 'Many'}
PART_A = {'1': 'one', '?': 'opt', '*': 'many'}
def w(f, s):
    f = os.path.join(ROOT, f); os.makedirs(os.path.dirname(f), exist_ok=True); open(f, 'w').write(s)
def wrap(items, width=130):
    out = ''; line = '   '
    for x in items:
        if len(line) + len(x) + 2 > width: out += line + '\n'; line = '   '
        line += ' ' + x + ','
    return out + line + '\n'
def enum(name, doc, items, derive='Clone, Copy, Debug, PartialEq, Eq'):
    return f'/// {doc}\n#[derive({derive})]\npub enum {name} {{\n' + ''.join(f'    /// {d}.\n    {x},\n' for x, d in items) + '}\n'
if __name__ == '__main__':
    w('src/rule.rt', enum('Rule', 'What a tree is: a rule of the grammar (N1570 A.2), one token, or what is no tree of the grammar.',
      [('Token', 'One token'), ('Bad', 'Tokens that are no item of a block')] + [(r, f'{std(r)} ({SECTIONS[r]})') for r in RULES_TREE]))
    w('src/class.rt', enum('Class', 'What the grammar tells of a token. Some classes look at the token after it, and at the partner of a `(`.',
      [(c, CLASS_DOC.get(c) or ('`' + (SPELL[c] if c in SPELL else word(c)) + '`')) for c in CLASSES]))
    w('src/nonterminal.rt', enum('Nonterminal', 'A nonterminal of the grammar: those of N1570 A.2, and some that tell apart where one of them stands.',
      [(g, (EXTRA_DOC[g] if g in EXTRA_DOC else std(g)) + f' ({SECTIONS[g]})') for g in GOALS]))
    o = '''//! The grammar of expressions, declarations, statements and function definitions: N1570 A.2, in the standard's order.

ghost use Rattle.std.specs.Prelude.{◌≡◌, map};
ghost use Rattle.cl_tree.specs.Grammar as g;

use crate::class::Class;
use crate::nonterminal::Nonterminal;
use crate::rule::Rule;

'''
    o += enum('Terminal', 'The tokens that a production takes at a place.', [('Is(Class)', 'Those of one class'), ('Name', 'An identifier, a typedef name too'), ('Open', 'Any `(`'), ('TypeOpen', '`(` before what may begin a type'), ('Typed', 'A typedef name'), ('Label', 'An identifier directly before `:`'), ('Marked', 'An identifier that is a typedef name, or stands directly before `:`')], 'Clone, Copy') + '\n'
    o += enum('Act', 'What reading a token does to the names that are declared.', [('Stay', 'Nothing'), ('Typedef', 'What is declared from here on is a typedef name'), ('Name', 'The token is the name that is being declared'), ('Declare', 'The name that is being declared is so from here on'),
      ('Finish', 'The same, and what is declared after it is no typedef name'), ('Forget', 'The name that is being declared is a member and hides nothing'), ('Open', 'A list of parameters, members or enumerators begins, or a block'), ('Close', 'A list of parameters or a block ends, and its names with it'), ('Shut', 'A list of members or enumerators ends; its names stay'), ('Begin', 'The body of a function begins: its name is declared, and in the body what its list of parameters declared')], 'Clone, Copy') + '\n'
    o += '''/// A symbol of a right side.
#[derive(Clone, Copy)]
pub enum Symbol {
    /// A token, and what it does to the names.
    Token(Terminal, Act),
    /// A tree of a nonterminal.
    Node(Nonterminal),
    /// An item of a block, or where none derives what is no item.
    Entry,
}

/// A part of a right side.
#[derive(Clone, Copy)]
pub enum Part {
    /// Stands once.
    One(Symbol),
    /// May be left out.
    Optional(Symbol),
    /// Stands any number of times, also not at all.
    Many(Symbol),
}

/// A separator of a list's members, and what it does to the names.
#[derive(Clone, Copy)]
pub struct Separator {
    pub class: Class,
    pub act: Act,
}

/// How a list goes on after a member: a separator, and the part of the right side with which the next member begins.
#[derive(Clone, Copy)]
pub struct Again {
    pub separator: Separator,
    pub part: u8,
}

/// A part of a list, from one place up to, and without, another.
#[derive(Clone, Copy)]
pub struct Span {
    pub from: u16,
    pub to: u16,
}

/// A production that makes a node: its nonterminal, the node's rule and the number of the alternative, from 0, its right side
/// in `parts()`, how a list goes on in `agains()`, which tokens may not follow, and whether what is declared in it is gone after it.
#[derive(Clone, Copy)]
pub struct Production {
    pub of: Nonterminal,
    pub rule: Rule,
    pub choice: u8,
    pub parts: Span,
    pub again: Span,
    pub bar: Option<Terminal>,
    pub scoped: bool,
}

/// A production whose right side is one nonterminal: its tree stands for the other one.
#[derive(Clone, Copy)]
pub struct Unit {
    pub of: Nonterminal,
    pub by: Nonterminal,
}

'''
    flat = [x for p in PRODS for x in p['parts']]; more = [x for p in PRODS for x in p['again']]
    def csym(s): return 'Symbol::Entry' if s[0] == 'I' else f'node!({s[1]})' if s[0] == 'N' else (f'token!({cterm(s[1])})' if s[2] == 'Stay' else f'act!({cterm(s[1])}, {s[2]})')
    def cterm(t): return f'Terminal::{t}' if t in SETS else f'is!({t})'
    w('src/grammar.rt', o.replace('ghost use Rattle.std.specs.Prelude.{◌≡◌, map};\nghost use Rattle.cl_tree.specs.Grammar as g;\n\n', '').rstrip() + '\n')
    q = """//! The right sides of the productions, one after the other. Written by tools/grammar/emit_tree.py.

ghost use Rattle.std.specs.Prelude.{◌≡◌};
ghost use Rattle.cl_tree.specs.Grammar as g;

use crate::class::Class;
use crate::grammar::{Act, Again, Part, Separator, Symbol, Terminal};
use crate::nonterminal::Nonterminal;

macro_rules! is {
    ($class:ident) => {
        Terminal::Is(Class::$class)
    };
}

macro_rules! token {
    ($terminal:expr) => {
        Symbol::Token($terminal, Act::Stay)
    };
}

macro_rules! act {
    ($terminal:expr, $act:ident) => {
        Symbol::Token($terminal, Act::$act)
    };
}

macro_rules! node {
    ($goal:ident) => {
        Symbol::Node(Nonterminal::$goal)
    };
}

macro_rules! again {
    ($class:ident, $act:ident, $part:expr) => {
        Again {
            separator: Separator {
                class: Class::$class,
                act: Act::$act,
            },
            part: $part,
        }
    };
}

// a list, in lines as they stand
macro_rules! rows {
    ($($row:expr),* $(,)?) => {
        [$($row),*]
    };
}

"""
    q += f'static PARTS: [Part; {len(flat)}] = rows! {{\n' + ''.join(wrap([f'Part::{PART[k]}({csym(x)})' for k, x in p['parts']]) for p in PRODS) + '};\n\n'
    q += f'static AGAIN: [Again; {len(more)}] = [\n' + ''.join(f'    again!({c}, {x}, {i}),\n' for c, x, i in more) + '];\n\n'
    q += """/// The parts of the right sides, one production's after the other's.
pub fn parts() -> &'static [Part]
    ensures { result.now ≡ g.all_parts }
{
    &PARTS
}

/// How the lists go on, one production's after the other's.
pub fn agains() -> &'static [Again]
    ensures { result.now ≡ g.all_agains }
{
    &AGAIN
}
"""
    w('src/part_rows.rt', q)
    units = [(g, u) for g in GOALS for u in UNITS.get(g, [])]
    q = """//! The productions. Written by tools/grammar/emit_tree.py.

ghost use Rattle.std.specs.Prelude.{◌≡◌, map};
ghost use Rattle.cl_tree.specs.Grammar as g;

use crate::class::Class;
use crate::grammar::{Production, Span, Terminal, Unit};
use crate::nonterminal::Nonterminal;
use crate::rule::Rule;

macro_rules! row {
    ($of:ident, $rule:ident, $choice:expr, $from:expr, $to:expr, $bar:expr, $scoped:expr) => {
        Production {
            of: Nonterminal::$of,
            rule: Rule::$rule,
            choice: $choice,
            parts: Span {
                from: $from,
                to: $to,
            },
            again: Span { from: 0, to: 0 },
            bar: $bar,
            scoped: $scoped,
        }
    };
}

// a production, with its right side from one part up to another
macro_rules! made {
    ($of:ident, $rule:ident, $choice:expr, $from:expr, $to:expr) => {
        row!($of, $rule, $choice, $from, $to, None, false)
    };
}

// a production after which no typedef name may stand
macro_rules! untyped {
    ($of:ident, $rule:ident, $choice:expr, $from:expr, $to:expr) => {
        row!($of, $rule, $choice, $from, $to, Some(Terminal::Typed), false)
    };
}

// a statement that is a block
macro_rules! scoped {
    ($of:ident, $rule:ident, $choice:expr, $from:expr, $to:expr) => {
        row!($of, $rule, $choice, $from, $to, None, true)
    };
}

// the same, after which an `else` may stand only where no statement derives after that
macro_rules! without_else {
    ($of:ident, $rule:ident, $choice:expr, $from:expr, $to:expr) => {
        row!($of, $rule, $choice, $from, $to, Some(Terminal::Is(Class::Else)), true)
    };
}

// a list whose members are separated
macro_rules! list {
    ($of:ident, $rule:ident, $from:expr, $to:expr, $again:expr, $end:expr) => {
        Production {
            of: Nonterminal::$of,
            rule: Rule::$rule,
            choice: 0,
            parts: Span {
                from: $from,
                to: $to,
            },
            again: Span {
                from: $again,
                to: $end,
            },
            bar: None,
            scoped: false,
        }
    };
}

macro_rules! unit {
    ($of:ident, $by:ident) => {
        Unit {
            of: Nonterminal::$of,
            by: Nonterminal::$by,
        }
    };
}

"""
    at = [0, 0]
    def prod_rs(p):
        f, m = at; at[0] += len(p['parts']); at[1] += len(p['again'])
        n = f'{p["of"]}, {p["rule"]}'
        if p['again']: return f'    list!({n}, {f}, {at[0]}, {m}, {at[1]}),\n'
        return f'    {form(p, "made")}!({n}, {p["choice"]}, {f}, {at[0]}),\n'
    q += f'static PRODUCTIONS: [Production; {len(PRODS)}] = [\n' + ''.join(prod_rs(p) for p in PRODS) + '];\n\n'
    q += f'static UNITS: [Unit; {len(units)}] = [\n' + ''.join(f'    unit!({g}, {u}),\n' for g, u in units) + '];\n\n'
    q += """/// The productions that make a node, in the order of N1570 A.2.
pub fn productions() -> &'static [Production]
    ensures { map g.plain result.now ≡ g.productions }
{
    &PRODUCTIONS
}

/// The productions whose right side is one nonterminal.
pub fn units() -> &'static [Unit]
    ensures { result.now ≡ g.units }
{
    &UNITS
}
"""
    w('src/production_rows.rt', q)
    a = '''-- The grammar of expressions, declarations, statements and function definitions: N1570 A.2, in the standard's order and with its section numbers.
-- Written by tools/grammar/emit_tree.py from tools/grammar/annex.py.
use Rattle.std.specs.Prelude.{ℕ, List, [], ◌∷◌, ◌++◌, Option, Some, None, Bool, true, false, slice_range}
use Rattle.cl_tree.specs.declared.class.Class.{Class}
use Rattle.cl_tree.specs.declared.class.Class.TheVariants as cl
use Rattle.cl_tree.specs.declared.rule.Rule.{Rule}
use Rattle.cl_tree.specs.declared.rule.Rule.TheVariants as ru
use Rattle.cl_tree.specs.declared.nonterminal.Nonterminal.{Nonterminal}
use Rattle.cl_tree.specs.declared.nonterminal.Nonterminal.TheVariants as nt
use Rattle.cl_tree.specs.declared.grammar.Terminal.{Terminal}
use Rattle.cl_tree.specs.declared.grammar.Terminal.TheVariants as te
use Rattle.cl_tree.specs.declared.grammar.Act.{Act}
use Rattle.cl_tree.specs.declared.grammar.Act.TheVariants as ac
use Rattle.cl_tree.specs.declared.grammar.Symbol.{Symbol}
use Rattle.cl_tree.specs.declared.grammar.Symbol.TheVariants.{Token, Node, Entry}
use Rattle.cl_tree.specs.declared.grammar.Part.{Part}
use Rattle.cl_tree.specs.declared.grammar.Part.TheVariants.{One, Optional, Many}
use Rattle.cl_tree.specs.declared.grammar.Again.{Again}
use Rattle.cl_tree.specs.declared.grammar.Unit.{Unit as UnitRow}
use Rattle.cl_tree.specs.declared.grammar.Production.{Production as ProductionRow}

-- a production: its nonterminal, the rule and number of its node, its right side, how a list goes on, which tokens may not follow, and whether what
-- is declared in the node is gone after it
pub record Production : Type 0 where
  pub of : Nonterminal
  pub rule : Rule
  pub choice : ℕ
  pub parts : List Part
  pub again : List Again
  pub bar : Option Terminal
  pub scoped : Bool

-- the classes of tokens that a terminal stands for
abbrev pub takes : Terminal → List Class
takes (te.Is k) = k ∷ []
'''
    for s, cs in SETS.items(): a += f'takes te.{s} = ' + ' ∷ '.join(f'cl.{c}' for c in cs) + ' ∷ []\n'
    a += '''
abbrev pub is : Class → Terminal
is k = te.Is k

-- a token, a token that does something to the names, a nonterminal
abbrev pub t : Terminal → Symbol
t k = Token k ac.Stay

abbrev pub act : Terminal → Act → Symbol
act k a = Token k a

abbrev pub n : Nonterminal → Symbol
n g = Node g

-- an item of a block, or what is none
abbrev pub entry : Symbol
entry = Entry

abbrev pub one : Symbol → Part
one x = One x

abbrev pub opt : Symbol → Part
opt x = Optional x

abbrev pub many : Symbol → Part
many x = Many x

abbrev pub production : Nonterminal → Rule → ℕ → List Part → Production
production g r c ps = record { of = g; rule = r; choice = c; parts = ps; again = []; bar = None; scoped = false }

-- a list whose members are separated
abbrev pub separated : Class → Act → ℕ → Again
separated k a i = record { separator = record { class = k; act = a }; part = i }

abbrev pub listed : Nonterminal → Rule → List Part → List Again → Production
listed g r ps more = record { of = g; rule = r; choice = 0; parts = ps; again = more; bar = None; scoped = false }

-- a production after which no typedef name may stand
abbrev pub untyped : Nonterminal → Rule → ℕ → List Part → Production
untyped g r c ps = record { of = g; rule = r; choice = c; parts = ps; again = []; bar = Some te.Typed; scoped = false }

-- a statement that is a block (6.8.4p3, 6.8.5p5)
abbrev pub scoped : Nonterminal → Rule → ℕ → List Part → Production
scoped g r c ps = record { of = g; rule = r; choice = c; parts = ps; again = []; bar = None; scoped = true }

-- a statement that is a block, after which an `else` may stand only where no statement derives after that: an `else` goes with the nearest `if` that
-- the syntax allows (6.8.4.1p3)
abbrev pub without_else : Nonterminal → Rule → ℕ → List Part → Production
without_else g r c ps = record { of = g; rule = r; choice = c; parts = ps; again = []; bar = Some (te.Is cl.Else); scoped = true }

abbrev pub unit : Nonterminal → Nonterminal → UnitRow
unit g u = record { of = g; by = u }

-- the productions that make a node; a statement that ends with an `if` without `else` is open, any other closed
unfoldable pub productions : List Production
productions =
'''
    last = None
    for p in PRODS:
        of = SORTED.get(p['of'], p['of'])
        if of != last:
            last = of
            a += f'    -- {EXTRA_DOC[last] if last in EXTRA_DOC else std(last)} ({SECTIONS[last]})\n'
        ps = ' ∷ '.join([f'{PART_A[k]} {sym_a(s)}' for k, s in p['parts']] + ['[]'])
        if p['again']:
            ag = ' ∷ '.join([f'separated cl.{c} ac.{x} {i}' for c, x, i in p['again']] + ['[]'])
            a += f'    listed nt.{p["of"]} ru.{p["rule"]} ({ps}) ({ag}) ∷\n'
        else: a += f'    {form(p, "production")} nt.{p["of"]} ru.{p["rule"]} {p["choice"]} ({ps}) ∷\n'
    a += '    []\n\n-- the productions whose right side is one nonterminal: they make no node\nunfoldable pub units : List UnitRow\nunits =\n'
    for g, u in units: a += f'    unit nt.{g} nt.{u} ∷\n'
    a += '''    []

-- the tokens with which no tree of a nonterminal begins: where a label or a declaration may stand, an identifier is that (6.8.1, 6.8.2)
unfoldable pub shuns : Nonterminal → Option Terminal
SHUNS_HERE
abbrev pub parts_of : List Production → List Part
parts_of [] = []
parts_of (p ∷ ps) = p.parts ++ parts_of ps

abbrev pub agains_of : List Production → List Again
agains_of [] = []
agains_of (p ∷ ps) = p.again ++ agains_of ps

-- the right sides, one after the other, as the code has them
unfoldable pub all_parts : List Part
all_parts = parts_of productions

unfoldable pub all_agains : List Again
all_agains = agains_of productions

abbrev pub plain : ProductionRow → Production
plain p = record { of = p.of; rule = p.rule; choice = p.choice; parts = slice_range all_parts p.parts.from p.parts.to; again = slice_range all_agains p.again.from p.again.to; bar = p.bar; scoped = p.scoped }
'''
    a = a.replace('SHUNS_HERE', ''.join(f'shuns nt.{g} = Some {term_a(t)}\n' for g, t in SHUNS.items()) + 'shuns _ = None\n')
    w('specs/Grammar.antt', a)
