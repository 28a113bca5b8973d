"""Writes crates/cl_tree/src/spelling.rt and specs/Spellings.antt: the words and punctuators of the grammar; and src/slot.rt and
specs/code/Slots.antt: where the code looks for a spelling."""
import itertools
from emit_tree import *
KEY = "Sizeof Alignof Generic Default Case If Else Switch While Do For Goto Continue Break Return StaticAssert Typedef Extern Static ThreadLocal Auto Register Void Char Short Int Long Float Double Signed Unsigned Bool Struct Union Enum Const Restrict Volatile Atomic Inline Noreturn Alignas".split()
TYPES = set("Typedef Extern Static ThreadLocal Auto Register Void Char Short Int Long Float Double Signed Unsigned Bool Struct Union Enum Const Restrict Volatile Atomic Inline Noreturn Alignas".split())
WORDS_ = sorted([(word(c), 'Atomic' if c == 'Atomic' else c, 'Type' if c in TYPES else 'Other') for c in KEY] + [('_Complex', 'Other', 'Other'), ('_Imaginary', 'Other', 'Other')])
PUN = [(s, c) for c, s in SPELL.items() if c not in ('StarBracket', 'LastComma', 'DesignationComma')] + [('<:', 'LeftBracket'), (':>', 'RightBracket'), ('<%', 'LeftBrace'), ('%>', 'RightBrace')]
AHEAD = dict(Colon='Colon', RightBracket='Bracket', RightBrace='End', Ellipsis='End', LeftBracket='Designator', Dot='Designator', LeftParen='Paren')
RAW = dict(LeftParen='Paren', Star='Star', Comma='Comma', Atomic='Atomic')
# the commonest first
FREQ = "LeftParen RightParen Comma Semicolon Equal Star Arrow LeftBrace RightBrace Dot LeftBracket RightBracket Ampersand Plus Minus Colon".split()
PUN.sort(key=lambda x: FREQ.index(x[1]) if x[1] in FREQ and x[0] not in ('<:', ':>', '<%', '%>') else 99)
def raw_rs(c): return f'Raw::{RAW[c]}' if c in RAW else f'plain!({c})'
def raw_a(c): return f'raw.{RAW[c]}' if c in RAW else f'(raw.Plain cl.{c})'
PUNCTS = [(s, c, AHEAD.get(c, 'Other')) for s, c in PUN]
if __name__ == '__main__':
    o = '''//! The keywords and punctuators of the grammar.

ghost use Rattle.std.specs.Prelude.{◌≡◌, ℕ, Some, true, length, map, nat_eq, slice_get};
ghost use Rattle.std.specs.Cmp.Lexicographic.{pointwise};
ghost use Rattle.cl_tree.specs.Spellings as s;
ghost use Rattle.cl_tree.specs.code.Slots as c;
ghost use Rattle.cl_tree.specs.declared.class.Class.TheVariants as cl;
ghost use Rattle.cl_tree.specs.declared.shape.Raw.TheVariants as raw;

use crate::class::Class;
use crate::shape::{Ahead, Raw, Sort};
use crate::slot::{keyword_row, punctuator_row};
use cl_base::{Kind, PpToken};

/// A spelling, and what it stands for.
#[derive(Clone, Copy)]
pub struct Spelling {
    pub text: &'static [u8],
    pub sort: Sort,
}

macro_rules! plain {
    ($class:ident) => {
        Raw::Plain(Class::$class)
    };
}

macro_rules! spelled {
    ($text:expr, $raw:expr, $ahead:ident) => {
        Spelling {
            text: $text,
            sort: Sort {
                raw: $raw,
                ahead: Ahead::$ahead,
            },
        }
    };
}

'''
    def tab(name, rows):
        return f'static {name}: [Spelling; {len(rows)}] = [\n' + ''.join(f'    spelled!(b"{s}", {raw_rs(c)}, {a}),\n' for s, c, a in rows) + '];\n\n'
    o += '/// The keywords (N1570 6.4.1). Those of complex types stand in no production.\n' + tab('KEYWORDS', WORDS_) + '/// The punctuators of the grammar (N1570 6.4.6); `#` and `##` are none.\n' + tab('PUNCTUATORS', PUNCTS)
    o += '''fn keywords() -> &'static [Spelling]
    ensures { map s.plain result.now ≡ s.keywords }
{
    &KEYWORDS
}

fn punctuators() -> &'static [Spelling]
    ensures { map s.plain result.now ≡ s.punctuators }
{
    &PUNCTUATORS
}

/// The first byte of a text.
fn first_byte(text: &[u8]) -> Option<u8>
    ensures { result ≡ slice_get text.now 0 }
{
    text.get(0).copied()
}

/// Whether two first bytes are there and differ.
fn differ(one: Option<u8>, other: Option<u8>) -> bool
    ensures { result ≡ true → (a b : ℕ) × (one ≡ Some a) × (other ≡ Some b) × (a ≡ b → ⊥) }
{
    match one {
        Some(a) => match other {
            Some(b) => a != b,
            None => false,
        },
        None => false,
    }
}

/// Whether two texts differ in their lengths.
fn uneven(one: &[u8], other: &[u8]) -> bool
    ensures { result ≡ true → length one.now ≡ length other.now → ⊥ }
{
    one.len() != other.len()
}

/// Whether two texts are one: most differ in their lengths or first bytes.
pub fn same_text(one: &[u8], other: &[u8]) -> bool
    ensures { result ≡ pointwise nat_eq one.now other.now }
{
    let uneven = uneven(one, other);
    if uneven {
        return false;
    }
    let apart = differ(first_byte(one), first_byte(other));
    if apart {
        return false;
    }
    one == other
}

/// What a row of a table stands for, if it has this text; or else this.
fn in_row(table: &[Spelling], row: usize, text: &[u8], other: Sort) -> Sort
    ensures { result ≡ c.row_of (slice_get (map s.plain table.now) row) text.now other }
{
    let Some(spelling) = table.get(row) else {
        return other;
    };
    let same = same_text(spelling.text, text);
    if same { spelling.sort } else { other }
}

/// What an identifier or a keyword is by itself, and to the one before it.
fn word_sort(text: &[u8]) -> Sort
    ensures { result ≡ s.find s.keywords text.now (s.sort raw.Word) }
{
    in_row(keywords(), keyword_row(text), text, plain(Raw::Word))
}

/// What a punctuator is by itself, and to the one before it.
fn punctuator_sort(text: &[u8]) -> Sort
    ensures { result ≡ s.find s.punctuators text.now (s.sort (raw.Plain cl.Other)) }
{
    let other = plain(Raw::Plain(Class::Other));
    in_row(punctuators(), punctuator_row(text), text, other)
}

/// What a token is by itself, and to the one before it.
#[tactic(auto, unfolding(crate::specs::Spellings::sort_of))]
pub fn sort_of(token: &PpToken) -> Sort
    ensures { result ≡ s.sort_of token.now }
{
    match token.kind {
        Kind::Ident => word_sort(token.text.bytes()),
        Kind::Number => plain(Raw::Plain(Class::Constant)),
        Kind::Char => plain(Raw::Plain(Class::Constant)),
        Kind::Str => plain(Raw::Plain(Class::String)),
        Kind::Header => plain(Raw::Plain(Class::Other)),
        Kind::Punct => punctuator_sort(token.text.bytes()),
        Kind::Other => plain(Raw::Plain(Class::Other)),
    }
}

fn plain(raw: Raw) -> Sort
    ensures { result ≡ s.sort raw }
{
    Sort {
        raw,
        ahead: Ahead::Other,
    }
}
'''
    w('src/spelling.rt', o)
    a = '''-- The keywords and punctuators of the grammar, and what they stand for.
use Rattle.std.specs.Prelude.{ℕ, List, [], ◌∷◌, cond, nat_eq, codes}
use Rattle.std.specs.Cmp.Lexicographic.{pointwise}
use Rattle.cl_base.specs.declared.token.Kind.{Kind}
use Rattle.cl_base.specs.declared.token.Kind.TheVariants as kind
use Rattle.cl_base.specs.declared.token.PpToken.{PpToken}
use Rattle.cl_tree.specs.declared.class.Class.TheVariants as cl
use Rattle.cl_tree.specs.declared.shape.Raw.{Raw}
use Rattle.cl_tree.specs.declared.shape.Raw.TheVariants as raw
use Rattle.cl_tree.specs.declared.shape.Ahead.{Ahead}
use Rattle.cl_tree.specs.declared.shape.Ahead.TheVariants as ahead
use Rattle.cl_tree.specs.declared.shape.Sort.{Sort}
use Rattle.cl_tree.specs.declared.spelling.Spelling.{Spelling as Row}

-- a spelling, and what it stands for
pub record Spelling : Type 0 where
  pub text : List ℕ
  pub sort : Sort

abbrev pub plain : Row → Spelling
plain r = record { text = r.text.now; sort = r.sort }

abbrev pub spelled : List ℕ → Raw → Ahead → Spelling
spelled s r a = record { text = s; sort = record { raw = r; ahead = a } }

abbrev pub sort : Raw → Sort
sort r = record { raw = r; ahead = ahead.Other }

'''
    def taba(name, doc, rows):
        return f'-- {doc}\nunfoldable pub {name} : List Spelling\n{name} =\n' + ''.join(f'    spelled (codes "{s}") {raw_a(c)} ahead.{x} ∷\n' for s, c, x in rows) + '    []\n\n'
    a += taba('keywords', 'the keywords (6.4.1)', WORDS_) + taba('punctuators', 'the punctuators of the grammar (6.4.6)', PUNCTS)
    a += '''-- what a spelling stands for in a table, or else this
abbrev pub find : List Spelling → List ℕ → Sort → Sort
find [] text other = other
find (r ∷ rs) text other = cond (pointwise nat_eq r.text text) r.sort (find rs text other)

-- what a token is: a keyword is never an identifier, and a number or a character constant is a constant
abbrev pub sort_by : Kind → List ℕ → Sort
sort_by kind.Ident text = find keywords text (sort raw.Word)
sort_by kind.Number text = sort (raw.Plain cl.Constant)
sort_by kind.Char text = sort (raw.Plain cl.Constant)
sort_by kind.Str text = sort (raw.Plain cl.String)
sort_by kind.Header text = sort (raw.Plain cl.Other)
sort_by kind.Punct text = find punctuators text (sort (raw.Plain cl.Other))
sort_by kind.Other text = sort (raw.Plain cl.Other)

unfoldable pub sort_of : PpToken → Sort
sort_of token = sort_by token.kind token.text
'''
    w('specs/Spellings.antt', a)

    # the slot of a text: its length, first and last byte by weights that give each text of a table a slot of its own, modulo 128
    def slotted(texts):
        for weights in itertools.product(range(1, 32), repeat=3):
            slots = [sum(a * b for a, b in zip(weights, (len(x), x[0], x[-1]))) % 128 for x in texts]
            if len(set(slots)) == len(slots):
                return weights, [slots.index(k) if k in slots else 255 for k in range(128)]
        raise SystemExit('no weights: take more slots')
    (kw, kr), (pw, pr) = (slotted([x[0].encode() for x in rows]) for rows in (WORDS_, PUNCTS))
    def filled(template, keyword_rows, punctuator_rows):
        for name, value in [('KR', keyword_rows), ('PR', punctuator_rows)] + [(f'{x}{k}', '' if it == 1 else f' * {it}') for x, weights in (('K', kw), ('P', pw)) for k, it in enumerate(weights)]:
            template = template.replace(f'@{name}@', str(value))
        return template
    def static(name, rows):
        return f'static {name}: [u8; 128] = [\n' + ''.join('    ' + ', '.join(map(str, rows[k:k + 16])) + ',\n' for k in range(0, 128, 16)) + '];\n'
    def listed(rows):
        return ''.join('    ' + ' ∷ '.join(map(str, rows[k:k + 16])) + ' ∷\n' for k in range(0, 128, 16)) + '    []'
    w('src/slot.rt', filled('''//! Where a table of spellings has a text, by its length, its first byte and its last one.

ghost use Rattle.std.specs.Prelude.{◌≡◌, ◌<◌};
ghost use Rattle.cl_tree.specs.code.Slots as s;

/// The row of each slot among the keywords; 255 for none.
@KR@
/// The same among the punctuators.
@PR@
fn keyword_rows() -> &'static [u8]
    ensures { result.now ≡ s.keyword_rows }
{
    &KEYWORD_ROWS
}

fn punctuator_rows() -> &'static [u8]
    ensures { result.now ≡ s.punctuator_rows }
{
    &PUNCTUATOR_ROWS
}

/// The byte at a place; 0 past the end.
fn byte_at(text: &[u8], at: usize) -> usize
    ensures value { result ≡ s.byte_at text.now at }
    ensures room { result < 256 }
{
    match text.get(at) {
        Some(byte) => *byte as usize,
        None => 0,
    }
}

/// The row of a slot; 255 for none.
fn row_at(rows: &[u8], slot: usize) -> usize
    ensures { result ≡ s.row_at rows.now slot }
{
    match rows.get(slot) {
        Some(row) => *row as usize,
        None => 255,
    }
}

/// The row of a text if it is a keyword; else any.
pub fn keyword_row(text: &[u8]) -> usize
    ensures { result ≡ s.row_at s.keyword_rows (s.keyword_slot text.now) }
{
    let first = byte_at(text, 0);
    let last = byte_at(text, text.len().saturating_sub(1));
    row_at(
        keyword_rows(),
        (text.len() % 128@K0@ + first@K1@ + last@K2@) % 128,
    )
}

/// The row of a text if it is a punctuator; else any.
pub fn punctuator_row(text: &[u8]) -> usize
    ensures { result ≡ s.row_at s.punctuator_rows (s.punctuator_slot text.now) }
{
    let first = byte_at(text, 0);
    let last = byte_at(text, text.len().saturating_sub(1));
    row_at(
        punctuator_rows(),
        (text.len() % 128@P0@ + first@P1@ + last@P2@) % 128,
    )
}
''', static('KEYWORD_ROWS', kr), static('PUNCTUATOR_ROWS', pr)))
    w('specs/code/Slots.antt', filled('''-- Where the code looks for a spelling: each text of a table has a slot of its own there.
use Rattle.std.specs.Prelude.{ℕ, ◌+◌, ◌-◌, ◌*◌, ◌%◌, List, [], ◌∷◌, Option, Some, None, slice_get, length, cond, nat_eq}
use Rattle.std.specs.Cmp.Lexicographic.{pointwise}
use Rattle.cl_tree.specs.declared.shape.Sort.{Sort}
use Rattle.cl_tree.specs.Spellings.{Spelling}

abbrev pub or_number : ℕ → Option ℕ → ℕ
or_number n None = n
or_number n (Some b) = b

abbrev pub byte_at : List ℕ → ℕ → ℕ
byte_at text i = or_number 0 (slice_get text i)

abbrev pub row_at : List ℕ → ℕ → ℕ
row_at rows i = or_number 255 (slice_get rows i)

abbrev pub keyword_slot : List ℕ → ℕ
keyword_slot text = (length text % 128@K0@ + byte_at text 0@K1@ + byte_at text (length text - 1)@K2@) % 128

abbrev pub punctuator_slot : List ℕ → ℕ
punctuator_slot text = (length text % 128@P0@ + byte_at text 0@P1@ + byte_at text (length text - 1)@P2@) % 128

-- what a row stands for, if it is that of the text
abbrev pub row_of : Option Spelling → List ℕ → Sort → Sort
row_of None text other = other
row_of (Some r) text other = cond (pointwise nat_eq r.text text) r.sort other

unfoldable pub keyword_rows : List ℕ
keyword_rows =
@KR@

unfoldable pub punctuator_rows : List ℕ
punctuator_rows =
@PR@
''', listed(kr), listed(pr)))
