"""N1570 A.2, typed in from the standard in its own notation (without _Complex), and what a test compares with the table:
each alternative with and without each of its optional parts. Writes crates/cl_tree_tests/src/grammar_cases.rt."""
import itertools, os
TEXT = '''
primary-expression: identifier | constant | string-literal | ( expression ) | generic-selection
generic-selection: _Generic ( assignment-expression , generic-assoc-list )
generic-assoc-list: generic-association | generic-assoc-list , generic-association
generic-association: type-name : assignment-expression | default : assignment-expression
postfix-expression: primary-expression | postfix-expression [ expression ] | postfix-expression ( argument-expression-list? ) | postfix-expression . identifier | postfix-expression -> identifier | postfix-expression ++ | postfix-expression -- | ( type-name ) { initializer-list } | ( type-name ) { initializer-list , }
argument-expression-list: assignment-expression | argument-expression-list , assignment-expression
unary-expression: postfix-expression | ++ unary-expression | -- unary-expression | unary-operator cast-expression | sizeof unary-expression | sizeof ( type-name ) | _Alignof ( type-name )
unary-operator: & | * | + | - | ~ | !
cast-expression: unary-expression | ( type-name ) cast-expression
multiplicative-expression: cast-expression | multiplicative-expression * cast-expression | multiplicative-expression / cast-expression | multiplicative-expression % cast-expression
additive-expression: multiplicative-expression | additive-expression + multiplicative-expression | additive-expression - multiplicative-expression
shift-expression: additive-expression | shift-expression << additive-expression | shift-expression >> additive-expression
relational-expression: shift-expression | relational-expression < shift-expression | relational-expression > shift-expression | relational-expression <= shift-expression | relational-expression >= shift-expression
equality-expression: relational-expression | equality-expression == relational-expression | equality-expression != relational-expression
AND-expression: equality-expression | AND-expression & equality-expression
exclusive-OR-expression: AND-expression | exclusive-OR-expression ^ AND-expression
inclusive-OR-expression: exclusive-OR-expression | inclusive-OR-expression BAR exclusive-OR-expression
logical-AND-expression: inclusive-OR-expression | logical-AND-expression && inclusive-OR-expression
logical-OR-expression: logical-AND-expression | logical-OR-expression BARBAR logical-AND-expression
conditional-expression: logical-OR-expression | logical-OR-expression QUERY expression : conditional-expression
assignment-expression: conditional-expression | unary-expression assignment-operator assignment-expression
assignment-operator: = | *= | /= | %= | += | -= | <<= | >>= | &= | ^= | BAR=
expression: assignment-expression | expression , assignment-expression
constant-expression: conditional-expression
declaration: declaration-specifiers init-declarator-list? ; | static_assert-declaration
init-declarator-list: init-declarator | init-declarator-list , init-declarator
init-declarator: declarator | declarator = initializer
storage-class-specifier: typedef | extern | static | _Thread_local | auto | register
type-specifier: void | char | short | int | long | float | double | signed | unsigned | _Bool | _Complex | atomic-type-specifier | struct-or-union-specifier | enum-specifier | typedef-name
struct-or-union-specifier: struct-or-union identifier? { struct-declaration-list } | struct-or-union identifier
struct-or-union: struct | union
struct-declaration-list: struct-declaration | struct-declaration-list struct-declaration
struct-declaration: specifier-qualifier-list struct-declarator-list? ; | static_assert-declaration
struct-declarator-list: struct-declarator | struct-declarator-list , struct-declarator
struct-declarator: declarator | declarator? : constant-expression
enum-specifier: enum identifier? { enumerator-list } | enum identifier? { enumerator-list , } | enum identifier
enumerator-list: enumerator | enumerator-list , enumerator
enumerator: enumeration-constant | enumeration-constant = constant-expression
atomic-type-specifier: _Atomic ( type-name )
type-qualifier: const | restrict | volatile | _Atomic
function-specifier: inline | _Noreturn
alignment-specifier: _Alignas ( type-name ) | _Alignas ( constant-expression )
declarator: pointer? direct-declarator
direct-declarator: identifier | ( declarator ) | direct-declarator [ type-qualifier-list? assignment-expression? ] | direct-declarator [ static type-qualifier-list? assignment-expression ] | direct-declarator [ type-qualifier-list static assignment-expression ] | direct-declarator [ type-qualifier-list? * ] | direct-declarator ( parameter-type-list ) | direct-declarator ( identifier-list? )
pointer: * type-qualifier-list? | * type-qualifier-list? pointer
type-qualifier-list: type-qualifier | type-qualifier-list type-qualifier
parameter-type-list: parameter-list | parameter-list , ...
parameter-list: parameter-declaration | parameter-list , parameter-declaration
parameter-declaration: declaration-specifiers declarator | declaration-specifiers abstract-declarator?
identifier-list: identifier | identifier-list , identifier
type-name: specifier-qualifier-list abstract-declarator?
abstract-declarator: pointer | pointer? direct-abstract-declarator
direct-abstract-declarator: ( abstract-declarator ) | direct-abstract-declarator? [ type-qualifier-list? assignment-expression? ] | direct-abstract-declarator? [ static type-qualifier-list? assignment-expression ] | direct-abstract-declarator? [ type-qualifier-list static assignment-expression ] | direct-abstract-declarator? [ * ] | direct-abstract-declarator? ( parameter-type-list? )
typedef-name: identifier
initializer: assignment-expression | { initializer-list } | { initializer-list , }
initializer-list: designation? initializer | initializer-list , designation? initializer
designation: designator-list =
designator-list: designator | designator-list designator
designator: [ constant-expression ] | . identifier
static_assert-declaration: _Static_assert ( constant-expression , string-literal ) ;
statement: labeled-statement | compound-statement | expression-statement | selection-statement | iteration-statement | jump-statement
labeled-statement: identifier : statement | case constant-expression : statement | default : statement
compound-statement: { block-item-list? }
block-item-list: block-item | block-item-list block-item
block-item: declaration | statement
expression-statement: expression? ;
selection-statement: if ( expression ) statement | if ( expression ) statement else statement | switch ( expression ) statement
iteration-statement: while ( expression ) statement | do statement while ( expression ) ; | for ( expression? ; expression? ; expression? ) statement | for ( declaration expression? ; expression? ) statement
jump-statement: goto identifier ; | continue ; | break ; | return expression? ;
function-definition: declaration-specifiers declarator compound-statement
'''
def camel(n): return ''.join(w[0].upper() + w[1:].lower() for w in n.replace('static_assert', 'static-assert').split('-'))
TERMINALS = {'identifier', 'constant', 'string-literal'}
RULES = {}
for line in TEXT.strip().splitlines():
    head, right = line.split(': ', 1)
    RULES[head] = [[x.replace('BARBAR', '||').replace('BAR', '|').replace('QUERY', '?') if x not in ('QUERY',) else '?' for x in a.split()] for a in right.split(' | ')]
def symbol(x): return camel(x) if x in RULES or x in ('declaration-specifiers', 'specifier-qualifier-list', 'compound-statement') else ('identifier' if x == 'enumeration-constant' else x)
def expand(a):
    parts = [[[symbol(x[:-1])], []] if x.endswith('?') and len(x) > 1 else [[symbol(x)]] for x in a]
    return [[s for p in c for s in p] for c in itertools.product(*parts)]
ROWS = []
for head, alts in RULES.items():
    if head.endswith('-list') and head != 'parameter-type-list':
        # one node with all members: what one member is
        for r in expand(alts[0]): ROWS.append((camel(head), 0, r))
        continue
    for i, a in enumerate(alts):
        if a == ['_Complex']: continue
        for r in expand(a):
            if len(r) == 1 and r[0] in [camel(h) for h in RULES] + ['DeclarationSpecifiers', 'SpecifierQualifierList']: ROWS.append((camel(head), None, r))
            else: ROWS.append((camel(head), i, r))
WORDS = dict(zip('( ) [ ] { } . -> ++ -- & * + - ~ ! / % << >> < > <= >= == != ^ | && || ? : ; ... , = *= /= %= += -= <<= >>= &= ^= |='.split(),
  'LeftParen RightParen LeftBracket RightBracket LeftBrace RightBrace Dot Arrow PlusPlus MinusMinus Ampersand Star Plus Minus Tilde Bang Slash Percent ShiftLeft ShiftRight Less Greater LessEqual GreaterEqual EqualEqual BangEqual Caret Bar AndAnd OrOr Question Colon Semicolon Ellipsis Comma Equal StarEqual SlashEqual PercentEqual PlusEqual MinusEqual ShiftLeftEqual ShiftRightEqual AmpersandEqual CaretEqual BarEqual'.split()))
WORDS.update({'identifier': 'Ident', 'constant': 'Constant', 'string-literal': 'String'})
def token(x): return x if x[0].isupper() else WORDS.get(x) or ''.join(w.capitalize() for w in x.strip('_').split('_'))
LINES = sorted(set(f'{h} {"unit" if c is None else c}:' + ''.join(' ' + token(x) for x in r) for h, c, r in ROWS))
if __name__ == '__main__':
    print(len(LINES))
    o = '''//! Each alternative of N1570 A.2, with and without each of its optional parts, as typed in from the standard; of a list
//! rule, one member. Written by tools/grammar/standard.py. The rules for specifiers stand apart: here they are one node.

'''
    names = ('FIRST', 'SECOND', 'THIRD', 'FOURTH', 'FIFTH', 'SIXTH')
    n = 42
    for i, name in enumerate(names):
        part = LINES[i * n:(i + 1) * n]
        o += f'static {name}: [&[u8]; {len(part)}] = [\n' + ''.join('    b"' + l + '",\n' for l in part) + '];\n\n'
        o += f"pub fn {name.lower()}() -> &'static [&'static [u8]] {{\n    &{name}\n}}\n\n"
    open(os.path.join(os.path.dirname(os.path.abspath(__file__)), '..', '..', 'crates', 'cl_tree_tests', 'src', 'grammar_cases.rt'), 'w').write(o.rstrip() + '\n')
