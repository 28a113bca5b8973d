"""The grammar of N1570 A.2, as it is laid out in the standard: what `specs/Grammar.antt` of cl_tree is written from.

U(nonterminal, others)                  a production whose right side is one nonterminal: its tree stands for it
R(nonterminal, rule, choice, parts)     any other production: a node of this rule, with the number of the alternative
A part is a symbol, opt(symbol) or many(symbol); `again` says what separates the members of a list, `bar` which tokens may not follow, and
`scoped` that what is declared in the node is gone after it. SHUNS says with which tokens a nonterminal may not begin.
"""
CLASSES = ("Ident IdentColon TypedefName TypedefColon Constant String LeftParen TypeParen LiteralParen RightParen LeftBracket RightBracket LeftBrace RightBrace Dot Arrow PlusPlus MinusMinus "
  "Ampersand Star StarBracket Plus Minus Tilde Bang Slash Percent ShiftLeft ShiftRight Less Greater LessEqual GreaterEqual EqualEqual BangEqual Caret Bar AndAnd OrOr Question Colon Semicolon "
  "Ellipsis Comma LastComma DesignationComma Equal StarEqual SlashEqual PercentEqual PlusEqual MinusEqual ShiftLeftEqual ShiftRightEqual AmpersandEqual CaretEqual BarEqual "
  "Sizeof Alignof Generic Default Case If Else Switch While Do For Goto Continue Break Return StaticAssert Typedef Extern Static ThreadLocal Auto Register "
  "Void Char Short Int Long Float Double Signed Unsigned Bool Struct Union Enum Const Restrict Volatile Atomic AtomicParen Inline Noreturn Alignas Other").split()
SETS = {'Name': 'Ident IdentColon TypedefName TypedefColon'.split(), 'Open': 'LeftParen TypeParen LiteralParen'.split(), 'TypeOpen': 'TypeParen LiteralParen'.split(), 'Typed': 'TypedefName TypedefColon'.split(),
  'Label': 'IdentColon TypedefColon'.split(), 'Marked': 'IdentColon TypedefName TypedefColon'.split()}
ACTS = 'Stay Typedef Name Declare Finish Forget Open Close Shut Begin'.split()
RULES_TREE = ("PrimaryExpression GenericSelection GenericAssocList GenericAssociation PostfixExpression ArgumentExpressionList UnaryExpression UnaryOperator CastExpression "
  "MultiplicativeExpression AdditiveExpression ShiftExpression RelationalExpression EqualityExpression AndExpression ExclusiveOrExpression InclusiveOrExpression "
  "LogicalAndExpression LogicalOrExpression ConditionalExpression AssignmentExpression AssignmentOperator Expression ConstantExpression "
  "Declaration DeclarationSpecifiers InitDeclaratorList InitDeclarator StorageClassSpecifier TypeSpecifier StructOrUnionSpecifier StructOrUnion StructDeclarationList StructDeclaration "
  "SpecifierQualifierList StructDeclaratorList StructDeclarator EnumSpecifier EnumeratorList Enumerator AtomicTypeSpecifier TypeQualifier FunctionSpecifier AlignmentSpecifier "
  "Declarator DirectDeclarator Pointer TypeQualifierList ParameterTypeList ParameterList ParameterDeclaration IdentifierList TypeName AbstractDeclarator DirectAbstractDeclarator TypedefName "
  "Initializer InitializerList Designation DesignatorList Designator StaticAssertDeclaration "
  "Statement LabeledStatement CompoundStatement BlockItemList BlockItem ExpressionStatement SelectionStatement IterationStatement JumpStatement "
  "TranslationUnit ExternalDeclaration FunctionDefinition").split()
# nonterminals that aren't the standard's: a rule of it in one context
EXTRA = ("OtherSpecifier LaterTypeSpecifier LaterSpecifier ParameterDeclarator DirectParameterDeclarator AnyDeclarator DirectAnyDeclarator "
  "ClosedStatement OpenStatement ClosedLabeledStatement OpenLabeledStatement ClosedSelectionStatement OpenSelectionStatement ClosedIterationStatement OpenIterationStatement "
  "UnlabelledExpression PlainExpression BlockStatement BlockExpressionStatement BlockDeclaration BlockSpecifiers FunctionBody").split()
def T(c, act='Stay'): return ('T', c, act)
def N(g): return ('N', g)
ENTRY = ('I', 'BlockItem')      # an item of a block, or what is none
def opt(s): return ('?', s)
def many(s): return ('*', s)
SECTION = []; UNITS = {}; PRODS = []
def S(name, section): SECTION.append((len(PRODS), name, section))
def U(g, *others): UNITS.setdefault(g, []).extend(others)
def R(g, rule, choice, *parts, again=(), bar=None, scoped=False):
    PRODS.append(dict(of=g, rule=rule, choice=choice, parts=[(p if p[0] in '?*' else ('1', p)) for p in parts], again=list(again), bar=bar, scoped=scoped))
def members(g, member, act='Stay'): R(g, g, 0, N(member), again=[('Comma', act, 0)])
EXPR, ASSIGN, CONST = N('Expression'), N('AssignmentExpression'), N('ConstantExpression')
RP, RB, LB, SEMI, COMMA, COLON = T('RightParen'), T('RightBracket'), T('LeftBrace'), T('Semicolon'), T('Comma'), T('Colon')
NAME, OPEN, TYPEOPEN, VALUEOPEN = T('Name'), T('Open'), T('TypeOpen'), T('LeftParen')

S('Expressions', 'A.2.1')
p = 'PrimaryExpression'
R(p, p, 0, NAME); R(p, p, 1, T('Constant')); R(p, p, 2, T('String'), many(T('String'))); R(p, p, 3, VALUEOPEN, EXPR, RP); U(p, 'GenericSelection')
R('GenericSelection', 'GenericSelection', 0, T('Generic'), OPEN, ASSIGN, COMMA, N('GenericAssocList'), RP)
members('GenericAssocList', 'GenericAssociation')
g = 'GenericAssociation'
R(g, g, 0, N('TypeName'), COLON, ASSIGN); R(g, g, 1, T('Default'), COLON, ASSIGN)
p = 'PostfixExpression'
U(p, 'PrimaryExpression'); R(p, p, 1, N(p), T('LeftBracket'), EXPR, RB); R(p, p, 2, N(p), OPEN, opt(N('ArgumentExpressionList')), RP)
R(p, p, 3, N(p), T('Dot'), NAME); R(p, p, 4, N(p), T('Arrow'), NAME); R(p, p, 5, N(p), T('PlusPlus')); R(p, p, 6, N(p), T('MinusMinus'))
R(p, p, 7, T('LiteralParen'), N('TypeName'), RP, LB, N('InitializerList'), T('RightBrace'))
R(p, p, 8, T('LiteralParen'), N('TypeName'), RP, LB, N('InitializerList'), T('LastComma'), T('RightBrace'))
members('ArgumentExpressionList', 'AssignmentExpression')
u = 'UnaryExpression'
U(u, 'PostfixExpression'); R(u, u, 1, T('PlusPlus'), N(u)); R(u, u, 2, T('MinusMinus'), N(u)); R(u, u, 3, N('UnaryOperator'), N('CastExpression'))
R(u, u, 4, T('Sizeof'), N(u)); R(u, u, 5, T('Sizeof'), T('TypeParen'), N('TypeName'), RP); R(u, u, 6, T('Alignof'), TYPEOPEN, N('TypeName'), RP)
UNOPS = 'Ampersand Star Plus Minus Tilde Bang'.split()
for i, c in enumerate(UNOPS): R('UnaryOperator', 'UnaryOperator', i, T(c))
c = 'CastExpression'
U(c, 'UnaryExpression'); R(c, c, 1, T('TypeParen'), N('TypeName'), RP, N(c))
BINARY = (('MultiplicativeExpression', 'Star Slash Percent'), ('AdditiveExpression', 'Plus Minus'), ('ShiftExpression', 'ShiftLeft ShiftRight'), ('RelationalExpression', 'Less Greater LessEqual GreaterEqual'),
  ('EqualityExpression', 'EqualEqual BangEqual'), ('AndExpression', 'Ampersand'), ('ExclusiveOrExpression', 'Caret'), ('InclusiveOrExpression', 'Bar'), ('LogicalAndExpression', 'AndAnd'), ('LogicalOrExpression', 'OrOr'))
higher = c
for b, ops in BINARY:
    U(b, higher)
    for i, o in enumerate(ops.split()): R(b, b, i + 1, N(b), T(o), N(higher))
    higher = b
c = 'ConditionalExpression'
U(c, 'LogicalOrExpression'); R(c, c, 1, N('LogicalOrExpression'), T('Question'), EXPR, COLON, N(c))
a = 'AssignmentExpression'
U(a, c); R(a, a, 1, N('UnaryExpression'), N('AssignmentOperator'), N(a))
ASSIGNS = 'Equal StarEqual SlashEqual PercentEqual PlusEqual MinusEqual ShiftLeftEqual ShiftRightEqual AmpersandEqual CaretEqual BarEqual'.split()
for i, o in enumerate(ASSIGNS): R('AssignmentOperator', 'AssignmentOperator', i, T(o))
e = 'Expression'
U(e, a); R(e, e, 1, EXPR, COMMA, ASSIGN)
U('ConstantExpression', c)

S('Declarations', 'A.2.2')
d = 'Declaration'
R(d, d, 0, N('DeclarationSpecifiers'), opt(N('InitDeclaratorList')), T('Semicolon', 'Finish')); U(d, 'StaticAssertDeclaration')
s = 'DeclarationSpecifiers'
R(s, s, 0, N('OtherSpecifier'), many(N('OtherSpecifier')), bar='Typed'); R(s, s, 0, many(N('OtherSpecifier')), N('TypeSpecifier'), many(N('LaterSpecifier')))
U('OtherSpecifier', 'StorageClassSpecifier', 'TypeQualifier', 'FunctionSpecifier', 'AlignmentSpecifier'); U('LaterSpecifier', 'OtherSpecifier', 'LaterTypeSpecifier')
members('InitDeclaratorList', 'InitDeclarator', 'Declare')
i_ = 'InitDeclarator'
U(i_, 'Declarator'); R(i_, i_, 1, N('Declarator'), T('Equal', 'Declare'), N('Initializer'))
STORAGE = 'Typedef Extern Static ThreadLocal Auto Register'.split()
for i, o in enumerate(STORAGE): R('StorageClassSpecifier', 'StorageClassSpecifier', i, T(o, 'Typedef' if o == 'Typedef' else 'Stay'))
U('TypeSpecifier', 'LaterTypeSpecifier', 'TypedefName'); t = 'LaterTypeSpecifier'
TYPEWORDS = 'Void Char Short Int Long Float Double Signed Unsigned Bool'.split()
for i, o in enumerate(TYPEWORDS): R(t, 'TypeSpecifier', i, T(o))
U(t, 'AtomicTypeSpecifier', 'StructOrUnionSpecifier', 'EnumSpecifier')
s = 'StructOrUnionSpecifier'
R(s, s, 0, N('StructOrUnion'), opt(NAME), T('LeftBrace', 'Open'), N('StructDeclarationList'), T('RightBrace', 'Shut')); R(s, s, 1, N('StructOrUnion'), NAME)
for i, o in enumerate(('Struct', 'Union')): R('StructOrUnion', 'StructOrUnion', i, T(o))
R('StructDeclarationList', 'StructDeclarationList', 0, N('StructDeclaration'), many(N('StructDeclaration')))
s = 'StructDeclaration'
R(s, s, 0, N('SpecifierQualifierList'), opt(N('StructDeclaratorList')), T('Semicolon', 'Forget')); U(s, 'StaticAssertDeclaration')
s = 'SpecifierQualifierList'
R(s, s, 0, N('TypeQualifier'), many(N('TypeQualifier')), bar='Typed'); R(s, s, 0, many(N('TypeQualifier')), N('TypeSpecifier'), many(N('LaterQualifier')))
U('LaterQualifier', 'TypeQualifier', 'LaterTypeSpecifier'); EXTRA.insert(3, 'LaterQualifier')
members('StructDeclaratorList', 'StructDeclarator', 'Forget')
s = 'StructDeclarator'
U(s, 'Declarator'); R(s, s, 1, N('Declarator'), T('Colon', 'Forget'), CONST); R(s, s, 1, COLON, CONST)
e = 'EnumSpecifier'
R(e, e, 0, T('Enum'), opt(NAME), T('LeftBrace', 'Open'), N('EnumeratorList'), T('RightBrace', 'Shut')); R(e, e, 1, T('Enum'), opt(NAME), T('LeftBrace', 'Open'), N('EnumeratorList'), T('LastComma'), T('RightBrace', 'Shut')); R(e, e, 2, T('Enum'), NAME)
members('EnumeratorList', 'Enumerator', 'Declare')
R('Enumerator', 'Enumerator', 0, T('Name', 'Name')); R('Enumerator', 'Enumerator', 1, T('Name', 'Name'), T('Equal'), CONST)
R('AtomicTypeSpecifier', 'AtomicTypeSpecifier', 0, T('AtomicParen'), TYPEOPEN, N('TypeName'), RP)
QUALS = 'Const Restrict Volatile Atomic'.split()
for i, o in enumerate(QUALS): R('TypeQualifier', 'TypeQualifier', i, T(o))
for i, o in enumerate(('Inline', 'Noreturn')): R('FunctionSpecifier', 'FunctionSpecifier', i, T(o))
a = 'AlignmentSpecifier'
R(a, a, 0, T('Alignas'), TYPEOPEN, N('TypeName'), RP); R(a, a, 1, T('Alignas'), VALUEOPEN, CONST, RP)
QL = N('TypeQualifierList'); PARAMS = T('TypeOpen', 'Open'); ENDPARAMS = T('RightParen', 'Close')
def arrays(g, d, first, before, star_quals):
    b = [N(before)] if before else []
    R(g, d, first, *b, T('LeftBracket'), opt(QL), opt(ASSIGN), RB); R(g, d, first + 1, *b, T('LeftBracket'), T('Static'), opt(QL), ASSIGN, RB); R(g, d, first + 2, *b, T('LeftBracket'), QL, T('Static'), ASSIGN, RB)
    R(g, d, first + 3, *b, T('LeftBracket'), *([opt(QL)] if star_quals else []), T('StarBracket'), RB)
for g, direct in (('Declarator', 'DirectDeclarator'), ('ParameterDeclarator', 'DirectParameterDeclarator')):
    U(g, direct); R(g, 'Declarator', 0, N('Pointer'), N(direct))
    R(direct, 'DirectDeclarator', 0, T('Name', 'Name')); R(direct, 'DirectDeclarator', 1, OPEN if g == 'Declarator' else VALUEOPEN, N(g), RP)
    arrays(direct, 'DirectDeclarator', 2, direct, True)
    R(direct, 'DirectDeclarator', 6, N(direct), PARAMS, N('ParameterTypeList'), ENDPARAMS); R(direct, 'DirectDeclarator', 7, N(direct), T('LeftParen', 'Open'), opt(N('IdentifierList')), ENDPARAMS)
R('Pointer', 'Pointer', 0, T('Star'), opt(QL)); R('Pointer', 'Pointer', 1, T('Star'), opt(QL), N('Pointer'))
R('TypeQualifierList', 'TypeQualifierList', 0, N('TypeQualifier'), many(N('TypeQualifier')))
p = 'ParameterTypeList'
U(p, 'ParameterList'); R(p, p, 1, N('ParameterList'), T('LastComma'), T('Ellipsis'))
members('ParameterList', 'ParameterDeclaration', 'Finish')
p = 'ParameterDeclaration'
R(p, p, 0, N('DeclarationSpecifiers'), N('ParameterDeclarator')); R(p, p, 1, N('DeclarationSpecifiers'), N('AbstractDeclarator')); U(p, 'DeclarationSpecifiers')
R('IdentifierList', 'IdentifierList', 0, NAME, again=[('Comma', 'Stay', 0)])
R('TypeName', 'TypeName', 0, N('SpecifierQualifierList'), N('AbstractDeclarator')); U('TypeName', 'SpecifierQualifierList')
a = 'AbstractDeclarator'; da = 'DirectAbstractDeclarator'
U(a, 'Pointer', da); R(a, a, 1, N('Pointer'), N(da))
R(da, da, 0, VALUEOPEN, N(a), RP); arrays(da, da, 1, None, False); arrays(da, da, 1, da, False)
R(da, da, 5, VALUEOPEN, RP); R(da, da, 5, PARAMS, N('ParameterTypeList'), ENDPARAMS); R(da, da, 5, N(da), VALUEOPEN, RP); R(da, da, 5, N(da), PARAMS, N('ParameterTypeList'), ENDPARAMS)
R('TypedefName', 'TypedefName', 0, T('Typed'))
i_ = 'Initializer'
U(i_, 'AssignmentExpression'); R(i_, i_, 1, LB, N('InitializerList'), T('RightBrace')); R(i_, i_, 2, LB, N('InitializerList'), T('LastComma'), T('RightBrace'))
R('InitializerList', 'InitializerList', 0, opt(N('Designation')), N('Initializer'), again=[('DesignationComma', 'Stay', 0), ('Comma', 'Stay', 1)])
R('Designation', 'Designation', 0, N('DesignatorList'), T('Equal'))
R('DesignatorList', 'DesignatorList', 0, N('Designator'), many(N('Designator')))
R('Designator', 'Designator', 0, T('LeftBracket'), CONST, RB); R('Designator', 'Designator', 1, T('Dot'), NAME)
R('StaticAssertDeclaration', 'StaticAssertDeclaration', 0, T('StaticAssert'), OPEN, CONST, COMMA, T('String'), many(T('String')), RP, SEMI)
U('AnyDeclarator', 'ParameterDeclarator', 'AbstractDeclarator'); U('DirectAnyDeclarator', 'DirectParameterDeclarator', 'DirectAbstractDeclarator')

S('Statements', 'A.2.3')
# a statement that ends with an `if` without `else` is open, any other closed: only after a closed one the `else` of an `if` around it may stand
STATEMENT = N('Statement'); CLOSED = N('ClosedStatement'); SORTS = (('Closed', CLOSED), ('Open', N('OpenStatement'))); IFPAREN = T('RightParen', 'Open')
l = 'LabeledStatement'; s = 'SelectionStatement'; i_ = 'IterationStatement'
U('Statement', 'ClosedStatement', 'OpenStatement')
U('ClosedStatement', 'Closed' + l, 'CompoundStatement', 'ExpressionStatement', 'Closed' + s, 'Closed' + i_, 'JumpStatement'); U('OpenStatement', 'Open' + l, 'Open' + s, 'Open' + i_)
for x in (l, s, i_): U(x, 'Closed' + x, 'Open' + x)
for o, last in SORTS: R(o + l, l, 0, T('Label'), COLON, last); R(o + l, l, 1, T('Case'), CONST, COLON, last); R(o + l, l, 2, T('Default'), COLON, last)
R('CompoundStatement', 'CompoundStatement', 0, T('LeftBrace', 'Open'), opt(N('BlockItemList')), T('RightBrace', 'Close'))
R('BlockItemList', 'BlockItemList', 0, ENTRY, many(ENTRY))
U('BlockItem', 'BlockDeclaration', 'BlockStatement')
R('ExpressionStatement', 'ExpressionStatement', 0, opt(N('UnlabelledExpression')), SEMI)
IF = (T('If'), OPEN, EXPR, IFPAREN)
R('Open' + s, s, 0, *IF, CLOSED, bar='Else', scoped=True); R('Open' + s, s, 0, *IF, N('OpenStatement'), scoped=True)
for o, last in SORTS: R(o + s, s, 1, *IF, CLOSED, T('Else', 'Close'), last, scoped=True)
for o, last in SORTS: R(o + s, s, 2, T('Switch'), OPEN, EXPR, RP, last, scoped=True)
FOREXPR = opt(N('PlainExpression')); TAIL = (opt(EXPR), SEMI, opt(EXPR), RP)
R('Closed' + i_, i_, 1, T('Do', 'Open'), STATEMENT, T('While', 'Close'), OPEN, EXPR, RP, SEMI, scoped=True)
for o, last in SORTS:
    R(o + i_, i_, 0, T('While'), OPEN, EXPR, RP, last, scoped=True); R(o + i_, i_, 2, T('For'), OPEN, FOREXPR, SEMI, *TAIL, last, scoped=True); R(o + i_, i_, 3, T('For'), OPEN, N('Declaration'), *TAIL, last, scoped=True)
j = 'JumpStatement'
R(j, j, 0, T('Goto'), NAME, SEMI); R(j, j, 1, T('Continue'), SEMI); R(j, j, 2, T('Break'), SEMI); R(j, j, 3, T('Return'), opt(EXPR), SEMI)
U('UnlabelledExpression', 'Expression'); U('PlainExpression', 'Expression'); U('BlockSpecifiers', 'DeclarationSpecifiers')
U('BlockStatement', 'LabeledStatement', 'CompoundStatement', 'BlockExpressionStatement', 'SelectionStatement', 'IterationStatement', 'JumpStatement')
R('BlockExpressionStatement', 'ExpressionStatement', 0, FOREXPR, SEMI)
R('BlockDeclaration', 'Declaration', 0, N('BlockSpecifiers'), opt(N('InitDeclaratorList')), T('Semicolon', 'Finish')); U('BlockDeclaration', 'StaticAssertDeclaration')
SHUNS = dict(UnlabelledExpression='Label', PlainExpression='Marked', BlockSpecifiers='Label')

S('External definitions', 'A.2.4')
f = 'FunctionDefinition'
R(f, f, 0, N('DeclarationSpecifiers'), N('Declarator'), N('FunctionBody'))
R('FunctionBody', 'CompoundStatement', 0, T('LeftBrace', 'Begin'), opt(N('BlockItemList')), T('RightBrace', 'Close'))
