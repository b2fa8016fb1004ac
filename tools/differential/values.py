"""Scripts of values: operators, built-ins and methods at edge values. Each part prints one line and needs no other."""

from grammar import Grammar, row

INTEGERS = row('0  1  2  3  5  7  10  -1  -2  -3  63  64  62  255  256  97  1_000  0x1F  0b101  0o17  00  -7')
LARGE = row('''9223372036854775807  (-9223372036854775807 - 1)  -9223372036854775807  4294967296  -4294967297
    3037000500  3037000499  -3037000500  2147483648  0x7fff_ffff_ffff_ffff  4611686018427387904  0x10ffff  1114112
    0xd7ff  0xd800''')
TEXTS = row(r''''a'  ''  'b'  'abc'  "it's"  'q"q'  '\n'  '\t\\'  r'\n'  '\x41\u00e9'  'é'  '\0'  '\x7f'  'ab' 'cd'
    '\'"'  u'u'  '\101'  '0'  '12'  ' 7 '  '-3'  '+4'  '1_0'  '1__0'  '_1'  '- 1'  '9223372036854775807'
    '-9223372036854775808'  '9223372036854775808'  '\n5\t'  'aXbXc'  'aab'  '😀z'  '\U0001F600'  '\ud7ff'  '\x85'  '\8'
    'k'  '\u0663'  '\x1c7'  '\u00a07' ''')
BYTES = row(r'''b''  b'a'  b'abc'  b'\x00\xff'  b"'"  rb'\x'  b'\n\\'  b'b' b'c'
    b'\u1'  b'\377'  b'"\''  b'\x7f\x80' ''')
RANGES = row('''range(0)  range(3)  range(0, 10, 3)  range(0, 12, 3)  range(5, -1, -2)  range(7, 7)  range(1, 2)
    range(1, 3, 5)  range(0, 3, True)  range(-2, 9, 3)''')
TUPLES = row("()  (1,)  (1, 2)  ('a', 'b')  (1, (2, 3))  (None, True)  ((), [])  (True, 2)  (1, 2, 3)")
LISTS = row("[]  [1]  [1, 2, 3]  ['a', 'b']  [[]]  [1, [2]]  [{}]  [65, 255]")
DICTS = row("{}  {1: 2}  {'a': 1}  {'k': [1], 2: 'b'}  {0: {}}  {1: 'x', 'k': [2]}  {'a': 1, 1: 'b'}")
START = '''def same(x): return x
def down(n): return 0 if n <= 0 else 1 + down(n - 1)
error = ValueError('m')
def ring():
    x = []; x.append(x)
    return x
def rings():
    x = {}; x['d'] = x
    return x
deep = []; deeper = ()
for k in range(198): deep = [deep]; deeper = [deeper]
'''
FORMS = {
    'SIGN': row('+  -  *  //  %  **  &  |  ^  <<  >>  <  >  <=  >=  ==  !=  in  not in  and  or  +  *  =='),
    'ARITHMETIC': row('+  -  *  //  %  **  &  |  ^  <<  >>  <  >  <=  >=  ==  !='),
    'AUGMENTED': row('+=  +=  +=  +=  -=  *=  //=  %=  **=  &=  |=  ^=  <<=  >>='),
    'UNARY': ['+', '-', '~', 'not ', '- -', '~-', 'not -'],
    'ORDER': row('<  >  <=  >=  ==  !='),
    'CONSTANT': row('None  True  False'),
    'BUILTIN': row('range  str  repr  len  bool  abs  int  ord  chr  min  max  bytes  tuple  list  ValueError'),
    'PART': ['try: DOING\nexcept Exception as e: print(repr(e))'],
    'DOING': ['print(repr(LINE))'] * 15 + row('''x = EDGE; x[INDEX] = EDGE; print(x)  x = EDGE; del x[INDEX]; print(x)
        x = LISTED; x[INDEX] AUGMENTED EDGE; print(x)  x = EDGE; y = x; x AUGMENTED EDGE; print(x, y)
        x, y = z = EDGE; print(x, y, z)  x = [1]; x[0], y = EDGE, x; print(x, y)'''),
    'LINE': 8 * ['EDGE SIGN EDGE', 'NUMBER ARITHMETIC NUMBER'] + 3 * ['SMALL SIGN SMALL SIGN UNARY SMALL'] + row('''
        UNARY EDGE  BUILTIN(EDGE)  BUILTIN(EDGE)  BUILTIN(EDGE)  BUILTIN(BUILTIN(EDGE))  EDGE[INDEX]  EDGE[INDEX]
        LISTED[INDEX]  min(EDGE, EDGE)  max(SMALL, SMALL, SMALL)  range(SMALL, SMALL, SMALL)  range(NUMBER, NUMBER)
        (EDGE).pop(INDEX)  LISTED.pop()  (EDGE).get(INDEX)  LISTED.get(INDEX, EDGE)  TEXT.startswith(TEXT)
        TEXT.endswith(TEXT)  TEXT.join(EDGE)  TEXT.encode()  (EDGE).METHOD(EDGE)  (EDGE).ATTRIBUTE  TEXT in TEXT
        TEXT ORDER TEXT  BYTES in BYTES  int(TEXT)  repr(TEXT + TEXT)  RANGE == RANGE  SMALL in RANGE  RANGE[SMALL]
        EDGE is not CONSTANT  SMALL ORDER CONSTANT  SMALL ORDER SMALL ORDER SMALL  EDGE if EDGE else EDGE  HUGELINE
        DEEPLINE  BUILTIN()  BUILTIN(EDGE, EDGE)  BUILTIN(x=EDGE)  same()  same(x=1)  (EDGE)(EDGE)
        {EDGE: 1, SMALL: 2}  'a' * NUMBER  (0,) * NUMBER  chr(NUMBER)  chr(SMALL * 1000 + SMALL * SMALL)
        bytes((SMALL, 34, 39))  undefined  __name__  EDGE in (EDGE, EDGE)  [EDGE, EDGE] == [EDGE, EDGE]
        (TEXT, SMALL) == (TEXT, SMALL)'''),
    'HUGELINE': row('len(HUGE)  HUGE[INDEX]  NUMBER in HUGE  HUGE == HUGE  bool(HUGE)  HUGE  bytes(HUGE)'),
    'DEEPLINE': row('''down(198)  down(199)  down(200)  len(str([deep]))  len(str([[deep]]))  [deep] == [deeper]
        [[deep]] == [[deeper]]  len(repr(ValueError([deep])))  len(str(ValueError([deep])))  len(str(KeyError(deep)))
        len(str((ValueError(deep),)))'''),
    'HUGE': row('''range(-9223372036854775807 - 1, 9223372036854775807)  range(9223372036854775807)
        range(9223372036854775807, 0, -9223372036854775807 - 1)
        range(-9223372036854775807, 9223372036854775807, 2)'''),
    'EDGE': row('NUMBER  TEXT  TEXT  BYTES  RANGE  LISTED  LISTED  OTHER  CONSTANT'),
    'INDEX': row('SMALL  SMALL  0  -1  KEY  KEY  NUMBER  EDGE'),
    'NUMBER': INTEGERS + LARGE + LARGE,
    'SMALL': row('0  1  2  3  -1  -2  4  5  7  True  False  40  127  200  255'),
    'KEY': row("'a'  'k'  1  2"),
    'TEXT': TEXTS, 'BYTES': BYTES, 'RANGE': RANGES, 'LISTED': TUPLES + LISTS + DICTS,
    'OTHER': row('''None  ValueError  KeyError  error  ValueError()  KeyError('k')  print  len  str  int  range  min
        list  tuple  same  ring()  rings()'''),
    'METHOD': row('append  join  startswith  encode  pop  get  sort  x'),
    'ATTRIBUTE': row('args  x  stop  append  join  real  id  exec'),
}


def edges(random):
    grammar = Grammar(random, FORMS, {})
    return START, grammar.parts(150, 9)
