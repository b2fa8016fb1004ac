"""Scripts of the order of evaluation, of targets, and of lists and dicts that are changed in their loops."""

from grammar import Grammar, row

RESET = "a = 1; b = (2, 3); i = 0; l = [1, 2, 3]; m = [4, 5]; d = {'k': 1, 0: [2]}"
SHORTER = f'if len(str(l)) + len(str(m)) + len(str(d)) + len(str(b)) + len(str(a)) > 400:\n    {RESET}'
START = f'''def t(number, value):
    print(number, value)
    return value
def second(x, y):
    l.append(x)
    return y
x = y = 0
{RESET}
'''
LOOP = 'w$ = 0\nfor BOUND in GONEOVER:\n    w$ += 1\n    if w$ > 5: break\n'
FORMS = {
    'PART': ['try:\n    STATEMENT\nexcept Exception as e: print(repr(e))\nSHOWN'] * 4 + [
        'def f$(l, d, i, m):\n    SCOPE\n    STATEMENT\n    STATEMENT\n    print(a, b, i, l, m, d)\n'
        'try: f$(l, d, i, m)\nexcept Exception as e: print(repr(e))\nSHOWN'],
    'SCOPE': row('a = x = y = 1; b = 2  global a, b, x  pass'),
    'SHOWN': [f'try: print($, a, b, i, l, m, d)\nexcept Exception as e: print(repr(e))\n{SHORTER}'],
    'STATEMENT': row("""TARGET = UNPACKED  TARGET = TARGET = UNPACKED  TARGET = TARGET = TARGET = UNPACKED
        ITEM AUGMENTED VALUE  ITEM AUGMENTED VALUE  NAME AUGMENTED VALUE  del ITEM  print(VALUE, VALUE)  print(VALUE)
        SHAPE  SHAPE  LOOP  LOOP  LOOP"""),
    'LOOP': [f'{LOOP}    CHANGE\n    CHANGE\n    CHANGED', f'{LOOP}    CHANGE\n    CHANGED\nelse: print("else", l)'],
    'CHANGED': ['if w$ > 2: l.pop()', 'if w$ == 2: d[9] = 9', 'CHANGE', 'LOOP', 'CHANGE\nCHANGE'],
    'CHANGE': row('''print(x)  print(i, a)  print(l)  print(d)  l.append(VALUE)  l.pop()  l.pop(0)  m.append(x)
        del l[INDEX]  l[INDEX] = VALUE  d[KEY] = VALUE  d['k'] = x  d[0] = 1  d.pop('k')  d.pop(0)  d[x] = x  d.pop(x)
        l += m  l = []  d = {}  l += [x]  l[-1] += 1  i += 1  d[x] += 1  continue  if x == 2: continue
        if x == 3: break'''),
    'BOUND': row('x  x  i  a  x, y  l[0]  d[0]  [x, i]  i, l[i]  l  d  m[-1]  TARGET'),
    'GONEOVER': row('l  m  d  l  d  list(l)  tuple(l)  VALUE  (a, b), (l, m)'),
    'SHAPE': row('''l.append(l)  m.append(l)  d[0] = d  l[0] = d  l = m  m = l  l = [1, 2, 3]  d = {'k': 1, 0: [2]}
        i = 0  m = list(l)  d[1] = l  l += l  l += m  m += d  l += range(2)  l += 'ab'  l += b  l[0] += l  a = l
        b = (l, d)  a, b = b, a  i, l[i] = 1, 9  i = l[i] = 0  l[0], l[1] = l[1], l[0]  l, l[0] = m, 5
        d, d[1] = {}, 2  l[0] = l = [4, 5]  l = l[0] = [4, 5]  a = b = l = m = []'''),
    'TARGET': row('NAME  NAME  ITEM  ITEM  ITEM[INDEX]  (TARGET, TARGET)  [TARGET, TARGET]  TARGET, NAME  (TARGET)'),
    'ITEM': row('OBJECT[INDEX]  OBJECT[INDEX]  KEYED[KEY]'),
    'UNPACKED': row('(UNPACKED, UNPACKED)  [UNPACKED, UNPACKED]  VALUE  VALUE  VALUE, VALUE'),
    'VALUE': row('''PLAIN  t($, PLAIN)  t($, VALUE)  t($, VALUE)  [VALUE, VALUE]  (VALUE, VALUE)
        {KEY: VALUE, KEY: VALUE}  OBJECT[INDEX]  KEYED[KEY]  (VALUE SIGN VALUE)  (VALUE ORDER VALUE ORDER VALUE)
        (VALUE if VALUE else VALUE)  OBJECT.pop()  OBJECT.pop(INDEX)  KEYED.pop(KEY)  OBJECT.append(VALUE)
        KEYED.get(KEY, VALUE)  BUILTIN(VALUE)  min(VALUE, VALUE)  max(VALUE, VALUE)  second(VALUE, VALUE)'''),
    'PLAIN': row("0  1  2  -1  a  b  l  m  d  i  'k'  'xy'  [5, 6]  (7, 8)  {}  None  []"),
    'KEY': row("'k'  1  0  i  a  t($, 'k')  t($, 'z')  t($, 2)  t($, i)"),
    'INDEX': row('0  -1  i  1  t($, 0)  t($, 1)  t($, i)'),
    'OBJECT': row('l  m  l  t($, l)  l  d'),
    'KEYED': row('d  d  t($, d)  d'),
    'NAME': row('a  b  i  l  m  d'),
    'SIGN': row('+  -  *  <  ==  in  and  or'), 'ORDER': row('<  ==  !=  in  <=  >='),
    'AUGMENTED': row('+=  +=  +=  *=  -=  |=  //='), 'BUILTIN': row('str  len  list  tuple  repr  bool'),
}
LEAVES = {'VALUE': ['PLAIN'], 'UNPACKED': ['VALUE'], 'TARGET': ['NAME', 'ITEM'], 'CHANGED': ['CHANGE'],
          'LOOP': ['CHANGE'], 'STATEMENT': ['SHAPE']}


def orders(random):
    grammar = Grammar(random, FORMS, LEAVES)
    return START, [part for _ in range(8) for part in (RESET, *grammar.parts(6, 5))]
