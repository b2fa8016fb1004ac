"""Scripts of statements within each other: `try`, loops, `return`, `break`, `continue` and `raise` in all nestings."""

from grammar import Grammar, row

START = '''e = e0 = KeyError(0); v = ValueError(99); n = 0
def t(x):
    print('t', x)
    return x
def again():
    raise
def kinds():
    try: raise
    except RuntimeError as e: return LookupError
    except Exception as e:
        print('in kinds', repr(e))
        return Exception
def q(x):
    try:
        if x == 0: raise IndexError(x)
        if x == 1: return 1
        if x == 2: 1 // 0
    except ArithmeticError: raise
    finally: print(x)
    return x
'''
CAUGHT = 'try: print("f$", f$(NUMBER))\nexcept BaseException as z: print("out", repr(z), z)\n'
WITHIN = '''try:
    try: raise KeyError("o")
    except KeyError: print(f$(1))
    raise
except BaseException as z: print(repr(z), z)'''
FORMS = {
    'PART': ['def f$(n):\n    DECLARED\n    SUITEF\n    SUITEF\n    print("end")\n' + 3 * CAUGHT] * 3 + [
        'def f$(n):\n    DECLARED\n    SUITEF\n    RETURNED\n' + CAUGHT + WITHIN,
        'try:\n    SUITET\nexcept BaseException as z: print("out", repr(z), z)'],
    'DECLARED': row('pass  global e  global v  global e, v  print(n)'),
    'RETURNED': row('return again()  return n  return v  pass'),
    'NUMBER': row('0  1  2  3'),
    'RAISED': row('''ValueError($)  KeyError($)  IndexError($)  ZeroDivisionError($)  RuntimeError($)  NameError($)
        TypeError($)  e  e0  KeyError  ValueError  5  q(3)  v'''),
    'CATCH': row('''Exception  Exception  ValueError  LookupError  KeyError  (KeyError, ValueError)  ArithmeticError
        BaseException  RuntimeError  t(ValueError)  t(LookupError)  kinds()  (IndexError, TypeError)  5
        (ValueError, 5)  ()  TypeError  e0  NameError  q(0)  (KeyError, (ValueError,))'''),
    'TEST': row('n % 2  t(0)  t(1)  v  n > 1  n == 1  not n'),
    'LISTED': row("(1, 2)  range(3)  'ab'  t((1,))  [7, 8]  {1: 2}  ()"),
    'SIMPLE': ['print($)'] * 5 + ['raise RAISED'] * 4 + row('''raise  1 // 0  again()  print(e)  print(repr(e), e)
        v = e  print(v)  e = $  q(NUMBER)  n += 1  print(n)  pass  if TEST: raise  if TEST: raise RAISED'''),
}


def forms_in(context):
    """The forms of a suite in a function (F) or in none (T), in a `finally` (Z), in a loop that stands there (L)."""
    loop, final = context.removesuffix('L') + 'L', context.removesuffix('L').removesuffix('Z') + 'Z'
    leaving = row('break  continue  if TEST: break  if TEST: continue') if context.endswith('L') else []
    if 'F' in context and 'Z' not in context:
        leaving += row('return $  return n  return t($)  return q(n)  return v  if TEST: return $')
    suite, inner, last = f'SUITE{context}', f'SUITE{loop}', f'SUITE{final}'
    compound = [f'if TEST:\n    {suite}\nelse:\n    {suite}', f'for w$ in LISTED:\n    {inner}\n    {inner}',
                f'for w$ in LISTED:\n    {inner}\nelse:\n    {suite}',
                f'w$ = 0\nwhile w$ < NUMBER:\n    w$ += 1\n    {inner}\nelse:\n    {suite}']
    handlers = [f'except CATCH as e:\n    print(repr(e))\n    {suite}', f'except CATCH as e:\n    {suite}\n    {suite}',
                f'except CATCH:\n    {suite}', f'except CATCH as v:\n    {suite}\nexcept CATCH as e:\n    {suite}',
                f'except CATCH:\n    {suite}\nexcept:\n    {suite}']
    rest = ['', '', f'\nelse:\n    {suite}', f'\nfinally:\n    {last}', f'\nfinally:\n    {last}\n    {last}',
            f'\nelse:\n    {suite}\nfinally:\n    {last}']
    bodies = [f'try:\n    {suite}\n    {body}' for body in ('pass', 'raise RAISED')]
    tries = [f'{body}\n{handler}{more}' for body in bodies for handler in handlers for more in rest]
    leaf, mixed, tried = f'LEAF{context}', f'MIXED{context}', f'TRY{context}'
    tries += [f'try:\n    {suite}\nfinally:\n    {last}'] * 8
    return {suite: [leaf, f'{suite}\n{suite}', mixed, tried, tried], leaf: FORMS['SIMPLE'] + 2 * leaving,
            mixed: compound, tried: tries}


CONTEXTS = [start + kind for start in 'TF' for kind in ('', 'L', 'Z', 'ZL')]
ALL_FORMS = FORMS | {word: forms for context in CONTEXTS for word, forms in forms_in(context).items()}
LEAVES = {f'{word}{context}': [f'LEAF{context}'] for context in CONTEXTS for word in ('SUITE', 'MIXED', 'TRY')}


def nestings(random):
    grammar = Grammar(random, ALL_FORMS, LEAVES)
    return START, grammar.parts(20, 8)
