"""Texts to be read: parts of scripts with tokens, characters and line ends changed, and literals."""

import re

from flow import nestings
from grammar import row
from order import orders

TOKEN = re.compile(r'\n *|\w+|"""[^"]*"""|"[^"\n]*"|\'[^\'\n]*\'|#[^\n]*| +|\*\*=|//=|<<=|>>=|\*\*|//|<<|>>'
                   r'|[<>=!+*%&|^-]=|.', re.S)
WORDS = row(r'''a  b  0  1  'x'  b'x'  None  True  (  )  [  ]  {  }  ,  :  .  =  ;  +  -  *  **  //  %  @  /  ~  |  &
    ^  <<  >>  <  >  <=  ==  !=  +=  //=  **=  @=  /=  ->  :=  ...  !  in  not  is  and  or  if  else  elif  lambda
    for  while  try  except  finally  def  class  return  del  global  nonlocal  pass  break  continue  raise  from
    import  as  yield  await  async  with  assert  print  match  type  0x1  1_0  01  1.  1j  f'x'  t'x'  r"x"  #  _  é
    $  ?  `  "  '  """  1a  x=  is None''') + ['\n', '\n ', '\n    ', '\n        ', '\\\n', '\t', '  ']
CHARACTERS = 'ab01_(){}[],:.;=+-*<>!~\'"\\\n \t#rbuxFe%/|&^@\r\x0b\x0c\x00é'
SAMPLES = [
    'import threading', 'from concurrent import interpreters', 'x = 1 # c\n# d\ny = 2', 'x = ()', 'x = (a), ; (y)',
    'def f(a, b,): return a, b\nf(1, b=2)', 'x = (1,\n  2)', 'x = """a\n b"""; y = \'\'\'c\'\'\'', 'x = a[(1, 2)]',
    'if a:\n  # c\n  x = 1\n\n  y = 2\nz = 3', 'x = [\n1,\n2,\n][a - 1]', 'a.b.c(d)(e)[0].f', 'x = 1 .y',
    'del (a[0])', 'a is not None is True',
    'def f():\n    global x, y\n    x = 5\n    return', 'for x, in b: pass', '(x), [y, (z,)] = (a) = b',
    'try:\n    x\nexcept (A, B) as e:\n    y\nexcept A: raise\nelse: z\nfinally: pass',
    'while a:\n    try: break\n    finally:\n        for x in y: continue',
    'def f(a):\n    while a:\n        if a: return a\n    else: pass']
ENDS = ['\n'] * 6 + ['\r\n', '\r']
PREFIXES = [''] * 6 + row('r  u  b  b  rb  br  R  U  B  bR  Rb  BR  f  t  ur  bb')
PIECES = ['\\\n', '\n', '\r', '\\\r\n', '\t', "'", '"', ' ', '\x0c', '\x7f', '\x01', '\u2028', '\\', '\\\\'] + row(r'''
    a  b  \  \n  \x41  \x4  \u0041  \U0001F600  \U00110000  \N  \N{DIGIT ONE}  \0  \12  \377  \400  \8  \'  \"  é  {  #
    \x  \u  \ud800  \ue000  \q  \é  0  7  x  \1  \18  a  a  0  \n''')
NUMBERS = row('''9223372036854775807  9223372036854775808  09  0_0  1__0  1_  0x_1  0x__1  0b_1_0  0o_7  0_  00_00
    0x1_  1e5  1if 2else 3  1or 2  0x1for  1 in ()  0o8  0b2  0xg  1_000_000  0b1_  0xF_f  0X1f  0B11  0O17  1.5  .5
    1j  00  007  0x  0b  1 .x  1.x  0xe+1''')
DIGITS = '0011223456789__xXoObBaAfFeEjJ.+-'


def changed_tokens(random, text):
    tokens = TOKEN.findall(text)
    for _ in range(random.choice((1, 1, 1, 2, 2, 3))):
        at, other = random.randrange(len(tokens) + 1), random.randrange(len(tokens) + 1)
        change = random.randrange(5)
        if change < 2 or not tokens[at:] or not tokens[other:]:
            tokens.insert(at, random.choice(WORDS))
        elif change == 2:
            tokens[at] = random.choice(WORDS)
        elif change == 3:
            del tokens[at]
        else:
            tokens[at], tokens[other] = tokens[other], tokens[at]
    return ''.join(tokens)


def changed(random):
    start, parts = random.choice((nestings, orders))(random)
    texts = [it for it in parts if len(it) < 400] + 2 * SAMPLES
    for _ in range(20):
        text = random.choice(texts)
        if random.random() < 0.8:
            text = changed_tokens(random, text)
        else:
            at = random.randrange(len(text) + 1)
            text = text[:at] + random.choice(CHARACTERS) + text[at + random.randrange(2):]
        yield start, text.replace('\n', random.choice(ENDS))


def literal(random):
    kind = random.randrange(8)
    if kind == 0:
        return random.choice(NUMBERS)
    if kind == 1:
        return random.choice(('', '', '0x', '0b', '0o')) + ''.join(random.choices(DIGITS, k=random.randrange(1, 7)))
    quote = random.choice(("'", '"', "'''", '"""'))
    return random.choice(PREFIXES) + quote + ''.join(random.choices(PIECES, k=random.randrange(5))) + quote


def texts(random):
    """Pairs of what is bound before, and a text that may be read or not."""
    yield from changed(random)
    for _ in range(12):
        beside = random.choice(('', '', ' ' + literal(random), '\n' + literal(random)))
        yield '', f'print(repr(({literal(random)}{beside})))'
