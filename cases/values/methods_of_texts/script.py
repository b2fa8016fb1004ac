s = 'hello'
print(s.startswith('he'), s.startswith('lo'), s.startswith(''), s.startswith('hello!'), ''.startswith(''))
print(s.endswith('lo'), s.endswith('he'), s.endswith(''), s.endswith('!hello'), 'aab'.endswith('ab'))
print('\u20acuro'.startswith('\u20ac'), (s + s).endswith('ohello'), 'x' in s or s.endswith('o'), -len(s) if s.startswith('h') else 0)
try:
    s.startswith(5)
except TypeError as e:
    print(e)
try:
    s.endswith('a', 'b')
except TypeError as e:
    print(e)
try:
    s.endswith(suffix='o')
except TypeError as e:
    print(e)
s.startswith(('h', 'e'))
