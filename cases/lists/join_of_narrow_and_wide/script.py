# characters below 256 are gathered as they stand until one is past them
print(','.join(['a', '\u00e9', 'b']))
print(''.join(['a', '\u20ac', 'b\u00e9', 'c']))
print('\u20ac'.join(['x', 'y', 'z\u00ff']), '-'.join('a\u20acb'))
print('x'.join([]) == '', 'x'.join(['q']), '\u00e9'.join(('1', '2')))
t = ','.join(['\u20ac'] + ['ab'] * 3)
print(t, len(t))
# one item so many times, and truths set among them
a = [True] * 3
a[1] = False
a[-1] = None
print(a, [0] * 0, (1,) * 3, ('a',) * -1)
# sums in place of texts, tuples and lists
s = '\u00e9'
u = (1,)
x = [1]
y = x
for i in range(3):
    s += 'ab'
    u += (i,)
    x += [i]
print(s, u, y)
