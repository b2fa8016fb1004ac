s = 'caf\xe9 \u20ac'
print(s[0], s[3], s[5], s[-1], s[-2], s[-6], s[True], s[False])
print('abc'[1], 'abc'[0][0][-1], ('ab' + 'cd')[2], str(1234)[1], len(s[5]), s[5] == '\u20ac', ord(s[-1]))
print(range(5)[0], range(5)[4], range(5)[-1], range(5)[-5], range(10, 0, -3)[1], range(10, 0, -3)[-1], range(0, 10, 4)[2])
least = -9223372036854775807 - 1
all = range(least, 9223372036854775807)
print(all[0], all[-1], all[9223372036854775807], all[least], all[-9223372036854775807])
print(range(9223372036854775807, least, -1)[-1], range(9223372036854775807, least, least)[1], range(least, 9223372036854775807, 9223372036854775807)[2])
i = 2
print('abc'[i], 'abc'[i - 1], 'abc'[-i], 'abc'[int('0')])
def f(t, k):
    return t[k] + t[-k]
print(f('abcdef', 2))
n = 0
text = 'ab' * 5000
for k in range(len(text)):
    if text[k] == 'b':
        n += 1
print(n)
if 'abc'[0] == 'a' and range(3)[0] < 1:
    print('first')
def g(x):
    print(x)
    return x
print(g('abc')[g(1)])
print('abc'[
    1 +
    1
], 'abc' [0])
