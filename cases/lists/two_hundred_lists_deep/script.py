a = []
for k in range(199): a = [a]
print(len(repr(a)))
b = []
for k in range(199): b = [b]
print(a == b)
a = [a]; b = [b]
try:
    print(a == b)
except RecursionError as e:
    print('==', e)
try:
    repr(a)
except RecursionError as e:
    print('repr', e)
