e = 'global'
def f():
    try:
        raise ValueError('v')
    except ValueError as e:
        print(e)
f()
print(e)
try:
    raise ValueError('w')
except ValueError as e:
    print(e)
try:
    print(e)
except NameError as n:
    print(n)
