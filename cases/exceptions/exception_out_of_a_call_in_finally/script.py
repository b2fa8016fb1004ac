def clean(x):
    print('clean', x)
    if x > 1:
        raise RuntimeError('can not clean')
def f(x):
    try:
        return x
    finally:
        clean(x)
print(f(1))
try:
    print(f(2))
except RuntimeError as e:
    print(e)
