from concurrent import interpreters
i = interpreters.create()
i.exec('x = 1')
for value in (range(3), print, i, ValueError('x'), (1, (2, len))):
    try:
        i.prepare_main(x=2, y=value)
    except interpreters.NotShareableError as e:
        print(e)
for first in (5, 'x', (), i):
    try:
        i.prepare_main(first, x=2)
    except TypeError as e:
        print(e)
try:
    i.prepare_main(None, None, x=2)
except TypeError as e:
    print(e)
i.exec('print(x)')
