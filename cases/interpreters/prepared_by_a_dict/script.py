from concurrent import interpreters
i = interpreters.create()
d = {'a': 1, 'b': (2, 'x'), 'not a name': 3}
print(i.prepare_main(d), i.prepare_main({}), i.prepare_main(None), i.prepare_main({}, c=3), i.prepare_main(d, b='later'))
i.exec('print(a, b, c)')
d['a'] = 4
i.exec('print(a)')
for n in range(9):
    try:
        if n == 0: i.prepare_main({1: 2})
        elif n == 1: i.prepare_main({'a': [5]})
        elif n == 2: i.prepare_main({'a': 5, 'b': print, 1: 2})
        elif n == 3: i.prepare_main({'a': 5, 1: print, 'b': print})
        elif n == 4: i.prepare_main({'a': 5}, b={})
        elif n == 5: i.prepare_main([('a', 5)])
        elif n == 6: i.prepare_main('a')
        elif n == 7: i.prepare_main({'a': 5}, {})
        elif n == 8: i.prepare_main(ns={'a': 5})
    except interpreters.NotShareableError as e:
        print(n, 'NotShareableError', e)
    except TypeError as e:
        print(n, 'TypeError', e)
i.exec('print(a, b, c)')
i.close()
try:
    i.prepare_main({'a': 6})
except interpreters.InterpreterNotFoundError as e:
    print(e)
