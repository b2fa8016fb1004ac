from concurrent import interpreters
x = 1
def f():
    return x
i = interpreters.create()
j = interpreters.create()
i.exec('x = 2\ndef f():\n    return x + 1\nprint(x, f())')
j.exec("x = 'j'\nprint(x)")
i.exec('print(x, f(), __name__)')
print(x, f(), __name__)
j.exec('print(f)')
