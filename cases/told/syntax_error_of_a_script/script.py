def f():
    raise SyntaxError('mine')

f()
