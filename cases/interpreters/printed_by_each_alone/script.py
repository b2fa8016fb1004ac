from concurrent import interpreters
i = interpreters.create()
print('a')
i.exec("print('b')")
print('c')
i.exec("print('d')\nprint('e')")
