from concurrent import interpreters
a = interpreters.create()
a.exec("from concurrent import interpreters\nc = interpreters.create()\nc.exec('x = 1')")
a.close()
print(interpreters.list_all())
interpreters.list_all()[1].exec('print(x)')
