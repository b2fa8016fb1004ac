from concurrent import interpreters
a = interpreters.create()
b = interpreters.create()
b.exec("print('b')")
a.exec("from concurrent import interpreters\nc = interpreters.create()\nc.exec('x = 1')\nc.close()\nprint(c)")
b.close()
a.close()
