from concurrent import interpreters
i = interpreters.create()
j = interpreters.create()
i.exec('for k in range(20): pass\nprint(k)')
j.exec('for k in range(20): pass\nprint(k)')
