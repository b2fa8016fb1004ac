from concurrent import interpreters
i = interpreters.create()
try:
    i.exec('x = 1\nprint(x)\ny = 1 // 0\nz = 3')
except interpreters.ExecutionFailed as e:
    print(e)
i.exec('print(x)')
try:
    i.exec('print(y)')
except interpreters.ExecutionFailed as e:
    print(e)
