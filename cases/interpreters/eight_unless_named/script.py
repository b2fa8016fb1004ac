from concurrent import interpreters
n = 1
try:
    while True:
        interpreters.create().close()
        n += 1
except interpreters.InterpreterError as e:
    print(n, e)
