from concurrent import interpreters
interpreters.create().close()
try:
    interpreters.create()
except interpreters.InterpreterError as e:
    print(e)
