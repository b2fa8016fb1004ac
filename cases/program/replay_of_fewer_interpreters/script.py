from concurrent import interpreters
try:
    interpreters.create()
except interpreters.InterpreterError as e:
    print(e)
