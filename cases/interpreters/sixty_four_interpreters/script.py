from concurrent import interpreters
for k in range(1, 64):
    i = interpreters.create()
    i.prepare_main(k=k)
    i.exec('print(k)')
try:
    interpreters.create()
except interpreters.InterpreterError as e:
    print(e)
