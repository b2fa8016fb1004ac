import threading
from concurrent import interpreters
i = interpreters.create()
q = interpreters.create_queue()
i.prepare_main(q=q)
t = threading.Thread(target=i.exec, args=('print(q.get())',))
u = threading.Thread(target=i.exec, args=("print('second')",))
t.start()
try:
    u.start()
except interpreters.InterpreterError as e:
    print(e)
try:
    u.join()
except RuntimeError as e:
    print(e)
q.put('first')
t.join()
u.start()
u.join()
i.close()
v = threading.Thread(args=('1',), target=i.exec)
try:
    v.start()
except interpreters.InterpreterNotFoundError as e:
    print(e)
try:
    v.join()
except RuntimeError as e:
    print(e)
