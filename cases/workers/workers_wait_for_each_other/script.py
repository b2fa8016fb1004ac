import threading
from concurrent import interpreters
a = interpreters.create()
b = interpreters.create()
p = interpreters.create_queue()
q = interpreters.create_queue()
a.prepare_main(take=p, give=q)
b.prepare_main(take=q, give=p)
for i in (a, b):
    threading.Thread(target=i.exec, args=("print('waits')\ngive.put(take.get())",)).start()
print('over')
