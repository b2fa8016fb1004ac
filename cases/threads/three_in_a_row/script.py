import threading
from concurrent import interpreters
first = interpreters.create_queue(2)
second = interpreters.create_queue(1)
third = interpreters.create_queue()
a = interpreters.create()
b = interpreters.create()
a.prepare_main(take=first, give=second)
b.prepare_main(take=second, give=third)
text = "n = take.get()\nwhile n is not None:\n    print('got', n)\n    give.put((n, n) if n else 0)\n    n = take.get()\ngive.put(None)"
t = threading.Thread(target=a.exec, args=(text,))
u = threading.Thread(target=b.exec, args=(text,))
t.start()
u.start()
for n in (1, 'x', 0):
    first.put(n)
first.put(None)
t.join()
u.join()
while not third.empty():
    print(third.get())
