import threading
from concurrent import interpreters
def f():
    return 1
i = interpreters.create()
q = interpreters.create_queue()
t = threading.Thread(target=i.exec, args=('1',))
for value in (range(3), f, print, ValueError, ValueError('x'), i, i.exec, t, interpreters, threading, (1, (2, range(3))), [1], {'a': 1}, (1, [2]), ({},)):
    try:
        q.put(value)
    except interpreters.NotShareableError as e:
        print(e, interpreters.is_shareable(value))
print(q.qsize())
for value in (None, True, 1, 'a', b'a', (), (1, (q, 'a')), q):
    print(interpreters.is_shareable(obj=value), interpreters.is_shareable((value, value)))
try:
    q.put_nowait(f)
except TypeError as e:
    print(repr(e))
print(q.qsize())
