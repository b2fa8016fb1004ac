import threading
from concurrent import interpreters
i = interpreters.create()
t = threading.Thread(target=i.exec, args=('1',))
u = threading.Thread(target=i.exec, args=('1',))
print(t, threading, t == t, t == u, t != u, bool(t), (t, u)[1] == u)
t.start()
t.join()
print(t, t == t)
f = i.exec
print(f)
f('1')
