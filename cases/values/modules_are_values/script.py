import threading
from concurrent import interpreters
m = interpreters
print(m, threading, m == interpreters, m == threading, (m,), m.QueueFull == interpreters.QueueFull)
interpreters = 5
threading = m.create_queue()
print(interpreters, threading)
concurrent = 'a name'
if True:
    from concurrent import interpreters
for k in range(2):
    import threading
print(interpreters, threading, concurrent)
try:
    m()
except TypeError as e:
    print(e)
