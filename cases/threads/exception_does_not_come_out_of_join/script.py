import threading
from concurrent import interpreters
i = interpreters.create()
for text in ('1 // 0', 'print(', "raise KeyError('k')", 'x = 1'):
    t = threading.Thread(target=i.exec, args=(text,))
    t.start()
    print(t.join())
