import threading
from concurrent import interpreters
text = "n = 0\nwhile n < 20_000_000:\n    n = n + 1"
threads = []
for k in range(4):
    i = interpreters.create()
    t = threading.Thread(target=i.exec, args=(text,))
    t.start()
    threads.append(t)
for t in threads:
    t.join()
