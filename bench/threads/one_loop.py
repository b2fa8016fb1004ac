import threading
from concurrent import interpreters
text = "n = 0\nwhile n < 20_000_000:\n    n = n + 1"
i = interpreters.create()
t = threading.Thread(target=i.exec, args=(text,))
t.start()
t.join()
