import threading
from concurrent import interpreters
t = threading.Thread(target=interpreters.get_current().exec, args=('print(1)',))
for k in range(2):
    try:
        if k == 0: t.start()
        else: t.join()
    except Exception as e:
        print(repr(e))
