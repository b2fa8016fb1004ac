import threading
from concurrent import interpreters
i = interpreters.create()
q = interpreters.create_queue(1)
i.prepare_main(q=q)
t = threading.Thread(target=i.exec, args=("q.get()",))
t.start()
n = 0
while n < 40_000_000:
    n = n + 1
q.put(n)
t.join()
