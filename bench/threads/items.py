import threading
from concurrent import interpreters
i = interpreters.create()
q = interpreters.create_queue(64)
i.prepare_main(q=q)
t = threading.Thread(target=i.exec, args=("for k in range(200_000):\n    q.put(k)",))
t.start()
for k in range(200_000):
    q.get()
t.join()
