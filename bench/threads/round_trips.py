import threading
from concurrent import interpreters
i = interpreters.create()
there = interpreters.create_queue(1)
back = interpreters.create_queue(1)
i.prepare_main(there=there, back=back)
t = threading.Thread(target=i.exec, args=("for k in range(20_000):\n    back.put(there.get())",))
t.start()
for k in range(20_000):
    there.put(k)
    back.get()
t.join()
