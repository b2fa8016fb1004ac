import threading
from concurrent import interpreters
there = interpreters.create_queue(1)
back = interpreters.create_queue(1)
i = interpreters.create()
i.prepare_main(there=there, back=back)
t = threading.Thread(target=i.exec, args=("n = there.get()\nwhile n is not None:\n    back.put(n * n)\n    n = there.get()\nprint('end')",))
t.start()
for n in range(5):
    there.put(n)
    print(n, back.get())
there.put(None)
t.join()
