import threading
from concurrent import interpreters
i = interpreters.create()
i.prepare_main(q=interpreters.create_queue())
t = threading.Thread(target=i.exec, args=('q.get()',))
t.start()
print('started')
t.join()
print('joined')
