import threading
from concurrent import interpreters
i = interpreters.create()
q = interpreters.create_queue()
i.prepare_main(q=q)
threading.Thread(target=i.exec, args=("while True:\n    pass",)).start()
print('started')
q.get()
