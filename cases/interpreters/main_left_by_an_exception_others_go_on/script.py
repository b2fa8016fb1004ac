import threading
from concurrent import interpreters
i = interpreters.create()
q = interpreters.create_queue()
i.prepare_main(q=q)
threading.Thread(target=i.exec, args=("print(q.get())\nprint('on')",)).start()
q.put('first')
raise ValueError('main')
