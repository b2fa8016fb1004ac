import threading
from concurrent import interpreters
i = interpreters.create()
j = interpreters.create()
t = threading.Thread(target=i.exec, args=("print('i')\nwhile True: pass",))
u = threading.Thread(target=j.exec, args=("print('j')",))
t.start()
u.start()
u.join()
print('joined')
