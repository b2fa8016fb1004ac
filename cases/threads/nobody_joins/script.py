import threading
from concurrent import interpreters
for k in range(3):
    i = interpreters.create()
    i.prepare_main(k=k)
    threading.Thread(target=i.exec, args=('for n in range(3): print(k, n)',)).start()
print('over')
