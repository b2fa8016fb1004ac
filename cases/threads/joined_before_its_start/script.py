import threading
from concurrent import interpreters
i = interpreters.create()
t = threading.Thread(target=i.exec, args=("print('ran')",))
try:
    t.join()
except RuntimeError as e:
    print(e)
print(t.start(), t.join(), t.join())
