import threading
from concurrent import interpreters
def f():
    return 1
i = interpreters.create()
q = interpreters.create_queue()
for k in range(17):
    try:
        if k == 0: interpreters.create
        elif k == 1: interpreters.list_all
        elif k == 2: threading.Thread
        elif k == 3: q.put
        elif k == 4: i.close
        elif k == 5: i.call(f)
        elif k == 6: 'a'.startswith
        elif k == 7: 'a'.nothing()
        elif k == 8: (5).real
        elif k == 9: None.x
        elif k == 10: f.x
        elif k == 11: print.x
        elif k == 12: ValueError.args
        elif k == 13: ValueError('x').args
        elif k == 14: (1, 2).count(1)
        elif k == 15: interpreters.QueueEmpty.x.y
        else: q.nothing(print('not printed'))
    except AttributeError as e:
        print(e)
