import threading
from concurrent import interpreters
def f(x):
    return x
i = interpreters.create()
q = interpreters.create_queue()
t = threading.Thread(target=i.exec, args=("print('in the report of this interpreter')\nraise ValueError('a line of the report')",))
for k in range(19):
    try:
        if k == 0: 'a'.startswith(('a', 'b'))
        elif k == 1: 'abc'.startswith('b', 1)
        elif k == 2: 'a'.startswith
        elif k == 3: q.put
        elif k == 4: interpreters.create
        elif k == 5:
            g = i.exec
            g('x = 1')
        elif k == 6: i.exec('  x = 1')
        elif k == 7: q.get(timeout=1)
        elif k == 8: q.put(1, block=False)
        elif k == 9: q.put(range(3))
        elif k == 10: threading.Thread(target=f, args=('a',))
        elif k == 11: i.prepare_main({'x': print}, x=1)
        elif k == 12: i.call(f)
        elif k == 13: threading.Lock()
        elif k == 14: print(threading, interpreters.QueueEmpty, t, i.exec)
        elif k == 15: q.put([1])
        elif k == 16: i.prepare_main([('x', 1)])
        elif k == 17: print(i.prepare_main(), i.prepare_main({}))
        else: i.x
    except Exception as e:
        print(repr(e))
t.start()
t.join()
