import threading
from concurrent import interpreters
i = interpreters.create()
q = interpreters.create_queue()
for k in range(13):
    try:
        if k == 0: print(interpreters.is_shareable((1, [2])))
        elif k == 1: print(interpreters.create_queue(-1).maxsize)
        elif k == 2:
            try:
                q.get_nowait()
            except RuntimeError:
                print('a RuntimeError')
        elif k == 3: i.exec(b'x = 1')
        elif k == 4: threading.Thread(target=i.exec, args=['x = 1'])
        elif k == 5: threading.Thread(target=i.exec, args=('x = 1',), name='a')
        elif k == 6: threading.Thread()
        elif k == 7: i.prepare_main('')
        elif k == 8: raise interpreters.ExecutionFailed
        elif k == 9:
            try:
                i.exec('x = (')
            except SyntaxError:
                print('SyntaxError')
        elif k == 10:
            j = interpreters.create()
            j.prepare_main(q=q)
            j.exec('q.put(42)')
            j.close()
            print(q.get())
        elif k == 11:
            t = threading.Thread(target=j.exec, args=('x = 1',))
            t.start()
            t.join()
        else:
            i = None
            print(len(interpreters.list_all()))
    except Exception as e:
        print(k, repr(e))
print(q)
