import threading
from concurrent import interpreters
q = interpreters.create_queue(1)
i = interpreters.create()
i.prepare_main(q=q, text="it's")
t = threading.Thread(target=i.exec, args=('q.put(text)\nq.get_nowait()',))
t.start()
for k in range(8):
    try:
        if k == 0: q.put_nowait(-1)
        elif k == 1: q.put_nowait(b'\x00')
        elif k == 2: print(q.get(), q.empty())
        elif k == 3: q.get_nowait()
        elif k == 4: i.prepare_main(x=1)
        elif k == 5: i.close()
        elif k == 6: interpreters.get_main().close()
        else: i.exec('1')
    except Exception as e:
        print(e)
print(i.is_running())
t.join()
print(q.get_nowait() if q.qsize() else 'nothing', i.is_running())
i.close()
for k in range(4):
    try:
        if k == 0: i.close()
        elif k == 1: print(i.is_running())
        elif k == 2: i.prepare_main()
        else: i.exec('1')
    except interpreters.InterpreterNotFoundError as e:
        print(e)
