import threading
from concurrent import interpreters
i = interpreters.create()
q = interpreters.create_queue()
i.prepare_main(q=q)
t = threading.Thread(target=i.exec, args=('print(q.get())',))
print(i.is_running())
t.start()
print(i.is_running())
for text in ('exec', 'prepare_main', 'close'):
    try:
        if text == 'exec':
            i.exec('print(1)')
        elif text == 'prepare_main':
            i.prepare_main(q=None)
        else:
            i.close()
    except interpreters.InterpreterError as e:
        print(text, e)
q.put('item')
t.join()
print(i.is_running(), i.prepare_main(q=1), i.exec('print(q)'), i.close())
