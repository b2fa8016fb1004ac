import threading
from concurrent import interpreters
i = interpreters.create()
i.exec('import threading\nfrom concurrent import interpreters\ni = interpreters.create()\ndef f(x):\n    print(x)')
for text in ('threading.Thread()', 'threading.Thread(i.exec)', "threading.Thread(i.exec, ('1',))", 'threading.Thread(target=i.exec)',
             "threading.Thread(target=i.exec, args=('1',), daemon=True)", "threading.Thread(None, target=i.exec, args=('1',))",
             "threading.Thread(target=i.exec, arguments=('1',))", "threading.Thread(target=i.exec, args='1')",
             'threading.Thread(target=i.exec, args=())', "threading.Thread(target=i.exec, args=('1', '2'))",
             'threading.Thread(target=i.exec, args=(1,))', "threading.Thread(target=print, args=('1',))", "threading.Thread(target=f, args=('1',))",
             "threading.Thread(target=i, args=('1',))", "threading.Thread(target=None, args=('1',))",
             "threading.Thread(target=i.exec, args=('1',)).start(1)", "threading.Thread(target=i.exec, args=('1',)).join(1)",
             "threading.Thread(target=i.exec, args=('1',)).run()", 'threading.Lock()', 'threading.Event', "i.exec.start()",
             "threading.Thread(target=i.is_running, args=('1',))"):
    try:
        i.exec(text)
    except interpreters.ExecutionFailed as e:
        print(text, '-', e)
