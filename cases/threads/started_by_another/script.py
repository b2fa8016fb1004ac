import threading
from concurrent import interpreters
i = interpreters.create()
q = interpreters.create_queue()
i.prepare_main(q=q)
i.exec("import threading\nfrom concurrent import interpreters\nj = interpreters.create()\nj.prepare_main(q=q)\nt = threading.Thread(target=j.exec, args=(\"q.put('from j')\",))\nt.start()")
print(q.get())
i.exec('t.join()\nprint(j.is_running())')
