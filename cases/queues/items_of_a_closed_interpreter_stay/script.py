from concurrent import interpreters
i = interpreters.create()
q = interpreters.create_queue()
i.prepare_main(q=q)
i.exec("q.put(('from', 1))\np = q")
i.close()
print(q.qsize(), q.get(), q.empty())
