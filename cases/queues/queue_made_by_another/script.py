from concurrent import interpreters
i = interpreters.create()
q = interpreters.create_queue()
i.prepare_main(q=q)
i.exec("from concurrent import interpreters\np = interpreters.create_queue(3)\np.put('inside')\nq.put(p)\nprint(p)")
p = q.get()
print(p, p.maxsize, p.get())
