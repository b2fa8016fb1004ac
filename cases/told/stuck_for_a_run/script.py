from concurrent import interpreters
q = interpreters.create_queue()
i = interpreters.create()
i.prepare_main(q=q)
i.exec('q.get()')
