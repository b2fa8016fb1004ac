from concurrent import interpreters
interpreters.create_queue()
q = interpreters.create_queue(1)
q.put(1)
q.put(2)
