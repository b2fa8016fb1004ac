from concurrent import interpreters
q = interpreters.create_queue()
q.put('\x00' * 1048576)
