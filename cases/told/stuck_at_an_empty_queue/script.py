from concurrent import interpreters
q = interpreters.create_queue()
print('waits')
q.get()
