from concurrent import interpreters
q = interpreters.create_queue(1)
q.put(1)
print('once')
q.put(2)
print('twice')
