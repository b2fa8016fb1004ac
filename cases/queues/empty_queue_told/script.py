from concurrent import interpreters
q = interpreters.create_queue(1)
print(q.empty(), q.full(), q.qsize())
try:
    q.get_nowait()
except interpreters.QueueEmpty as e:
    print(repr(e))
print(q.put_nowait('x'), q.empty(), q.full(), q.qsize(), q.get_nowait())
q.get_nowait()
