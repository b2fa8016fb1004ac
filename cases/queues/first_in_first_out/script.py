from concurrent import interpreters
q = interpreters.create_queue()
for k in range(4):
    q.put(k)
print(q.get(), q.get_nowait())
q.put_nowait(4)
print(q.qsize(), q.get(), q.get(), q.get(), q.qsize())
