from concurrent import interpreters
q = interpreters.create_queue()
for k in range(50000):
    q.put(k)
    q.get()
print(q.qsize())
