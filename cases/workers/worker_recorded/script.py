from concurrent import interpreters
q = interpreters.create_queue()
q.put(1)
print(q.get())
