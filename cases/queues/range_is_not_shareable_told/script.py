from concurrent import interpreters
q = interpreters.create_queue()
try:
    q.put((1, range(2)))
except interpreters.NotShareableError as e:
    print(e)
print(q.qsize())
