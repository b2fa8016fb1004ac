from concurrent import interpreters
for n in (0, -9223372036854775807 - 1, 1, True, False, 9223372036854775807):
    q = interpreters.create_queue(n)
    q.put(n)
    print(q, q.maxsize, q.full(), q.qsize())
