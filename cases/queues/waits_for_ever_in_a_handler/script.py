from concurrent import interpreters
q = interpreters.create_queue()
try:
    print(q.get())
except interpreters.QueueEmpty:
    print('empty')
finally:
    print('left')
