from concurrent import interpreters
q = interpreters.create_queue(1)
q.put('full')
for k in range(4):
    try:
        if k == 0: q.put_nowait([1])
        elif k == 1: q.put((1, range(2)))
        elif k == 2: q.put_nowait('no room')
        else: q.put_nowait()
    except Exception as e:
        print(repr(e))
print(q.qsize(), q.get())
