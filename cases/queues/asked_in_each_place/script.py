from concurrent import interpreters
q = interpreters.create_queue()
def fill(items):
    for item in items:
        q.put(item)
def add(a, b):
    return a + b
fill(range(1, 5))
print(q.get() + q.get() * 2, (q.qsize(), q.get())[1], q.get() if q.qsize() else 'none', q.get() if q.qsize() else 'none')
fill((1, 2, 3, 5, 4, 'a'))
print(q.get() < q.get() < q.get(), q.get() < q.get() < q.get())
print(q.empty(), not q.empty(), -q.qsize(), q.qsize() and q.get(), q.qsize() or 'or')
fill((3, 4, (5, 6), 'xy', 1, 0, 7))
x = 10
x -= q.get()
x **= q.get()
print(x, add(q.get()[1], 1))
for c in q.get():
    print(c, q.qsize())
while q.get():
    print('turn')
else:
    print(q.get())
def local(p):
    n = p.qsize()
    p.put((n, p))
    r = p.get()
    try:
        return r[1].get_nowait()
    except interpreters.QueueEmpty as e:
        p.put(str(e))
        return p.get() + '!'
    finally:
        p.put('left')
print(local(q), q.get(), local(q))
def deep(n):
    return q.get() if n == 0 else deep(n - 1)
print(deep(100), q.empty())
def own(q):
    global x
    q.put(obj=x)
    x = q.get() + 1
    return own
print(x)
own(q)
print(x)
try:
    fill((ValueError, 'no kind'))
except interpreters.NotShareableError:
    print('kinds are not sent')
q.put(0)
try:
    1 // q.get()
except ZeroDivisionError if q.empty() else KeyError as e:
    print(e, interpreters.create_queue(q.qsize() + 2).maxsize)
print(interpreters.create_queue(3).maxsize + interpreters.create_queue(maxsize=4).id, interpreters.create().exec('1'))
raise ValueError(q.qsize())
