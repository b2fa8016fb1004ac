from concurrent import interpreters
a = interpreters.create_queue(1)
b = interpreters.create_queue(1)
print(a, (a, b), a.id, b.id, a.maxsize, a == a, a == b, a != b, a == 0, bool(a))
a.put((a, b))
c = a.get()
print(c, c[0] == a, c[1].maxsize, c[1] in (a, b))
c[0].put('same')
print(a.get())
