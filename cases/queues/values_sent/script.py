from concurrent import interpreters
q = interpreters.create_queue()
for value in (None, True, False, 0, 1, -9223372036854775807 - 1, '', "it's \u20ac", b'', b'\x00\xff', (), (1, ('a', (None,)), (True, 1)), q):
    q.put(value)
    got = q.get()
    print(repr(got), got == value)
