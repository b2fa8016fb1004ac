from concurrent import interpreters
q = interpreters.create_queue()
def send(value):
    q.put(value)
    got = q.get()
    print(len(got), got == value, interpreters.is_shareable(got))
send('\u20ac' * 1048576)
send(b'\x00' * 1048576)
send((0,) * 65535)
deep = ()
for k in range(199):
    deep = (deep,)
send(deep)
