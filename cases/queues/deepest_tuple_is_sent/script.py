from concurrent import interpreters
q = interpreters.create_queue()
i = interpreters.create()
i.prepare_main(q=q)
deep = ()
for k in range(199):
    deep = (deep,)
q.put(deep)
i.exec('q.put(q.get())')
got = q.get()
print(got == deep, len(str(got)), interpreters.is_shareable(got))
