from concurrent import interpreters
i = interpreters.create()
i.close()
print(i, interpreters.create(), i.id, i == i)
