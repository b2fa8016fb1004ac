from concurrent import interpreters

queue = interpreters.create_queue()
total = 0
for n in range(200000):
    queue.put(n)
    total += queue.get()
print(total)
