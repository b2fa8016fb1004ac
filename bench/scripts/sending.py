import threading
from concurrent import interpreters

queue = interpreters.create_queue()
sender = interpreters.create()
sender.prepare_main(queue=queue)
thread = threading.Thread(target=sender.exec, args=('''
for n in range(50000):
    queue.put(n)
''',))
thread.start()
total = 0
for n in range(50000):
    total += queue.get()
thread.join()
print(total)
