# Two interpreters beside that of the script: one squares numbers, the other adds up what it is sent. They share nothing but
# queues.
import threading
from concurrent import interpreters

numbers = interpreters.create_queue(2)
squares = interpreters.create_queue(2)
sums = interpreters.create_queue()

squarer = interpreters.create()
squarer.prepare_main(take=numbers, give=squares)
adder = interpreters.create()
adder.prepare_main(take=squares, give=sums)

squaring = threading.Thread(target=squarer.exec, args=('''
n = take.get()
while n is not None:
    print('squares', n)
    give.put(n * n)
    n = take.get()
give.put(None)
''',))
adding = threading.Thread(target=adder.exec, args=('''
total = 0
n = take.get()
while n is not None:
    total += n
    n = take.get()
give.put(total)
''',))
squaring.start()
adding.start()
for n in range(1, 5):
    numbers.put(n)
numbers.put(None)
print('the squares of 1 to 4 come to', sums.get())
squaring.join()
adding.join()
