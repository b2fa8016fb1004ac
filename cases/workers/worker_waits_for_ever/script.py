from concurrent import interpreters
print('waits')
interpreters.create_queue().get()
print('over')
