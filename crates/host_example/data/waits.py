from concurrent import interpreters

result = interpreters.create_queue().get()
