from concurrent import interpreters
n = 0
try:
    while True:
        interpreters.create_queue()
        n += 1
except RuntimeError as e:
    print(n, e)
