from concurrent import interpreters

for n in range(60):
    interpreters.create().close()
