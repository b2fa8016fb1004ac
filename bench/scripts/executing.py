from concurrent import interpreters

other = interpreters.create()
for n in range(20000):
    other.exec('x = 1')
other.close()
