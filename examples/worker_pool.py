# A pool of workers: three interpreters take jobs from one queue, each as soon as it has done the one before. Who does which job
# differs from run to run; what comes of a job does not.
import threading
from concurrent import interpreters

work = '''
job = jobs.get()
while job is not None:
    n = job[1]
    steps = 0
    while n != 1:
        n = n // 2 if n % 2 == 0 else 3 * n + 1
        steps += 1
    done.put((job[0], steps))
    job = jobs.get()
'''

starts = (6, 7, 9, 27, 97, 1)
jobs = interpreters.create_queue(2)
done = interpreters.create_queue()
pool = []
for k in range(3):
    own = interpreters.create()
    own.prepare_main(jobs=jobs, done=done)
    worker = threading.Thread(target=own.exec, args=(work,))
    worker.start()
    pool.append(worker)

for number in range(len(starts)):
    jobs.put((number, starts[number]))
for worker in pool:
    jobs.put(None)
for worker in pool:
    worker.join()

steps = [0] * len(starts)
while not done.empty():
    result = done.get()
    steps[result[0]] = result[1]
for number in range(len(starts)):
    print(starts[number], 'takes', steps[number], 'steps')
