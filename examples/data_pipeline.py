# A pipeline of three stages, each in an interpreter of its own: one cuts a text into lines, the next keeps those that tell an
# error, and the last counts what is left. A queue of two items stands between each pair, so no stage runs far ahead.
import threading
from concurrent import interpreters

log = '''start of the day
error: no paper
a page is printed
error: no ink
error: no paper
end of the day
'''

cutting = '''
line = ''
for c in text:
    if c == '\\n':
        give.put(line)
        line = ''
    else:
        line += c
give.put(None)
'''

keeping = '''
line = take.get()
while line is not None:
    if line.startswith('error: '):
        print('kept', repr(line))
        give.put(line)
    line = take.get()
give.put(None)
'''

counting = '''
errors = 0
paper = 0
line = take.get()
while line is not None:
    errors += 1
    if line.endswith('paper'):
        paper += 1
    line = take.get()
give.put((errors, paper))
'''

lines = interpreters.create_queue(2)
kept = interpreters.create_queue(2)
counts = interpreters.create_queue()

cutter = interpreters.create()
cutter.prepare_main(text=log, give=lines)
keeper = interpreters.create()
keeper.prepare_main(take=lines, give=kept)
counter = interpreters.create()
counter.prepare_main(take=kept, give=counts)

threading.Thread(target=cutter.exec, args=(cutting,)).start()
threading.Thread(target=keeper.exec, args=(keeping,)).start()
threading.Thread(target=counter.exec, args=(counting,)).start()
count = counts.get()
print(count[0], 'errors,', count[1], 'for want of paper')
