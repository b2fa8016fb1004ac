# A runner of tests: each runs in an interpreter of its own, all of them at once, and tells by a queue how it went.
import threading
from concurrent import interpreters

tested = '''
def double(n):
    return n * 2

def check(given, wanted):
    if given != wanted:
        raise ValueError(repr(given) + ' is not ' + repr(wanted))
'''

tests = (
    ('of an int', 'check(double(21), 42)'),
    ('of a str', "check(double('ab'), 'abab')"),
    ('of a bool', 'check(double(True), True)'),
    ('of None', 'check(double(None), None)'),
)

# The text that runs a test and tells how it went.
def text_of(test):
    return tested + '\ntry:\n    ' + test + '''
    results.put((number, 'passes'))
except Exception as failure:
    results.put((number, 'fails: ' + str(failure)))
'''


results = interpreters.create_queue()
runners = []
for number in range(len(tests)):
    own = interpreters.create()
    runners.append(own)
    own.prepare_main(number=number, results=results)
    threading.Thread(target=own.exec, args=(text_of(tests[number][1]),)).start()

passed = 0
for test in tests:
    result = results.get()
    print(tests[result[0]][0], result[1])
    if result[1] == 'passes':
        passed += 1
print(passed, 'of', len(tests), 'pass')
