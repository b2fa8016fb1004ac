from concurrent import interpreters
print(interpreters.QueueEmpty, interpreters.NotShareableError('x'), repr(interpreters.ExecutionFailed()))
for kind in (interpreters.InterpreterError, interpreters.InterpreterNotFoundError, interpreters.ExecutionFailed, interpreters.NotShareableError, interpreters.QueueEmpty, interpreters.QueueFull):
    for over in (interpreters.InterpreterError, TypeError, Exception):
        try:
            raise kind
        except over:
            print(kind, over)
        except BaseException:
            pass
try:
    QueueEmpty
except NameError as e:
    print(e)
raise interpreters.QueueFull('of mine')
