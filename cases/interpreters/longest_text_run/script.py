from concurrent import interpreters
i = interpreters.create()
print(i.exec('#' * 1048576), i.exec('#' + '\xe9' * 524287))
try:
    i.exec('#' + '\xe9' * 524288)
except interpreters.ExecutionFailed as e:
    print(e)
