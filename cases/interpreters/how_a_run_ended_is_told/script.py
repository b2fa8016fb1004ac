from concurrent import interpreters
i = interpreters.create()
for text in ("raise ValueError('v')", 'raise KeyError', "raise KeyError('k')", "raise RuntimeError('')", 'raise', "raise ValueError(('a', 1))", '{'):
    try:
        print(i.exec(text))
    except interpreters.ExecutionFailed as e:
        print(e)
print(i.exec('raised = 1'))
