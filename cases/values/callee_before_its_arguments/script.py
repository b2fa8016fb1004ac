from concurrent import interpreters
def told(x):
    print('told', x)
    return x
def queue():
    print('queue')
    return q
q = interpreters.create_queue()
queue().put(told('item'))
try:
    queue().nothing(told('never'))
except AttributeError as e:
    print(e)
try:
    queue().put(told('a'), obj=told('b'))
except TypeError as e:
    print(e)
print(told(q).get())
