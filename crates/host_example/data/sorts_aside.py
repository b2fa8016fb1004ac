# A task: one interpreter sorts what the other sends it.
from concurrent import interpreters

sorter = """
items = list(sent)
for end in range(len(items) - 1, 0, -1):
    for at in range(end):
        if items[at] > items[at + 1]:
            items[at], items[at + 1] = items[at + 1], items[at]
queue.put(tuple(items))
"""
queue = interpreters.create_queue()
other = interpreters.create()
other.prepare_main(queue=queue, sent=(3, 1, 2))
other.exec(sorter)
result = queue.get()
