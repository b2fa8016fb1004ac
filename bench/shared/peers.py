"""What CPython has for the calls that bench/shared times: a name each, the least nanoseconds of a batch, and its rounds."""
import copy
import pickle
import time

ROUNDS = 200
BATCHES = 15


def deep(levels):
    value = 1
    for _ in range(levels):
        value = (value,)
    return value


def least(name, call):
    best = None
    for _ in range(BATCHES):
        start = time.perf_counter_ns()
        for _ in range(ROUNDS):
            call()
        took = time.perf_counter_ns() - start
        best = took if best is None else min(best, took)
    print(name, best, ROUNDS, 0)


def times_of(name, value, other):
    least(f"clone {name}: copy.deepcopy", lambda: copy.deepcopy(value))
    least(f"clone {name}: pickle", lambda: pickle.loads(pickle.dumps(value)))
    least(f"equal {name}: ==", lambda: value == other)
    least(f"show {name}: repr", lambda: repr(value))


def copy_of(name, value):
    least(f"out and in {name}: pickle", lambda: pickle.loads(pickle.dumps(value)))


def put_and_get():
    try:
        from concurrent import interpreters
    except ImportError:
        return
    queue = interpreters.create_queue()

    def call():
        queue.put(1)
        queue.get()

    least("put and get: interpreters.Queue", call)
    least("size: interpreters.Queue", queue.qsize)
    interp = interpreters.create()
    least("exec: Interpreter.exec", lambda: interp.exec("x = 1"))
    least("make and close: interpreters.create", lambda: interpreters.create().close())


times_of("int", 1000, 1000)
times_of("ints", tuple(range(100)), tuple(range(100)))
times_of("str", "x" * 1000, "".join(["x"] * 1000))
times_of("pairs", tuple((i, i + 1) for i in range(50)), tuple((i, i + 1) for i in range(50)))
times_of("deep", deep(200), deep(200))
copy_of("int", 1000)
copy_of("tuple", tuple(range(100)))
copy_of("str", "x" * 1000)
put_and_get()
