from concurrent import interpreters
a = interpreters.create()
b = interpreters.create()
print(a, b, a.id, b.id, (interpreters.get_current(), interpreters.get_main().id))
print(a == b, a == a, a != b, interpreters.get_main() == interpreters.get_current(), a == 1, (a, 1) == (a, True))
print(interpreters, a.exec, a.exec == a.exec, a.exec == b.exec, a == a.exec)
print(bool(a), bool(interpreters), bool(a.exec), b in (a, b))
