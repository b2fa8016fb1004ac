from concurrent import interpreters
print(interpreters.list_all())
a = interpreters.create()
b = interpreters.create()
c = interpreters.create()
all = interpreters.list_all()
print(all, len(all), all[1] == a, c in all, interpreters.get_main() in all)
b.close()
print(interpreters.list_all(), all)
all.append(b)
print(all, interpreters.list_all() == [interpreters.get_current(), a, c])
interpreters.list_all().pop()
print(len(interpreters.list_all()))
a.exec("from concurrent import interpreters\nfor i in interpreters.list_all():\n  print(i.id, i == interpreters.get_current(), i.is_running())\n")
for i in interpreters.list_all():
    if i.id == 0: continue
    i.close()
print(interpreters.list_all())
try:
    interpreters.list_all(1)
except TypeError as e:
    print(e)
try:
    interpreters.list_all(a=1)
except TypeError as e:
    print(e)
