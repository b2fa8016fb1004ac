a = [1]; a.append(a); print(a)
b = [a, a]; print(b)
d = {1: a}; a.append(d); print(a, d)
