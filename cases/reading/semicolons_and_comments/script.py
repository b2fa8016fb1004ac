a = 1; b = 2 # two
print(a); print(b);
# print(3)
print(a + b) # three