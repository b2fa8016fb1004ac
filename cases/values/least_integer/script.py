least = -9223372036854775807 - 1
print(least, least % -1, least * 1)
print(least // -1)
