x = 12345
sum = 0
n = 0
while n < 1000000 do
    x = (x ~ x << 5 & 1048575) & 1048575
    x = x ~ x >> 3
    sum = sum + (x & 255) | 1
    n = n + 1
end
print(x, sum)
