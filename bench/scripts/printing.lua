n = 0
while n < 300000 do
    print('line', n, n % 2 == 0)
    n = n + 1
end
