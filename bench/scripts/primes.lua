count = 0
n = 2
while n < 30000 do
    d = 2
    while d * d <= n do
        if n % d == 0 then
            break
        end
        d = d + 1
    end
    if d * d > n then
        count = count + 1
    end
    n = n + 1
end
print(count)
