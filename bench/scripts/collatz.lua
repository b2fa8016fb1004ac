longest = 0
start = 1
while start < 20000 do
    n = start
    steps = 0
    while n ~= 1 do
        if n % 2 == 0 then
            n = n // 2
        else
            n = 3 * n + 1
        end
        steps = steps + 1
    end
    if steps > longest then
        longest = steps
        best = start
    end
    start = start + 1
end
print(best, longest)
