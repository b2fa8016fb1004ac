n = 0
hits = 0
while n < 1000000 do
    m = n % 100
    if (10 < m and m < 90) and not (n % 3 == 0) or n % 7 == 0 then
        hits = hits + (n % 2 ~= 0 and 1 or 2)
    end
    n = n + 1
end
print(hits)
