n = 0
total = 0
while n < 300000 do
    s = 'a' .. string.rep('b', 3)
    if s .. 'c' == 'abbbc' then
        total = total + 1
    end
    n = n + 1
end
print(total)
