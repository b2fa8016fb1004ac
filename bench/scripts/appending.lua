local items = {}
for k = 0, 999999 do
    items[#items + 1] = k
end
print(#items .. ' ' .. items[1000000])
