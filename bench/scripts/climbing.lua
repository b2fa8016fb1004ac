local function climb(n)
    local ways = {1, 2}
    for k = 0, n - 1 do
        ways[#ways + 1] = (ways[#ways] + ways[#ways - 1]) % 1000007
    end
    return ways[#ways]
end

local function smooth(items)
    for k = 2, #items do
        items[k] = (items[k - 1] + items[k]) % (60 * 60)
    end
    return items[#items]
end

print(climb(500000))
local items = {}
for k = 1, 500000 do
    items[k] = 7
end
print(smooth(items))
