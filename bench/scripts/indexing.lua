local function turn(items)
    local n = #items
    local total = 0
    for k = 0, 999 do
        local i = 0
        while i < n do
            total = total + items[i + 1]
            items[i + 1] = k
            i = i + 1
        end
    end
    return total
end

local items = {}
for i = 1, 1000 do
    items[i] = 1
end
print(turn(items))
