local function sort(items)
    local n = #items
    for i = 0, n - 1 do
        for j = 1, n - 1 - i do
            if items[j] > items[j + 1] then
                items[j], items[j + 1] = items[j + 1], items[j]
            end
        end
    end
end

local x = 12345
local items = {}
for k = 1, 1000 do
    x = (x * 1103515245 + 12345) % 2147483648
    items[#items + 1] = x
end
sort(items)
print(items[1] .. ' ' .. items[501] .. ' ' .. items[1000])
