local unset_value = {}

local function first_unset(items)
    local at = 1
    while true do
        if items[at] == unset_value then
            break
        end
        items[at] = false
        at = at + 1
    end
    return at - 1
end

local function turn(items)
    local unset = 0
    for k = 1, #items do
        if items[k] == unset_value then
            unset = unset + 1
        end
    end
    return unset
end

local items = {}
for k = 1, 1000 do
    items[k] = true
end
items[1001] = unset_value
local total = 0
for k = 1, 500 do
    total = total + first_unset(items)
    total = total + turn(items)
end
print(total)
