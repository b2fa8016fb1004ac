local function count(n)
    local i = 0
    local s = 0
    while i < n do
        i = i + 1
        s = s + i * 3 % 7
    end
    return s
end

print(count(2000000))
