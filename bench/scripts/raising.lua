local function check(n)
    if n % 2 == 0 then
        error(n)
    end
    return n // 0
end
local caught = 0
for n = 0, 199999 do
    local ok = pcall(check, n)
    if n % 2 == 0 then
        caught = caught + 1
    else
        caught = caught + 2
    end
end
print(caught)
