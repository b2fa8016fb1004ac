local text = ''
for k = 0, 3999 do
    text = text .. tostring(k) .. ','
    if k % 1000 == 999 then
        print(string.format('%q', text) == text)
        text = ''
    end
end
local count = 0
for word = 1, 200000 do
    for letter in string.gmatch('ab', '.') do
        if letter == 'b' then
            count = count + 1
        end
    end
end
print(count)
