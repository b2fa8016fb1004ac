local numbers = {}
local words = {}
local numbers_length, words_length = 0, 0
for k = 0, 199999 do
    numbers[k * 7] = k
    numbers_length = numbers_length + 1
    words['k' .. k] = k
    words_length = words_length + 1
end
local total = 0
for k = 0, 199999 do
    total = total + numbers[k * 7]
    total = total + words['k' .. k]
    if numbers[k] ~= nil then
        total = total + 1
    end
end
print(numbers_length .. ' ' .. words_length .. ' ' .. total)
