local ages = {ann = 31, bob = 42, cid = 53, dan = 64}
local total = 0
for k = 1, 500000 do
    total = total + ages['ann'] + ages['dan']
end
print(total)
