local total = 0
for a = 0, 999 do
    for b = 0, 999 do
        if (a ~ b) % 3 == 0 then
            total = total + b
        end
    end
end
print(total)
