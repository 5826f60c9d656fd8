local rounds = tonumber(arg[1])
local n = 16
local x, sum = 0, 0
local items, product = {}, {}
for _ = 1, rounds do
    for i = 0, 2 * n * n - 1 do
        x = x * 1103515245 + 12345 & 2147483647
        items[i] = (x >> 16 & 255) - 128
    end
    for row = 0, n - 1 do
        for column = 0, n - 1 do
            local total = 0
            for k = 0, n - 1 do
                total = total + items[row * n + k] * items[(n + k) * n + column]
            end
            product[row * n + column] = total
        end
    end
    for i = 0, n * n - 1 do
        sum = sum * 31 + product[i] & 8388607
    end
    print(sum)
end
