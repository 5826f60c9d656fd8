local rounds = tonumber(arg[1])
local width, limit = 512, 250
for row = 0, rounds - 1 do
    local im = row * 24 - 6144
    local sum = 0
    for column = 0, width - 1 do
        local re = column * 24 - 8960
        local x, y, xx, yy, count = 0, 0, 0, 0, 0
        while count < limit and xx + yy <= 16384 do
            y = x * y // 2048 + im
            x = xx - yy + re
            xx = x * x >> 12
            yy = y * y >> 12
            count = count + 1
        end
        sum = sum * 31 + count & 8388607
    end
    print(sum)
end
