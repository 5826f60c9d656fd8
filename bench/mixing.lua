local rounds = tonumber(arg[1])
local x, sum, seen = 0, 0, 0
for _ = 1, rounds do
    local h = x
    x = x + 1 & 1048575
    for i = 0, 31 do
        h = (h & 32767) * 40503 + i
        h = h ~ h >> 7
        if h & 4 == 0 then
            h = h + (i << 3)
        else
            h = h - i
        end
    end
    sum = sum * 31 + (h & 65535) & 8388607
    seen = seen + 1
    if seen == 1000 then
        print(sum)
        seen = 0
    end
end
