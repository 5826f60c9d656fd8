local rounds = tonumber(arg[1])
local channel = {}
local x, sum, seen = 0, 0, 0
for _ = 1, rounds do
    channel[0] = x
    x = x + 1 & 1048575
    for i = 1, 200 do
        channel[i] = channel[i - 1]
    end
    sum = sum * 31 + channel[200] & 8388607
    seen = seen + 1
    if seen == 1000 then
        print(sum)
        seen = 0
    end
end
