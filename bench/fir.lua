local rounds = tonumber(arg[1])
local taps, decimation, room = 64, 4, 4096
local weight = {}
for i = 1, taps do
    weight[i] = i * (taps + 1 - i)
end
local signal, first, last = {}, 0, 0
local x, sum, seen = 0, 0, 0
for _ = 1, rounds do
    if first + taps > room then
        table.move(signal, first + 1, last, 1)
        first, last = 0, last - first
    end
    while last < first + taps do
        x = x * 1103515245 + 12345 & 2147483647
        last = last + 1
        signal[last] = (x >> 16) - 16384
    end
    local total = 0
    for i = 1, taps do
        total = total + signal[first + i] * weight[i]
    end
    first = first + decimation
    sum = sum * 31 + total // 32768 & 8388607
    seen = seen + 1
    if seen == 1000 then
        print(sum)
        seen = 0
    end
end
