local rounds = tonumber(arg[1])
local bands, room = 6, 4096

local function wrapped(n)
    n = n & 4294967295
    return n < 2147483648 and n or n - 4294967296
end

local function weights(taps, scale)
    local weight = {}
    for i = 1, taps do
        weight[i] = scale * i * (taps + 1 - i)
    end
    return weight
end

local front = weights(64, 1)
local shares = {}
for band = 1, bands + 1 do
    shares[band] = weights(32, band)
end

local signal, first, last = {}, 0, 0
local audio, begin, behind = {}, 0, 0
local x, sum, seen = 0, 0, 0
local before

local function low_pass(items, at, weight, taps)
    local total = 0
    for i = 1, taps do
        total = total + items[at + i] * weight[i]
    end
    return wrapped(total) // 32768
end

local function front_item()
    if first + 64 > room then
        table.move(signal, first + 1, last, 1)
        first, last = 0, last - first
    end
    while last < first + 64 do
        x = x * 1103515245 + 12345 & 2147483647
        last = last + 1
        signal[last] = (x >> 16) - 16384
    end
    local item = low_pass(signal, first, front, 64)
    first = first + 4
    return item
end

for _ = 1, rounds do
    if begin + 32 > room then
        table.move(audio, begin + 1, behind, 1)
        begin, behind = 0, behind - begin
    end
    while behind < begin + 32 do
        if not before then
            before = front_item()
        end
        local now = front_item()
        behind = behind + 1
        audio[behind] = wrapped(before * now) // 1024
        before = now
    end
    local total = 0
    for band = 1, bands do
        total = total + low_pass(audio, begin, shares[band], 32)
            - low_pass(audio, begin, shares[band + 1], 32)
    end
    begin = begin + 1
    sum = sum * 31 + wrapped(total) & 8388607
    seen = seen + 1
    if seen == 1000 then
        print(sum)
        seen = 0
    end
end
