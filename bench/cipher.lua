local rounds = tonumber(arg[1])
local key = { [0] = 0x00010203, 0x04050607, 0x08090a0b, 0x0c0d0e0f }
local mask, delta = 0xffffffff, 0x9e3779b9
local first, second = {}, {}
for number = 1, 32 do
    local sum = (number - 1) * delta & mask
    first[number] = sum + key[sum & 3] & mask
    sum = sum + delta & mask
    second[number] = sum + key[sum >> 11 & 3] & mask
end
local next, sum, seen = 0x45464748, 0, 0
for _ = 1, rounds do
    local left, right = 0x41424344, next
    next = next + 1 & mask
    for number = 1, 32 do
        left = left + ((right << 4 ~ right >> 5) + right & mask ~ first[number]) & mask
        right = right + ((left << 4 ~ left >> 5) + left & mask ~ second[number]) & mask
    end
    sum = sum * 31 + (left ~ right) & 8388607
    seen = seen + 1
    if seen == 1000 then
        print(sum)
        seen = 0
    end
end
