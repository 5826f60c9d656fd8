local rounds = tonumber(arg[1])
local start = 0
for _ = 1, rounds do
    local at, sum = start, 0
    while at < 20000 do
        sum = sum + at * 7 & 1048575
        at = at + 1 + (sum & 1)
    end
    start = start + 1 & 255
    print(sum)
end
