local rounds = tonumber(arg[1])
local tab = {}
for at = 0, 255 do
    tab[at] = at
end
local other = 0
for at = 0, 255 do
    local kept = tab[at]
    other = other + kept + at * 7 & 255
    tab[at] = tab[other]
    tab[other] = kept
end
local here, there, sum, seen = 0, 0, 0, 0
for _ = 1, rounds do
    local word = 0
    for _ = 0, 31 do
        here = here + 1 & 255
        local first = tab[here]
        there = there + first & 255
        local second = tab[there]
        tab[here] = second
        tab[there] = first
        word = (word << 1 ~ tab[first + second & 255]) & 65535
    end
    sum = sum * 31 + word & 8388607
    seen = seen + 1
    if seen == 1000 then
        print(sum)
        seen = 0
    end
end
