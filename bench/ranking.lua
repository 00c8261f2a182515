-- The work of ranking.asm in Lua 5.4 and LuaJIT. The number printed is ranking.asm's plus the output's bytes, each times its place
-- from 1. It stays below 2^32, so nothing has to cut it to 32 bits.
local form = { 64 }
for record = 0, 63 do
    form[#form + 1] = (record * 37 + 11) % 16
    form[#form + 1] = record
end

local function insert(before, fresh)
    local score = fresh.score
    local following = before.next
    while following and following.score >= score do
        before = following
        following = before.next
    end
    fresh.next = following
    before.next = fresh
end

local output, written = {}, 0

local function rank()
    local first = {}
    local count = form[1]
    for record = 0, count - 1 do
        insert(first, { score = form[2 + 2 * record], tag = form[3 + 2 * record] })
    end
    local entry = first
    for _ = 1, 8 do
        entry = entry.next
        written = written + 1
        output[written] = entry.tag
    end
    return count
end

local sum = 0
for _ = 1, 500 do
    sum = sum + rank()
end
for place = 1, written do
    sum = sum + place * output[place]
end
print(sum)
