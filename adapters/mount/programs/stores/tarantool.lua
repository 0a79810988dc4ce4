-- Tarantool with wal_mode = 'fsync': a transaction for each key, and snapshots. The words are those of stores.c.
local path, command, operations, keys, acknowledged = arg[2], arg[3], arg[4], arg[5], arg[6]
local fio = require('fio')
fio.mkdir(path)
box.cfg{work_dir = path, wal_mode = 'fsync', wal_max_size = 20000, checkpoint_count = 2, log = '/dev/null', memtx_memory = 40000000}
local space = box.schema.space.create('keys', {if_not_exists = true})
space:create_index('primary', {if_not_exists = true})
if command == 'work' then
    local file = fio.open(acknowledged, {'O_WRONLY', 'O_APPEND', 'O_CREAT'}, tonumber('644', 8))
    for number = 1, tonumber(operations) do
        local value = number .. ':' .. string.rep(string.char(97 + number % 26), number * 37 % 900)
        space:replace{number % tonumber(keys), value}
        file:write(number .. '\n')
        if number % 40 == 0 then box.snapshot() end
    end
elseif command == 'list' then
    for _, row in space:pairs() do print(row[1] .. '|' .. row[2]) end
    print('end')
end
os.exit(0)
