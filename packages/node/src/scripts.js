// What a member says to a group's store in Redis, and what the answers mean.

// lists:begin redis (written by tools/lists from lists/redis.toml)
export const SCRIPTS = {
  "common":
    "local PREFIX = KEYS[1]:sub(1, -6)\n" +
    "local FIELDS = {'id', 'deaf', 'began', 'lasts', 'margin', 'back', 'run', 'node', 'next', 'to', 'settle', 'list', 'since', " +
    "'before'}\n" +
    "local WORDS = {id = true, run = true, node = true, next = true, before = true}\n" +
    "local LIFE = 3600\n" +
    "local function read(raw)\n" +
    "local got = {raw:match('^(%x+) svid1 (%d+) (%d+) (%d+) (%d+) (%d+) (%S+) (%S+) (%S+) (%d+) (%d+) (%d+) (%d+) (%S+)$')}\n" +
    "if #got ~= #FIELDS or #got[1] ~= 32 or #raw > 767 then return nil end\n" +
    "local r = {}\n" +
    "for n, name in ipairs(FIELDS) do\n" +
    "r[name] = WORDS[name] and got[n] or tonumber(got[n])\n" +
    "if not WORDS[name] and r[name] > 2 ^ 53 then return nil end\n" +
    "end\n" +
    "return r\n" +
    "end\n" +
    "local function server()\n" +
    "local text, clock = redis.call('INFO', 'replication'), redis.call('TIME')\n" +
    "local before = text:match('master_replid2:(%w+)')\n" +
    "return {\n" +
    "primary = text:find('role:master', 1, true) ~= nil, run = text:match('master_replid:(%w+)'), before = before:find('[^0]') and " +
    "before or '',\n" +
    "time = tonumber(clock[1]), millis = tonumber(clock[1]) * 1000 + math.floor(tonumber(clock[2]) / 1000)\n" +
    "}\n" +
    "end\n" +
    "local function stored() return redis.call('GETRANGE', KEYS[1], 0, 767) end\n" +
    "local function agreed()\n" +
    "local s, raw = server(), stored()\n" +
    "if not s.primary then return nil, 'replica' end\n" +
    "local r = raw == ARGV[1] and read(raw)\n" +
    "if not r or r.run ~= s.run then return nil, 'look' end\n" +
    "return r, s\n" +
    "end\n" +
    "local MARK, WITHDRAWN = 80, string.rep('\\0', 32)\n" +
    "local function put(r, s, first)\n" +
    "local cells, all, reads, new, own = {}, true, false, nil, ''\n" +
    "for n = first, #ARGV, 3 do\n" +
    "local key, owner, expires = PREFIX .. ARGV[n], ARGV[n + 1], tonumber(ARGV[n + 2])\n" +
    "local stays = expires + r.margin\n" +
    "local cell, mark = '\\1' .. owner, ARGV[n] .. owner .. string.format('%016.0f', stays)\n" +
    "if expires > s.time + r.lasts then\n" +
    "cell = '\\2' .. string.rep('\\0', 32)\n" +
    "elseif redis.call('SET', key, owner, 'NX', 'EXAT', string.format('%.0f', stays)) then\n" +
    "if stays > s.time + 1 then new = mark end\n" +
    "else\n" +
    "local is = redis.call('GETRANGE', key, 0, 31)\n" +
    "cell, reads = (is == '' and '\\0' or '\\1') .. is .. string.rep('\\0', 32 - #is), true\n" +
    "if is == owner and owner ~= WITHDRAWN then own = own .. mark end -- (a withdrawal that was there may end earlier)\n" +
    "end\n" +
    "all = all and cell == '\\1' .. owner\n" +
    "cells[#cells + 1] = cell\n" +
    "end\n" +
    "if reads and ARGV[4] ~= '0' then redis.call('SET', PREFIX .. 'life:' .. ARGV[3] .. ':wait', '1', 'EX', LIFE) end\n" +
    "return {'ok', s.time, r.deaf, r.id, s.time + r.back, new or own, all and '' or table.concat(cells), new and 1 or 0}\n" +
    "end\n" +
    "local sums\n" +
    "local function sum(text)\n" +
    "if not sums then\n" +
    "sums = {}\n" +
    "for n = 0, 255 do\n" +
    "local it = n\n" +
    "for _ = 1, 8 do it = bit.bxor(bit.rshift(it, 1), bit.band(it, 1) == 1 and 0x82F63B78 or 0) end\n" +
    "sums[n] = it\n" +
    "end\n" +
    "end\n" +
    "local is = 0xFFFFFFFF\n" +
    "for n = 1, #text do is = bit.bxor(bit.rshift(is, 8), sums[bit.band(bit.bxor(is, text:byte(n)), 255)]) end\n" +
    "return struct.pack('>I4', bit.bxor(is, 0xFFFFFFFF) % 2 ^ 32)\n" +
    "end\n" +
    "local function list(number) return PREFIX .. 'withdrawn:' .. string.format('%.0f', number) end\n" +
    "local function tell(r, s, key, expires)\n" +
    "local text = 'svw1' .. key .. struct.pack('>I4I4', math.floor(expires / 2 ^ 32), expires % 2 ^ 32)\n" +
    "redis.call('APPEND', list(r.list), text .. sum(text))\n" +
    "redis.call('EXPIREAT', list(r.list), string.format('%.0f', math.max(s.time, expires) + r.lasts + r.margin + r.back))\n" +
    "end",
  "state":
    "local count, id, lasts, margin, back, wait = ARGV[5], ARGV[6], tonumber(ARGV[7]), tonumber(ARGV[8]), tonumber(ARGV[9]), " +
    "tonumber(ARGV[10])\n" +
    "local life, life_at, marks, checked, replicas = tonumber(ARGV[11]), tonumber(ARGV[12]), ARGV[13], ARGV[14], tonumber(ARGV[4])\n" +
    "local known, latest, s, life_key = read(ARGV[1]), tonumber(ARGV[2]), server(), PREFIX .. 'life:' .. ARGV[3]\n" +
    "local raw = stored()\n" +
    "local r = read(raw)\n" +
    "if not s.primary then return {'replica', '', checked} end\n" +
    "local DUE = {appendonly = 'yes', appendfsync = 'always', ['no-appendfsync-on-rewrite'] = 'no', ['maxmemory-policy'] = " +
    "'noeviction'}\n" +
    "local function unfit(text) return {'unfit', text, '!' .. s.run} end\n" +
    "local info, node = redis.call('INFO', 'server'), '-'\n" +
    "local is_cluster, is_shard = info:find('redis_mode:cluster', 1, true) ~= nil, PREFIX:find(':%x%x}:$') ~= nil\n" +
    "if is_cluster ~= is_shard then\n" +
    "return unfit(is_shard and 'the server is none of a Cluster any more: start the service again, once all members are to use " +
    "this server' or\n" +
    "'the server is one of a Cluster: name some of its servers as redis://HOST:PORT, and start the service again')\n" +
    "end\n" +
    "if is_cluster then node = redis.call('CLUSTER', 'MYID') end\n" +
    "local version = info:match('redis_version:([^\\r]*)')\n" +
    "if (tonumber(version:match('^%d+')) or 0) < 7 then return unfit('the server is of version ' .. version .. ', and the claims " +
    "need Redis 7.0 or newer') end\n" +
    "local wrong, seen = {}, 0\n" +
    "for n = 16, #ARGV, 2 do\n" +
    "seen = seen + 1\n" +
    "if ARGV[n + 1] ~= DUE[ARGV[n]] then wrong[#wrong + 1] = ARGV[n] .. ' is ' .. ARGV[n + 1] .. ' and must be ' .. (DUE[ARGV[n]] " +
    "or '?') end\n" +
    "end\n" +
    "if ARGV[15] ~= 'unchecked' and seen ~= 4 then\n" +
    "return unfit('the server does not tell its settings (CONFIG GET: ' .. ARGV[15] .. '): see that it has appendonly yes, " +
    "appendfsync always, ' ..\n" +
    "'no-appendfsync-on-rewrite no and maxmemory-policy noeviction, and write ?settings=unchecked after the address')\n" +
    "end\n" +
    "if #wrong > 0 then return unfit('the server may lose claims: ' .. table.concat(wrong, ', ') .. ' (set them in redis.conf)') " +
    "end\n" +
    "local file = redis.call('INFO', 'persistence')\n" +
    "local settled = ARGV[15] == 'unchecked' or file:find('aof_rewrite_in_progress:0', 1, true) and " +
    "file:find('aof_rewrite_scheduled:0', 1, true) and\n" +
    "file:find('aof_last_bgrewrite_status:ok', 1, true)\n" +
    "if not settled and checked ~= s.run and (checked == '!' .. s.run or not r or r.run ~= s.run) then return {'rewrite', '', '!' " +
    ".. s.run} end\n" +
    "local function follows(it, other) return (',' .. it.before .. ','):find(',' .. other .. ',', 1, true) end\n" +
    "local function ended(it, at, other)\n" +
    "local next = {}\n" +
    "for name, value in pairs(it) do next[name] = value end\n" +
    "local before, count = '', 0\n" +
    "for one in (it.id .. ',' .. (other or '-') .. ',' .. it.before):gmatch('[^,]+') do\n" +
    "if one ~= '-' and count < 8 and not (',' .. before .. ','):find(',' .. one .. ',', 1, true) then\n" +
    "before, count = before .. (count > 0 and ',' or '') .. one, count + 1\n" +
    "end\n" +
    "end\n" +
    "next.id, next.before, next.began, next.run, next.node, next.next, next.to, next.settle = id, before, s.time, s.run, node, " +
    "'-', 0, s.millis + wait\n" +
    "next.deaf = math.max(at + it.back + it.lasts, it.deaf)\n" +
    "return 'write', next\n" +
    "end\n" +
    "local function lacks()\n" +
    "if life > 0 and s.time + 60 < life_at + LIFE and (tonumber(redis.call('GETRANGE', life_key, 0, 31)) or 0) < life then return " +
    "true end\n" +
    "for n = 1, #marks, MARK do\n" +
    "local key, owner, stays = marks:sub(n, n + 31), marks:sub(n + 32, n + 63), tonumber(marks:sub(n + 64, n + MARK - 1))\n" +
    "if s.time + 1 < stays and redis.call('GETRANGE', PREFIX .. key, 0, 31) ~= owner then return true end\n" +
    "end\n" +
    "end\n" +
    "local function greatest()\n" +
    "local at, of, text = r.began, redis.call('GETRANGE', PREFIX .. 'seen', 0, 63):match('^(%S+) (%d+)$')\n" +
    "if of == r.id then at = math.max(at, tonumber(text)) end\n" +
    "return known and known.id == r.id and math.max(at, latest) or at\n" +
    "end\n" +
    "local function due()\n" +
    "local time = math.max(latest, s.time)\n" +
    "if raw == '' and not known then\n" +
    "return 'write', {id = id, deaf = 0, began = s.time, lasts = lasts, margin = margin, back = back, run = s.run, node = node, " +
    "next = '-', to = 0,\n" +
    "settle = s.millis + wait, list = 1, since = s.time, before = '-'}\n" +
    "end\n" +
    "if raw == '' then return ended(known, time) end\n" +
    "if not r then\n" +
    "return 'unfit', 'the key ' .. KEYS[1] .. ' is not the record of a claim store of this version of svid: give the group another " +
    "name, or remove ' ..\n" +
    "'the key once all members are stopped, and start none until tokens of today are over'\n" +
    "end\n" +
    "if known and known.id ~= r.id and (not follows(r, known.id) or r.deaf < math.max(latest + known.lasts, known.deaf)) then\n" +
    "for _, name in ipairs({'lasts', 'margin', 'back', 'deaf'}) do r[name] = math.max(r[name], known[name]) end\n" +
    "return ended(r, time, known.id)\n" +
    "end\n" +
    "if r.margin < margin or r.back < back or r.margin < r.back + margin - back then\n" +
    "return 'unfit', string.format('the store keeps claims for %.0f s after their expiry, and allows its clock %.0f s back; this " +
    "member needs ' ..\n" +
    "'%.0f s and %.0f s: give all members the same clock tolerance, or give the group another name', r.margin, r.back, margin, " +
    "back)\n" +
    "end\n" +
    "local same, other = known and known.id == r.id, r.run ~= s.run\n" +
    "if s.time + r.back < greatest() then return ended(r, greatest() + 5) end\n" +
    "if same and lacks() or r.node ~= node and s.before ~= r.run or other and s.before ~= '' and replicas == 0 then\n" +
    "return ended(r, math.max(time, greatest()))\n" +
    "end\n" +
    "if other and r.next ~= s.run then\n" +
    "r.next, r.to = s.run, s.millis + wait\n" +
    "return 'write', r\n" +
    "end\n" +
    "if other and s.millis < r.to then return 'wait', r.to - s.millis end\n" +
    "if other then\n" +
    "r.run, r.node, r.next, r.to = s.run, node, '-', 0\n" +
    "return 'write', r\n" +
    "end\n" +
    "if r.lasts < lasts then\n" +
    "r.lasts = lasts\n" +
    "return 'write', r\n" +
    "end\n" +
    "if not same and s.millis < r.settle then return 'wait', r.settle - s.millis end\n" +
    "end\n" +
    "local function write(it)\n" +
    "local values = {}\n" +
    "for n, name in ipairs(FIELDS) do values[n] = WORDS[name] and it[name] or string.format('%.0f', it[name]) end\n" +
    "raw = values[1] .. ' svid1 ' .. table.concat(values, ' ', 2)\n" +
    "r = read(raw)\n" +
    "redis.call('SET', KEYS[1], raw)\n" +
    "end\n" +
    "local what, it = due()\n" +
    "while what == 'write' do\n" +
    "local was = r and r.id\n" +
    "write(it)\n" +
    "what, it = due()\n" +
    "if what == 'write' and it.id == id and was == id then what, it = 'wait', 1 end\n" +
    "end\n" +
    "if what then return {what, it, s.run} end\n" +
    "latest = known and known.id == r.id and math.max(latest, s.time) or s.time\n" +
    "local counted = math.max(tonumber(count), tonumber(redis.call('GETRANGE', life_key, 0, 31)) or 0)\n" +
    "redis.call('SET', life_key, string.format('%.0f', counted), 'EX', LIFE)\n" +
    "redis.call('SET', PREFIX .. 'seen', r.id .. ' ' .. string.format('%.0f', latest))\n" +
    "if (not is_shard or PREFIX:find(':00}:', 1, true)) and s.time >= r.since + math.floor((r.lasts + r.margin) / 4) + 1 and " +
    "redis.call('STRLEN', list(r.list)) > 0 then\n" +
    "r.list, r.since = r.list + 1, s.time\n" +
    "write(r)\n" +
    "end\n" +
    "return {'ok', '', s.run, raw, r.id, r.deaf, s.time, latest}",
  "put":
    "local r, s = agreed()\n" +
    "if not r then return {s} end\n" +
    "return put(r, s, 5)",
  "withdraw":
    "local r, s = agreed()\n" +
    "if not r then return {s} end\n" +
    "local answer, key, expires = put(r, s, 5), ARGV[5], tonumber(ARGV[7])\n" +
    "if answer[7]:sub(1, 1) == '\\2' then return answer end\n" +
    "tell(r, s, key, expires)\n" +
    "return answer",
  "tell":
    "local r, s = agreed()\n" +
    "if not r then return {s} end\n" +
    "tell(r, s, ARGV[5], tonumber(ARGV[7]))\n" +
    "return {'ok', s.time, r.deaf, r.id, s.time + r.back, '', '', 0}",
  "withdrawals":
    "local s, r, MOST, ONE, found = server(), read(stored()), 1000, 48, {}\n" +
    "if not s.primary then return {'replica'} end\n" +
    "if not r then return {'look'} end\n" +
    "local epoch, number, at = ARGV[1]:match('^(%x+)/(%d+)/(%d+)$')\n" +
    "local first, room = math.max(1, r.list - 8), (MOST + 1) * ONE - 1\n" +
    "number, at = tonumber(number), tonumber(at)\n" +
    "if epoch ~= r.id or number < first or number > r.list then number, at = first, 0 end\n" +
    "if number == r.list and at > redis.call('STRLEN', list(number)) then at = 0 end\n" +
    "while true do\n" +
    "local text = redis.call('GETRANGE', list(number), string.format('%.0f', at), string.format('%.0f', at + room - 1))\n" +
    "local next, last = 1, #text - ONE + 1\n" +
    "while next <= last and #found < MOST do\n" +
    "local start = text:find('svw1', next, true) or last + 1\n" +
    "if start <= last and text:sub(start + 44, start + 47) == sum(text:sub(start, start + 43)) then\n" +
    "local high, low = struct.unpack('>I4I4', text, start + 36)\n" +
    "if high * 2 ^ 32 + low <= s.time + r.lasts + r.back then found[#found + 1] = text:sub(start + 4, start + 43) end\n" +
    "end\n" +
    "next = math.min(start, last) + 1\n" +
    "end\n" +
    "at, room = at + next - 1, room - #text\n" +
    "if room <= 0 or next <= last or number == r.list then break end\n" +
    "number, at = number + 1, 0\n" +
    "end\n" +
    "return {'ok', string.format('%s/%.0f/%.0f', r.id, number, at), table.concat(found)}",
};
export const FAULTS = {
  replica: "it is a replica: name the primary, or all servers of the group",
  rewrite: "the server writes its first append-only file now, and would lose all if it ended meanwhile: wait until INFO persistence says aof_rewrite_in_progress:0 and aof_last_bgrewrite_status:ok",
  password: "the server does not know the user, or the password is wrong (WRONGPASS)",
  denied: "this user lacks a right that docs/STORES.md names for services",
  cluster: "the server does not have this part of the Cluster's store now",
  named: "a Cluster is named by redis://HOST:PORT of some of its servers, and has one database",
  slot: "no server of the Cluster has a slot of the store: see redis-cli --cluster check",
  primaries: "servers say both that they are the primary, so a token could be claimed twice: stop all but one, or make them replicas of that one (REPLICAOF)",
  sentinels: "two Sentinels name two primaries: wait until they agree, or see why they don't",
};
export const OF_CODES = { "READONLY": "replica", "NOAUTH": "password", "WRONGPASS": "password", "NOPERM": "denied", "MOVED": "cluster", "ASK": "cluster", "TRYAGAIN": "cluster", "CLUSTERDOWN": "cluster" };
export const COMPARE_WAIT = 3000;
export const ASK_WAIT = 1000;
export const WAIT_MOST = 1000;
export const PAUSE = 50;
export const MARK = 80;
// lists:end
