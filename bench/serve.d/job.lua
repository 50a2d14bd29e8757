-- A job that counts once: KEYS are the worker and the lock, ARGV the job's number, the cell and what is added to it.
-- The last number is answered by its receipt again; a number that is neither the last nor the next is an error.
local last = redis.call('HMGET', KEYS[1], 'number', 'receipt')
local done, number = tonumber(last[1] or '0'), tonumber(ARGV[1])
if number == done and done > 0 then
  return last[2]
end
if number ~= done + 1 then
  return redis.error_reply('WrongNumber ' .. (done + 1))
end
local reply = redis.call('HINCRBY', KEYS[2], ARGV[2], ARGV[3])
local place = redis.call('HINCRBY', KEYS[2], 'entries', 1) - 1
local receipt = string.format('{"lock":"%s","number":%d,"place":%d,"reply":%d,"worker":"%s"}', KEYS[2], number, place, reply, KEYS[1])
redis.call('HSET', KEYS[1], 'number', number, 'receipt', receipt)
return receipt
