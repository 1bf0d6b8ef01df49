-- wrk -t THREADS -s tokens.lua URL -- FILE FIRST COUNT THREADS DELAY
-- Sends each token of the lines FIRST+1 to FIRST+COUNT of FILE once. A connection waits DELAY milliseconds between two
-- requests. At the end it prints: requests, answers other than 200, microseconds of all, and of latency at 50, 99 and
-- 99.9 percent.
local threads = 0

function setup(thread)
  thread:set("id", threads)
  threads = threads + 1
end

function init(args)
  local first, count, all = tonumber(args[2]), tonumber(args[3]), tonumber(args[4])
  wait = tonumber(args[5])
  requests, sent = {}, 0
  local n = 0
  for token in io.lines(args[1]) do
    if n >= first + count then break end
    if n >= first and n % all == id then
      requests[#requests + 1] = "GET /check HTTP/1.1\r\nHost: svidd\r\nX-Real-Ip: 127.0.0.1\r\nAuthorization: Bearer " .. token .. "\r\n\r\n"
    end
    n = n + 1
  end
end

function request()
  sent = sent + 1
  return requests[(sent - 1) % #requests + 1]
end

function delay()
  return wait
end

function done(summary, latency)
  local errors = summary.errors
  io.write(string.format("figures %d %d %d %d %d %d\n", summary.requests,
    errors.status + errors.connect + errors.read + errors.write + errors.timeout, summary.duration,
    latency:percentile(50), latency:percentile(99), latency:percentile(99.9)))
end
