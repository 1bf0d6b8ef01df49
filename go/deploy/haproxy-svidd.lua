-- The action lua.svidd of haproxy.cfg: asks the sidecar about the bearer token of a request, and lets the request go on only where
-- it accepts that.
local sidecar = "http://svidd/check"
local by = "abns@svidd-ask" -- the frontend ask
local longest = 10000 -- milliseconds until that has answered: longer than it waits itself

-- what the sidecar says of an accepted token, and what of its answer the client of a refused one gets
local accepted = { "x-spiffe-id", "x-svid-audience", "x-svid-expires" }
local refused = { "www-authenticate", "content-type", "cache-control", "x-request-id" }

-- The values of a header of a request (HAProxy counts them from 0).
local function values(headers, name)
  local all = {}
  local given = headers[name]
  if given ~= nil then
    for i = 0, #given do
      all[#all + 1] = given[i]
    end
  end
  return all
end

local function answer(txn, status, headers, body)
  local reply = txn:reply({ status = status, body = body })
  for name, value in pairs(headers) do
    reply:add_header(name, value)
  end
  txn:done(reply)
end

core.register_action("svidd", { "http-req" }, function(txn)
  local headers = txn.http:req_get_headers()
  local asked = {}
  for _, name in ipairs({ "authorization", "x-request-id", "x-forwarded-for", "x-real-ip" }) do
    local all = values(headers, name)
    if #all > 0 then
      asked[name] = all
    end
  end
  local client = core.httpclient()
  local said = client:get({ url = sidecar, dst = by, headers = asked, timeout = longest })
  local function of(name)
    local all = said.headers and values(said.headers, name) or {}
    return all[1]
  end
  if said.status == 200 and of("x-spiffe-id") then
    for _, name in ipairs(accepted) do
      txn.http:req_set_header(name, of(name) or "")
    end
    txn:set_var("txn.svidd", "accepted") -- haproxy.cfg lets nothing pass without that
    return
  end
  if said.status == 401 or said.status == 403 then
    local kept = {}
    for _, name in ipairs(refused) do
      kept[name] = of(name)
    end
    answer(txn, said.status, kept, said.body)
    return
  end
  answer(txn, 503, { ["retry-after"] = "1", ["cache-control"] = "no-store" }, "")
end)
