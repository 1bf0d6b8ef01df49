-- The hook of apache-site.conf: asks the sidecar about the bearer token of a request, and lets the request go on only where it accepts
-- that.
require "apache2"
local http = require "socket.http"
local ltn12 = require "ltn12"

local sidecar = "http://127.0.0.1:9901/check"
-- seconds until the sidecar must have answered: longer than its --wait, which is 2 unless you set it
http.TIMEOUT = 5

-- what the sidecar says of an accepted token
local accepted = { "X-Spiffe-Id", "X-Svid-Audience", "X-Svid-Expires" }

-- No header of the client may stand in the place of one of these. Some services read X_Spiffe_Id or X.Spiffe.Id as X-Spiffe-Id.
local function forget(r)
  for name in pairs(r:headers_in_table()) do
    local small = name:lower()
    if small:find("spiffe") or small:find("svid") then
      r.headers_in[name] = nil
    end
  end
end

function check(r)
  -- After CONNECT there may be a tunnel, of which nobody checks anything.
  if r.method == "CONNECT" then
    return 405
  end
  forget(r)
  -- Apache leaves a header out of what it sends on if the client names it in Connection.
  local connection = r.headers_in["Connection"]
  if connection and connection:lower():find("x[-_]s") then
    return 400
  end
  local id = r.subprocess_env["UNIQUE_ID"] or r.log_id
  r.headers_in["X-Request-Id"] = id
  local body = {}
  local made, status, said = http.request({
    url = sidecar,
    redirect = false,
    -- The client's address is for the sidecar's log, and for its mode bound (--caller address:X-Real-Ip). No header of the client gets there.
    headers = {
      ["authorization"] = r.headers_in["Authorization"],
      ["x-request-id"] = id,
      ["x-forwarded-for"] = r.useragent_ip,
      ["x-real-ip"] = r.useragent_ip,
    },
    sink = ltn12.sink.table(body),
  })
  if made and status == 200 and said["x-spiffe-id"] then
    for _, name in ipairs(accepted) do
      r.headers_in[name] = said[name:lower()]
    end
    -- The token ends here: the service must not be able to use it elsewhere.
    r.headers_in["Authorization"] = nil
    return apache2.OK
  end
  if made and (status == 401 or status == 403) then
    r.err_headers_out["WWW-Authenticate"] = said["www-authenticate"]
    return status
  end
  r.err_headers_out["Retry-After"] = "1"
  return 503
end
