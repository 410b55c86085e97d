-- Visits for wrk: few products are asked for often, most of them seldom. PAGE in the environment is the page's path.
-- At the end one line: requests a second, the median and the 99th hundredth of their times in microseconds, and faults.
local page = os.getenv("PAGE") or "/index.php"
local threads = 0

function setup(thread)
    threads = threads + 1
    thread:set("seed", threads)
end

function init()
    math.randomseed(seed)
end

function request()
    local product = math.floor(3000 * math.random() ^ 3)
    return wrk.format("GET", page .. "?product=" .. product .. "&visitor=" .. math.random(1, 400))
end

function done(summary, latency)
    local faults = summary.errors
    io.write(string.format("told %.1f %d %d %d\n", summary.requests / summary.duration * 1e6, latency:percentile(50),
        latency:percentile(99), faults.connect + faults.read + faults.write + faults.status + faults.timeout))
end
