# The work of a queue by redis-rb: redis_rb.rb PORT
require "redis"

def text(value)
  data = value.to_s.b
  data.match?(/\A[A-Za-z0-9-]+\z/n) ? data : "hex:" + data.unpack1("H*")
end

def texts(values)
  values.map { |value| text(value) }.join(" ")
end

def entry(id, fields)
  return text(id) + "none" if fields.nil? || fields.empty?
  text(id) + "{" + fields.map { |name, value| "#{text(name)}=#{text(value)}" }.join(" ") + "}"
end

def entries(found)
  found.empty? ? "nothing" : found.map { |id, fields| entry(id, fields) }.join(" ")
end

def first_stream(found)
  entries(found.fetch("jobs", []))
end

def say(step, answer)
  puts "#{step}: #{answer}"
end

def refused(step)
  yield
  say(step, "no error")
rescue Redis::CommandError => error
  say(step, "error " + error.message.split.first)
end

def produce_and_read(one, two)
  say("ping", one.ping)
  jobs = (1..8).map { |number| { "job" => "mail", "number" => number } }
  say("produce", texts(jobs.map { |fields| one.xadd("jobs", fields, id: "#{fields["number"]}-0") }))
  say("length", one.xlen("jobs"))
  say("create", one.xgroup(:create, "jobs", "workers", "0"))
  refused("create again") { one.xgroup(:create, "jobs", "workers", "0") }
  say("one reads", first_stream(one.xreadgroup("workers", "one", "jobs", ">", count: 3)))
  say("two reads", first_stream(two.xreadgroup("workers", "two", "jobs", ">", count: 3)))
  say("acknowledge", one.xack("jobs", "workers", "1-0", "2-0"))
  told = one.xpending("jobs", "workers")
  consumers = told["consumers"].map { |name, count| "#{text(name)}=#{text(count)}" }.join(" ")
  say("pending", "#{told["size"]} #{text(told["min_entry_id"])} #{text(told["max_entry_id"])} #{consumers}")
  rows = one.xpending("jobs", "workers", "-", "+", 10, "two")
  say("rows", rows.map { |row| "#{text(row["entry_id"])}/#{text(row["consumer"])}/#{row["count"]}" }.join(" "))
end

def claim_and_trim(one, two)
  say("claim", entries(one.xclaim("jobs", "workers", "one", 0, "4-0", "8-0")))
  say("claim ids", texts(one.xclaim("jobs", "workers", "one", 0, "5-0", justid: true)))
  found = two.xautoclaim("jobs", "workers", "two", 0, "0-0", count: 2)
  say("scan", "#{text(found["next"])} #{entries(found["entries"])}")
  found = two.xautoclaim("jobs", "workers", "two", 0, found["next"], count: 2)
  say("scan on", "#{text(found["next"])} #{entries(found["entries"])}")
  say("delete", one.xdel("jobs", "8-0", "9-0"))
  say("trim", one.xtrim("jobs", 4))
  say("history", first_stream(two.xreadgroup("workers", "two", "jobs", "0")))
  say("range", entries(one.xrange("jobs", "5-0", "+", count: 2)))
  say("range back", entries(one.xrevrange("jobs", "+", "-", count: 1)))
end

def end_all(one, two)
  refused("small id") { one.xadd("jobs", { "f" => "v" }, id: "1-0") }
  refused("no id") { one.xadd("jobs", { "f" => "v" }, id: "odd") }
  refused("no group") { one.xreadgroup("others", "one", "jobs", ">") }
  refused("no command") { one.call("ODD", "jobs") }
  say("bytes", text(one.xadd("bytes", { "all" => (0..255).to_a.pack("C*") }, id: "1-1")))
  say("bytes back", entries(one.xrange("bytes")))
  answers = one.pipelined do |pipe|
    pipe.xadd("jobs", { "f" => "v" }, id: "20-0")
    pipe.xadd("jobs", { "f" => "v" }, id: "21-0")
    pipe.xlen("jobs")
  end
  say("together", texts(answers))
  say("two reads on", first_stream(two.xreadgroup("workers", "two", "jobs", ">", noack: true)))
  say("nothing new", first_stream(two.xreadgroup("workers", "two", "jobs", ">", block: 10)))
  say("remove consumer", one.xgroup(:delconsumer, "jobs", "workers", "two"))
  say("destroy", one.xgroup(:destroy, "jobs", "workers"))
  say("drop", one.del("jobs"))
  say("drop bytes", one.del("bytes"))
end

one, two = Array.new(2) { Redis.new(host: "127.0.0.1", port: Integer(ARGV[0])) }
produce_and_read(one, two)
claim_and_trim(one, two)
end_all(one, two)
one.quit
two.quit
