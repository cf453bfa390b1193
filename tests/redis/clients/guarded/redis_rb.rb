# A queue by redis-rb, behind a name, a database, a password and transactions: redis_rb.rb PORT
require "redis"

queue = Redis.new(port: ARGV[0].to_i, id: "app", db: 0, password: "secret")
puts "name: #{queue.call(%w[CLIENT GETNAME])}"
told = queue.multi do |together|
  together.xadd("t", { "f" => "v" }, id: "1-0")
  together.xlen("t")
end
puts "transaction: #{told}"
queue.xgroup(:create, "jobs", "workers", "0", mkstream: true)
queue.multi { |together| 1000.times { |number| together.xadd("jobs", { "number" => number }) } }
done = {}
until (found = queue.xreadgroup("workers", "one", "jobs", ">", count: 100, block: 100)).empty?
  queue.multi do |together|
    found["jobs"].each do |id, fields|
      done[fields["number"]] = true
      together.xack("jobs", "workers", id)
      together.xdel("jobs", id)
    end
  end
end
puts "done: #{done.size}, left: #{queue.xlen("jobs")}, pending: #{queue.xpending("jobs", "workers")["size"]}"
