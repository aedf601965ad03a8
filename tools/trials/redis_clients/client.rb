# Asks a service by redis-rb (ruby-redis): `client.rb PORT`, with lines of words on standard input, of which those after an empty line
# are sent together. It prints each reply.
require "redis"

service = Redis.new(port: ARGV[0].to_i, timeout: 30)
singly, together = STDIN.read.split("\n\n")

singly.each_line do |line|
  begin
    p service.call(line.split)
  rescue Redis::CommandError => error
    puts error.message
  end
end

p(service.pipelined { |pipeline| together.each_line { |line| pipeline.call(line.split) } })

# By the methods that programs call.
p service.sadd("6", [40, 41]), service.sismember("6", 40), service.smismember("6", 40, 42), service.srem("6", [40, 42])
p service.setnx(160, 1), service.set(160, 1, nx: true), service.set(161, "", nx: true), service.exists(160, 161, 162), service.del(160, 162)
p service.exists?(161), service.unlink(161), service.ping, service.echo("text of four words")
other = Redis.new(port: ARGV[0].to_i, db: 8, timeout: 30)
p other.setnx(170, 1), other.exists(170), service.exists(170), other.quit
