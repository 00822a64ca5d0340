# Two fibers that hand a number to and fro.
ping = Fiber.new do |n|
  loop { n = Fiber.yield(n + 1) }
end
pong = Fiber.new do |n|
  loop { n = Fiber.yield(n * 2 % 1_000_003) }
end
n = 1
i = 0
while i < 400_000
  n = pong.resume(ping.resume(n))
  i += 1
end
puts n
