# An event loop: tasks are fibers that sleep, wait for messages and spawn others.
class Channel
  def initialize(name)
    @name = name
    @messages = []
    @waiting = []
  end

  attr_reader :name, :waiting

  def send_to(message)
    @messages << message
    self
  end

  def ready?() !@messages.empty? end

  def take
    @messages.shift
  end
end

class Task
  attr_reader :name
  attr_accessor :wake, :channel, :result

  def initialize(name, &body)
    @name = name
    @fiber = Fiber.new(&body)
    @wake = 0
  end

  def ready?(now)
    return channel.ready? if channel
    wake <= now
  end

  def step(*values)
    if channel
      values = [channel.take]
      self.channel = nil
    end
    request = @fiber.resume(*values)
    done? ? self.result = request : request
  end

  def done?; not @fiber.alive? end
end

class Loop
  attr_reader :now, :log

  def initialize
    @now, @tasks, @log, @faults = 0, [], [], Hash.new { |hash, key| hash[key] = [] }
  end

  def spawn(name, *arguments, &body)
    task = Task.new(name) do
      body.call(self, *arguments)
    end
    @tasks.push(task)
    task
  end

  def sleep(ticks = 1) Fiber.yield [:sleep, ticks] end

  def wait(channel)
    Fiber.yield :wait, channel
  end

  def pass
    Fiber.yield
  end

  def say(text)
    @log << (line = "#{now.to_s.rjust(2)} #{text}")
    puts line
  end

  def faults; @faults end

  def run(limit = 50)
    until @tasks.empty? || @now > limit
      ready = @tasks.select { |task| task.ready?(@now) }
      ready.each { |task| turn(task) }
      @tasks.delete_if { |task| task.done? }
      @now += 1
    end
    @tasks.map { |task| task.name }
  end

  private

  def turn(task)
    kind, detail = task.step
    return say("#{task.name} ends with #{task.result.inspect}") if task.done?
    case kind
    when :sleep
      task.wake = now + detail
    when :wait then task.channel = detail
    else
      task.wake = now + 1
    end
  rescue StandardError => fault
    @faults[task.name] << fault.message
    say "#{task.name} failed: #{fault.message}"
  end
end

events = Loop.new
box = Channel.new "box"
gate = Channel.new("gate")

events.spawn(:clock) do |l|
  3.times do |i|
    l.say "tick #{i}"
    l.sleep 3
  end
  :stopped
end

events.spawn(:maker, 3) do |l, n|
  1.upto n do |i|
    box.send_to(i * 10)
    l.say "made #{i * 10}"
    l.pass
  end
  box.send_to nil
  n
end

events.spawn :user do |l|
  sum = 0
  while item = l.wait(box)
    l.say "used #{item}"
    sum += item
    l.sleep(2)
  end
  child = l.spawn(:child) { |inner| inner.sleep; sum * 2 }
  l.pass until child.done?
  gate.send_to child.result
  sum
end

events.spawn(:faulty) { |l| l.sleep(4); 1 / 0 }

events.spawn :late do |l|
  begin
    value = l.wait(gate)
    l.say "gate gave #{value}"
    raise ArgumentError, "odd" if value.odd?
  ensure
    l.say "late cleans up"
  end
end

events.spawn(:stuck) { |l| l.wait Channel.new("none") }

left = events.run(20)
p left, events.faults, events.log.size

words = Fiber.new do |first|
  text = first
  loop { text += Fiber.yield(text.size) }
end
p words.resume("ab"), words.resume("cde"), words.resume("f"), words.alive?

pipe = lambda do |source, &change|
  Fiber.new do
    while (value = source.resume) != nil
      Fiber.yield change.call(value)
    end
    nil
  end
end
numbers = Fiber.new do
  for n in 1..4 do Fiber.yield n end
  nil
end
squares = pipe.call(numbers) { |n| n * n }
texts = pipe.call(squares) { |n| "<#{n}>" }
while text = texts.resume do print text end
puts
p texts.alive?, numbers.alive?

begin
  numbers.resume
rescue FiberError => fault
  puts fault.class
end
several = Fiber.new { |a, b = 5, *c| x, y = Fiber.yield(a, b, c); x - y }
p several.resume(1), several.resume(9, 4)
