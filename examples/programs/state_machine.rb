# State machines described by a small language of blocks; methods are made from the description.
class Machine
  class Stuck < StandardError; end

  class Description
    attr_reader :states, :moves, :actions, :start

    def initialize
      @states, @moves = [], {}
      @actions = Hash.new { |hash, key| hash[key] = [] }
    end

    def state(name, *others, &block)
      [name, *others].each do |each_name|
        @start ||= each_name
        states << each_name unless states.include? each_name
        moves[each_name] ||= {}
      end
      return unless block
      outer, @current = @current, name
      block.call self
      @current = outer
    end

    def on(event, to = @current, &guard)
      (moves[@current] ||= {})[event] = [to, guard]
      self
    end

    def enter(&action)
      @actions[@current] << action
    end
  end

  def self.describe(&block)
    @description = Description.new
    block.call(@description)
    events = @description.moves.values.map { |moves| moves.keys }.flatten.uniq
    events.each do |event|
      define_method(event) { |*details| fire event, *details }
      define_method("#{event}?") { can?(event) }
    end
    @description.states.each do |name|
      define_method(name.to_s + "?") { state == name } unless method_defined?("#{name}?")
    end
    self
  end

  def self.description
    @description
  end

  attr_reader :state, :trace
  undef_method :then

  def initialize
    @state = description.start
    @trace = [@state]
  end

  def can?(event)
    description.moves[state].key? event
  end

  def fire(event, *details)
    to, guard = description.moves[state][event]
    raise Stuck, "no #{event} in #{state}" if to.nil?
    return false if guard && !guard.call(self, *details)
    @state = to
    @trace << to
    description.actions[to].each { |action| action.call(self, *details) }
    true
  end

  def method_missing(name, *rest)
    text = name.to_s
    if text.end_with?("!") && rest.empty?
      fire(text.chop.to_sym) or raise(Stuck, "#{name} was refused")
    else
      super
    end
  end

  private

  def description
    self.class.description
  end
end

class Door < Machine
  attr_accessor :code, :opened

  describe do |d|
    d.state :closed do
      d.on(:open, :open)
      d.on :lock, :locked do |door, code|
        door.code = code
        !code.nil?
      end
    end
    d.state :open do
      d.on(:close, :closed)
      d.enter { |door| door.opened = (door.opened || 0) + 1 }
    end
    d.state(:locked) { d.on(:unlock, :closed) { |door, code| code == door.code } }
  end
end

class Light < Machine
  describe { |d|
    [[:red, :green], [:green, :yellow], [:yellow, :red]].each do |from, to|
      d.state from do
        d.on :next, to
        d.on :fail, :blink
      end
    end
    d.state(:blink) { d.on(:fix, :red); d.on :next }
  }
end

door = Door.new
p door.state, door.open, door.open?, door.opened
p door.close, door.lock(nil), door.closed?, door.lock(42), door.unlock(7), door.unlock(42)
door.open!
p door.trace, door.opened
begin
  door.lock 1
rescue Machine::Stuck => stuck
  puts stuck.message
end
door.close!
begin
  door.lock!
rescue Machine::Stuck => stuck
  puts stuck.message
end
begin
  door.paint("blue")
rescue NoMethodError => missing
  puts "no #{missing.name}"
end
puts door.respond_to?(:lock), door.respond_to?(:paint), door.respond_to?(:description)

light = Light.new
4.times { light.next }
light.fail and light.next
light.fix unless not light.blink?
puts light.trace.join(" > ")
puts Light.description.states.inspect, Door.description.moves.map { |k, v| "#{k}:#{v.size}" }.join(" ")

def parity(bits)
  state = :even
  bits.each_char do |bit|
    state = case [state, bit]
            when [:even, "1"] then :odd
            when [:odd, "1"] then :even
            else next if bit == "0"
                 break :error
            end
  end
  state
end

def accepts(text)
  state, at = 0, 0
  while true
    char = text[at]
    at += 1
    state = case state
      when 0
        case char
        when "+", "-" then 1
        when "0".."9" then 2
        else return false
        end
      when 1 then ("0".."9") === char ? 2 : (return false)
      when 2
        return true unless char
        ("0".."9") === char ? 2 : 3
      else return false
    end
  end
end

puts parity("1011"), parity("11"), parity("10x").inspect
puts %w[12 -7 + 1a +05].map { |text| "#{text} #{accepts text}" }
