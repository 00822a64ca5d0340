# Machines of states: one that its class describes, and one that cuts a text into words.
class FSM
  def self.states; @states ||= {} end
  def self.state(n, &b)
    @cur = states[n] = {}
    b.call
    self
  end
  def self.on(ev, to, &act) @cur[ev] = [to, act] end
  attr_reader :state, :trace
  def initialize(s) @state = s; @trace = [s]; @ctx = Hash.new(0) end
  def fire(ev, *args)
    to, act = self.class.states.fetch(@state) { {} }.fetch(ev) { raise ArgumentError, "no #{ev} in #{@state}" }
    act.call(@ctx, *args) if act
    @trace << to
    @state = to
    self
  end
  def [](k) @ctx[k] end
end
class Door < FSM
  state(:closed) do
    on(:open, :opened) { |c| c[:opens] += 1 }
    on(:lock, :locked) { |c, code = 0| c[:code] = code }
  end
  state :opened do
    on :close, :closed
  end
  state(:locked) { on(:unlock, :closed) { |c, code| raise "bad code" unless code == c[:code]; c[:unlocks] += 1 } }
end
d = Door.new(:closed)
d.fire(:open).fire(:close).fire(:lock, 42)
begin
  d.fire(:unlock, 1)
rescue => e
  puts e.message, d.state
end
d.fire(:unlock, 42)
begin
  d.fire(:unlock, 42)
rescue ArgumentError => e
  puts e.message
end
p d.trace, d[:opens], d[:unlocks], d[:zzz], Door.states.keys, FSM.states
def tokenize(s)
  state, buf, out = :start, "", []
  flush = lambda { |t| out << [t, buf] unless buf.empty?; buf = ""; state = :start }
  (s + " ").each_char do |c|
    begin
      again = false
      case state
      when :start
        case c
        when "0".."9" then state = :num; buf << c
        when "a".."z" then state = :word; buf << c
        when "'" then state = :str
        when " " then nil
        else buf << c; flush.call(:op)
        end
      when :num
        if c >= "0" && c <= "9" then buf << c else flush.(:num); again = true end
      when :word
        if ("a".."z").include?(c) or ("0".."9") === c then buf << c else flush[:word]; again = true end
      when :str
        c == "'" ? (buf.empty? ? (out << [:str, ""]; state = :start) : flush.(:str)) : buf << c
      end
    end while again
  end
  out << [:err, buf] if state == :str
  out
end
p tokenize("x1 = 42+foo*'hi there' - ''"), tokenize(""), tokenize("'open")
