# A game in words: verbs are methods that are sent by name, made by define_method and alias, or missing.
class Room
  attr_reader :name, :exits, :items
  def initialize(name, items = []) @name, @items, @exits = name, items, {} end
  def connect(dir, other, back = nil)
    @exits[dir] = other
    other.exits[back] = self if back
    self
  end
  def describe
    s = "You are in #{name}."
    s << " Items: #{items.join(", ")}." unless items.empty?
    s << " Exits: #{exits.keys.sort_by { |k| k.to_s }.join(", ")}."
  end
end
class Game
  class Quit < StandardError; end
  DIRS = [:north, :south, :east, :west]
  def initialize(room) @room = room; @bag = []; @turn = 0 end
  def run(script)
    script.each_line do |line|
      words = line.chomp.downcase.split
      next if words.empty?
      @turn += 1
      verb = words.shift.to_sym
      print "#{@turn}> "
      begin
        puts send("do_" + verb.to_s, *words.reject { |w| %w[the a at].include?(w) })
      rescue ArgumentError
        puts "#{verb} what?"
      rescue Quit => q
        puts q.message
        break
      end
    end
    @turn
  end
  DIRS.each do |d|
    define_method("do_#{d}") do
      nxt = @room.exits[d]
      next "No way #{d}." unless nxt
      @room = nxt
      @room.describe
    end
  end
  def do_look; @room.describe end
  def do_take(what)
    return "No #{what} here." unless @room.items.include?(what)
    @bag << @room.items.delete(what)
    "Taken #{what}."
  end
  def do_drop(what) (x = @bag.delete(what)) ? (@room.items << x; "Dropped.") : "You have no #{what}." end
  def do_inv; @bag.empty? ? "Nothing." : @bag.sort.join(" & ") end
  def do_quit(code = "bye") raise Quit, code end
  alias do_l do_look
  alias_method :do_i, :do_inv
  DIRS.each { |d| alias_method "do_#{d.to_s[0]}", "do_#{d}" }
  def method_missing(m, *a) m.to_s.start_with?("do_") ? "I don't know how to #{m.to_s[3..-1]}#{a.empty? ? "" : " " + a.join(" ")}." : super end
end
hall, cave = Room.new("the hall", %w[lamp key]), Room.new("a cave")
hall.connect(:north, cave, :south).connect(:east, Room.new("a closet", ["broom"]), :west)
turns = Game.new(hall).run(<<S)
look
take the lamp
take
take sword
i
N
drop lamp
l
fly to moon

e
s
e
take broom
w
inv
quit see you
quit
look
S
p turns
begin
  Game.new(hall).foo
rescue NoMethodError => e
  puts e.name
end
p Game.method_defined?(:do_n), Game.new(hall).respond_to?(:do_w), Game.new(hall).respond_to?(:do_fly)
