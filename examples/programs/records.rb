# Records that classes declare in their bodies: methods made by methods, hooks by method_missing, copies, comparison,
# and what a change of a core class changes.
module Fields
  def field(name, default = nil, &check)
    fields << name
    define_method(name) { @values.fetch(name, default) }
    define_method("#{name}=") do |value|
      if check && !check.call(value)
        raise ArgumentError, "#{self.class}: bad #{name}: #{value.inspect}"
      end
      @values[name] = value
    end
  end

  def fields
    @fields ||= superclass.respond_to?(:fields) ? superclass.fields.dup : []
  end
end

class Record
  extend Fields
  include Comparable

  def initialize(values = {})
    @values = {}
    values.each { |name, value| send("#{name}=", value) }
  end

  def <=>(other)
    key <=> other.key
  end

  def key
    self.class.fields.map { |name| send(name) }
  end

  def with(values)
    copy = self.class.new(@values)
    values.each { |name, value| copy.public_send("#{name}=", value) }
    copy
  end

  def to_s
    shown = self.class.fields.map { |name| "#{name}=#{send(name).inspect}" }
    "#{self.class}(#{shown.join(", ")})"
  end

  def method_missing(name, *args)
    asked = name.to_s
    return super unless asked.end_with?("?") && args.empty?
    field = asked.chop.to_sym
    return super unless self.class.fields.include?(field)
    send(field) ? true : false
  end
end

class Part < Record
  field(:name) { |value| value.is_a?(String) && !value.empty? }
  field(:count, 1) { |value| value.is_a?(Integer) && value >= 0 }
end

class Bolt < Part
  field :length, 10
end

bolt = Bolt.new(name: "M4", length: 25)
puts bolt, bolt.with(count: 8), Part.new
p Part.fields, Bolt.fields, bolt.length?, Part.new.name?

begin
  bolt.count = -1
rescue ArgumentError => error
  puts error.message
end
begin
  bolt.width?
rescue NoMethodError => error
  p error.name
end

parts = [["nut", 4], ["bolt", 2], ["nut", 1]].map { |name, count| Part.new(name: name, count: count) }
puts parts.sort_by(&:key).map(&:to_s)
p parts.min_by(&:key).count, parts[2] == Part.new(name: "nut")
p parts[0] > parts[2], parts[1].between?(parts[1], parts[0])
p parts.group_by(&:name).map { |name, found| [name, found.sum(&:count)] }
p parts.partition { |part| part.count > 1 }.map(&:size)

# A class that is opened again changes what is there, core classes too.
class Bolt
  def to_s
    "<#{super}>"
  end
end
puts bolt

class Integer
  def pieces
    self == 1 ? "1 piece" : "#{self} pieces"
  end
end
puts parts.map { |part| part.count.pieces }.join(", ")

def bolt.only_here
  "#{name} alone"
end
puts bolt.only_here, bolt.respond_to?(:only_here), bolt.with({}).respond_to?(:only_here)
