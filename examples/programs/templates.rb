# Texts with holes: expressions with filters, conditions and loops.
class Template
  class Error < StandardError; end
  FILTERS = {
    "upper" => lambda { |s| s.to_s.upcase },
    "lower" => :downcase.to_proc,
    "len" => ->(s) { s.length },
    "join" => ->(s, sep = ",") { s.join(sep) },
    "default" => ->(s, d = "?") { s.nil? || s == "" ? d : s },
    "pad" => ->(s, n = "5") { s.to_s.rjust(n.to_i, ".") },
  }
  def initialize(src) @src = src end
  def render(ctx) out = ""; nodes, rest = parse(tokens, nil); emit(nodes, ctx, out); out end
  def tokens
    ts, i = [], 0
    while (j = @src.index("{", i))
      k = @src[j + 1]
      unless k == "{" || k == "%"
        ts << [:text, @src[i..j]]
        i = j + 1
        next
      end
      ts << [:text, @src[i...j]] if j > i
      close = k == "{" ? "}}" : "%}"
      e = @src.index(close, j) or raise Error, "unclosed {#{k}"
      ts << [k == "{" ? :expr : :tag, @src[j + 2...e].strip]
      i = e + 2
    end
    ts << [:text, @src[i..-1]] if i < @src.length
    ts
  end
  def parse(ts, until_tag)
    nodes = []
    until ts.empty?
      kind, v = ts.shift
      if kind == :tag
        word, *args = v.split
        case word
        when "if", "for"
          body = parse(ts, word)[0]
          alt = word == "if" && @last == "else" ? parse(ts, word)[0] : []
          nodes << [word.to_sym, args, body, alt]
        when "else", "endif", "endfor"
          raise Error, "unexpected #{word}" unless until_tag
          @last = word
          return [nodes, ts]
        else raise Error, "unknown tag #{word}"
        end
      else nodes << [kind, v]
      end
    end
    raise Error, "missing end#{until_tag}" if until_tag
    [nodes, ts]
  end
  def lookup(path, ctx)
    path.split(".").inject(ctx) do |c, k|
      case c
      when Hash then c.fetch(k) { c[k.to_sym] }
      when Array then k == "size" ? c.size : c[k.to_i]
      when nil then break nil
      else c.respond_to?(k) ? c.send(k) : nil
      end
    end
  end
  def value(e, ctx)
    head, *fs = e.split("|").map(&:strip)
    v = head.start_with?("'") ? head[1...-1] : head.to_i.to_s == head ? head.to_i : lookup(head, ctx)
    fs.each do |f|
      n, *a = f.split(":")
      fn = FILTERS[n] or raise Error, "no filter #{n}"
      v = fn.call(v, *a)
    end
    v
  end
  def emit(nodes, ctx, out)
    nodes.each do |kind, a, body, alt|
      case kind
      when :text then out << a
      when :expr then out << value(a, ctx).to_s
      when :if
        c = a[0] == "not" ? !value(a[1], ctx) : value(a[0], ctx)
        emit(c ? body : alt, ctx, out)
      when :for
        value(a[2], ctx).each_with_index { |x, i| emit(body, ctx.merge({a[0] => x, "index" => i}), out) }
      end
    end
  end
end
t = Template.new(<<T)
Hello {{ user.name | upper }}! {{ missing | default:none }}
{% if user.admin %}admin{% else %}plain{% endif %} {braces} {{ 5 }} {{ 'lit' | len }}
{% for i in items %}{{ index }}:{{ i.n | pad:4 }}{% if i.tags %} [{{ i.tags | join:+ }}]{% endif %}
{% endfor %}{{ items.size }} {{ items.1.n }}
T
puts t.render({user: {name: "bob", admin: nil}, items: [{n: 1}, {n: 22, tags: %w[a b]}]})
puts Template.new("{% if not x %}no x{% endif %}|{% if x %}x{% endif %}").render({})
["{{ x", "{% if a %}", "{% foo %}", "{{ a | zap }}", "{% endif %}"].each do |s|
  begin
    puts Template.new(s).render({})
  rescue Template::Error => e
    puts "#{e.class}: #{e.message}"
  end
end
