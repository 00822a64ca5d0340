# Exceptions that are raised some calls deeper and rescued.
class Refused < StandardError
end

def deep(n, value)
  return deep(n - 1, value) if n > 0
  raise Refused, "odd" if value % 2 == 1
  value
end

sum = 0
ended = 0
i = 0
while i < 400_000
  begin
    sum += deep(3, i)
  rescue Refused => error
    sum -= error.message.length
  ensure
    ended += 1
  end
  i += 1
end
puts sum, ended
