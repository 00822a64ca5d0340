# The primes below 1,000,000 by a sieve, then walks over them.
limit = 1_000_000
sieve = Array.new(limit + 1, true)
i = 2
while i * i <= limit
  if sieve[i]
    multiple = i * i
    while multiple <= limit
      sieve[multiple] = false
      multiple += i
    end
  end
  i += 1
end
primes = []
i = 2
while i <= limit
  primes << i if sieve[i]
  i += 1
end
puts primes.length, primes.map { |prime| prime % 10 }.inject(0) { |sum, digit| sum + digit }
puts primes.select { |prime| prime % 4 == 1 }.length, primes.reverse[0]
