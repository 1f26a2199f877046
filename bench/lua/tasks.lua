-- Eight tasks whose results are known, over tables, texts, closures, recursion and floating-point numbers. Each prints one line.
-- An argument names one task, which is then done alone. The file `results` has the lines.

-- A table whose keys are sparse, and recursion: the start below the limit whose Collatz sequence takes most steps to 1, and how
-- many steps those are.
local function collatz(limit)
  local steps = { [1] = 0 }
  local function steps_of(n)
    local known = steps[n]
    if not known then
      known = 1 + steps_of(n % 2 == 0 and n // 2 or 3 * n + 1)
      steps[n] = known
    end
    return known
  end
  local best = 1
  for start = 2, limit - 1 do
    if steps_of(start) > steps[best] then best = start end
  end
  return best, steps[best]
end

-- Tables as lists: how many primes there are below the limit, and the largest.
local function primes(limit)
  local is_composite = {}
  local count, largest = 0, nil
  for n = 2, limit - 1 do
    if not is_composite[n] then
      count, largest = count + 1, n
      for multiple = n * n, limit - 1, n do is_composite[multiple] = true end
    end
  end
  return count, largest
end

-- Texts that are built of pieces: the length of a term of the look-and-say sequence 1, 11, 21, 1211, ..
local function look_and_say(term)
  local text = "1"
  for _ = 2, term do
    local pieces = {}
    local at = 1
    while at <= #text do
      local digit = text:sub(at, at)
      local last = at
      while text:sub(last + 1, last + 1) == digit do last = last + 1 end
      pieces[#pieces + 1] = (last - at + 1) .. digit
      at = last + 1
    end
    text = table.concat(pieces)
  end
  return #text
end

-- Texts, patterns and tables whose keys are texts: how many letters the numbers from 1 to 1000 have in words, as
-- `three hundred and forty-two`, how many words those are, and how many different ones.
local function number_words()
  local small = {}
  for word in ([[one two three four five six seven eight nine ten eleven twelve thirteen fourteen fifteen sixteen
      seventeen eighteen nineteen]]):gmatch("%a+") do
    small[#small + 1] = word
  end
  local tens = {}
  for word in ("ten twenty thirty forty fifty sixty seventy eighty ninety"):gmatch("%a+") do tens[#tens + 1] = word end
  local function spell(n)
    if n < 20 then return small[n] end
    if n < 100 then return tens[n // 10] .. (n % 10 > 0 and "-" .. small[n % 10] or "") end
    if n < 1000 then return small[n // 100] .. " hundred" .. (n % 100 > 0 and " and " .. spell(n % 100) or "") end
    return spell(n // 1000) .. " thousand" .. (n % 1000 > 0 and " " .. spell(n % 1000) or "")
  end
  local lines = {}
  for n = 1, 1000 do lines[n] = string.format("%4d %s", n, spell(n)) end
  local letters, words, different, counts = 0, 0, 0, {}
  for word in table.concat(lines, "\n"):gmatch("%a+") do
    letters, words = letters + #word, words + 1
    if not counts[word] then different = different + 1 end
    counts[word] = (counts[word] or 0) + 1
  end
  return letters, words, different
end

-- Recursion and closures: in how many ways as many queens as a board has rows stand on it without attacking one another.
local function queens(size)
  local function board()
    local columns, rising, falling = {}, {}, {}
    local function is_free(row, column) return not (columns[column] or rising[row + column] or falling[row - column]) end
    local function set(row, column, is_there)
      columns[column], rising[row + column], falling[row - column] = is_there, is_there, is_there
    end
    return is_free, set
  end
  local is_free, set = board()
  local function place(row)
    if row > size then return 1 end
    local ways = 0
    for column = 1, size do
      if is_free(row, column) then
        set(row, column, true)
        ways = ways + place(row + 1)
        set(row, column, false)
      end
    end
    return ways
  end
  return place(1)
end

-- Coroutines: how many permutations of this many things there are, and how many of them leave nothing in its place.
local function permutations(size)
  local function permute(list, last)
    if last == 1 then return coroutine.yield(list) end
    for at = 1, last do
      list[at], list[last] = list[last], list[at]
      permute(list, last - 1)
      list[at], list[last] = list[last], list[at]
    end
  end
  local list = {}
  for at = 1, size do list[at] = at end
  local all, deranged = 0, 0
  for permutation in coroutine.wrap(function() permute(list, size) end) do
    local is_deranged = true
    for at, thing in ipairs(permutation) do is_deranged = is_deranged and thing ~= at end
    all = all + 1
    if is_deranged then deranged = deranged + 1 end
  end
  return all, deranged
end

-- Sorting by a function: all residues of a prime times a factor are the residues in another order, so sorted they are 1, 2, ..
-- The answer is how many stand in their place.
local function sorted_residues(prime, factor)
  local residues = {}
  for n = 1, prime - 1 do residues[n] = { value = n * factor % prime } end
  table.sort(residues, function(a, b) return a.value < b.value end)
  local in_place = 0
  for n, residue in ipairs(residues) do if residue.value == n then in_place = in_place + 1 end end
  return in_place
end

-- Floating-point numbers: the spectral norm of the first rows and columns of the matrix 1, 1/2, 1/3, .. along its diagonals, by
-- four steps of the power method, which give nine digits.
local function spectral_norm(size)
  local function element(i, j)
    local ij = i + j - 1
    return 1.0 / (ij * (ij - 1) * 0.5 + i)
  end
  local function times(x, pick)
    local y = {}
    for i = 1, size do
      local sum = 0
      for j = 1, size do sum = sum + x[j] * pick(i, j) end
      y[i] = sum
    end
    return y
  end
  local function transposed(i, j) return element(j, i) end
  local u, v = {}, nil
  for i = 1, size do u[i] = 1 end
  for _ = 1, 2 do
    v = times(times(u, element), transposed)
    u = times(times(v, element), transposed)
  end
  local numerator, denominator = 0, 0
  for i = 1, size do
    numerator, denominator = numerator + u[i] * v[i], denominator + v[i] * v[i]
  end
  return string.format("%.9f", math.sqrt(numerator / denominator))
end

local tasks = {
  { "collatz", function() return collatz(10000) end },
  { "primes", function() return primes(50000) end },
  { "look-and-say", function() return look_and_say(28) end },
  { "number-words", number_words },
  { "queens", function() return queens(8) end },
  { "permutations", function() return permutations(6) end },
  { "sorted-residues", function() return sorted_residues(2003, 1001) end },
  { "spectral-norm", function() return spectral_norm(100) end },
}

local wanted = ...
for _, task in ipairs(tasks) do
  local name, work = task[1], task[2]
  if not wanted or wanted == name then print(name, work()) end
end
