// What JavaScript programs do, with results that are known: each task prints one line, and `tasks.results` has the lines. The language is
// that of ECMAScript 5, which small engines have.

// Arrays: how many primes there are below the limit, and the largest.
function primes(limit) {
    var isComposite = [], count = 0, largest = 0;
    for (var n = 0; n < limit; ++n) isComposite.push(false);
    for (n = 2; n < limit; ++n) {
        if (!isComposite[n]) {
            count += 1;
            largest = n;
            for (var multiple = n * n; multiple < limit; multiple += n) isComposite[multiple] = true;
        }
    }
    return [count, largest];
}

// Recursion: a Fibonacci number.
function fibonacci(n) {
    return n < 2 ? n : fibonacci(n - 1) + fibonacci(n - 2);
}

// A regular expression that refers to itself, and a function for what it finds: the length of a term of 1, 11, 21, 1211, ..
function lookAndSay(term) {
    var text = "1";
    for (var n = 1; n < term; ++n) {
        text = text.replace(/(\d)\1*/g, function (run, digit) { return run.length + digit; });
    }
    return [text.length];
}

// Texts, and objects whose keys are texts: how many letters the numbers from 1 to 1000 have in words, as `three hundred and forty-two`,
// how many words those are, and how many different ones.
function numberWords() {
    var small = ("zero one two three four five six seven eight nine ten eleven twelve thirteen fourteen fifteen sixteen seventeen " +
        "eighteen nineteen").split(" ");
    var tens = "zero ten twenty thirty forty fifty sixty seventy eighty ninety".split(" ");
    function behind(word, n) { return n > 0 ? word + spell(n) : ""; }
    function spell(n) {
        if (n < 20) return small[n];
        if (n < 100) return tens[Math.floor(n / 10)] + behind("-", n % 10);
        if (n < 1000) return small[Math.floor(n / 100)] + " hundred" + behind(" and ", n % 100);
        return spell(Math.floor(n / 1000)) + " thousand" + behind(" ", n % 1000);
    }
    var lines = [];
    for (var n = 1; n <= 1000; ++n) lines.push(n + " " + spell(n));
    var words = lines.join("\n").match(/[a-z]+/g), counts = {};
    words.forEach(function (word) { counts[word] = (counts[word] || 0) + 1; });
    return [words.join("").length, words.length, Object.keys(counts).length];
}

// Closures: in how many ways as many queens as a board has rows stand on it without attacking one another.
function queens(size) {
    var columns = {}, rising = {}, falling = {};
    function isFree(row, column) { return !(columns[column] || rising[row + column] || falling[row - column]); }
    function put(row, column, isThere) { columns[column] = rising[row + column] = falling[row - column] = isThere; }
    function waysFrom(row) {
        var ways = row === size ? 1 : 0;
        for (var column = 0; row < size && column < size; ++column) {
            if (isFree(row, column)) {
                put(row, column, true);
                ways += waysFrom(row + 1);
                put(row, column, false);
            }
        }
        return ways;
    }
    return [waysFrom(0)];
}

// Sorting by a function: all residues of a prime times a factor are the residues in another order. How many stand in their place.
function sortedResidues(prime, factor) {
    var residues = [];
    for (var n = 1; n < prime; ++n) residues.push({ value: n * factor % prime });
    residues.sort(function (one, other) { return one.value - other.value; });
    return [residues.filter(function (residue, at) { return residue.value === at + 1; }).length];
}

// Prototypes: a tree of the same residues, and their sum in the order in which the tree has them; it is right only if each is larger than
// the one before.
function Tree() {
    this.root = null;
}
Tree.prototype.add = function (value) {
    var above = null, node = this.root;
    while (node) {
        above = node;
        node = value < node.value ? node.left : node.right;
    }
    var made = { value: value, left: null, right: null };
    if (!above) this.root = made;
    else if (value < above.value) above.left = made;
    else above.right = made;
};
Tree.prototype.each = function (visit) {
    (function walk(node) {
        if (node) {
            walk(node.left);
            visit(node.value);
            walk(node.right);
        }
    })(this.root);
};
function treeOfResidues(prime, factor) {
    var tree = new Tree(), sum = 0, last = 0;
    for (var n = 1; n < prime; ++n) tree.add(n * factor % prime);
    tree.each(function (value) {
        sum += value > last ? value : 0;
        last = value;
    });
    return [sum];
}

// Exceptions out of some depth, and what is done in any case: how many numbers up to the limit are multiples of seven, and all numbers.
function exceptions(limit) {
    function refuse(n, depth) {
        if (depth > 0) return refuse(n, depth - 1);
        if (n % 7 === 0) throw new RangeError("seven: " + n);
        return n;
    }
    var thrown = 0, done = 0;
    for (var n = 1; n <= limit; ++n) {
        try {
            refuse(n, 5);
        } catch (fault) {
            if (fault instanceof RangeError && fault.message === "seven: " + n) thrown += 1;
        } finally {
            done += 1;
        }
    }
    return [thrown, done];
}

// JSON: the length of a list of numbers and their squares, and the sum of the squares that come back.
function json(size) {
    var list = [];
    for (var n = 1; n <= size; ++n) list.push({ id: n, square: n * n });
    var text = JSON.stringify(list);
    return [text.length, JSON.parse(text).reduce(function (sum, one) { return sum + one.square; }, 0)];
}

// Floating-point numbers: pi by the means of Gauss and Legendre, and e by its series.
function constants() {
    var a = 1, b = Math.sqrt(0.5), t = 0.25, p = 1;
    for (var n = 0; n < 4; ++n) {
        var mean = (a + b) / 2;
        b = Math.sqrt(a * b);
        t -= p * (a - mean) * (a - mean);
        a = mean;
        p *= 2;
    }
    var e = 1, term = 1;
    for (n = 1; n < 20; ++n) {
        term /= n;
        e += term;
    }
    return [((a + b) * (a + b) / (4 * t)).toFixed(12), e.toFixed(12), Math.exp(3 * Math.log(10)).toFixed(6)];
}

// Numbers as texts, and how many eighths come back from theirs.
function numbers(limit) {
    var same = 0;
    for (var n = 1; n <= limit; ++n) if (parseFloat(String(n / 8)) === n / 8) same += 1;
    return [same, 1e21, 1 / 3, -1e-7, Math.pow(2, 53), (255).toString(16), (-10).toString(2), parseInt("zz", 36),
        (1 / 3).toPrecision(5), (123456.789).toExponential(3), (2.75).toFixed(1)];
}

// Days: how many there are from the first of 1970 to the first of 2000, and a leap day.
function days() {
    return [Date.UTC(2000, 0, 1) / 86400000, new Date(Date.UTC(2000, 1, 28) + 86400000).toISOString()];
}

var tasks = [
    ["primes", primes, [5000]],
    ["fibonacci", fibonacci, [16]],
    ["look-and-say", lookAndSay, [20]],
    ["number-words", numberWords, []],
    ["queens", queens, [6]],
    ["sorted-residues", sortedResidues, [503, 202]],
    ["tree", treeOfResidues, [503, 202]],
    ["exceptions", exceptions, [400]],
    ["json", json, [100]],
    ["constants", constants, []],
    ["numbers", numbers, [100]],
    ["days", days, []]
];

tasks.forEach(function (task) {
    var results = task[1].apply(null, task[2]);
    print([task[0]].concat(results).join(" "));
});
